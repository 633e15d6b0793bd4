"""Boards without a system, which an emulator plays: how replay.c becomes a program for each, and how that is run."""
import glob
import os

from common import TESTS
from native.library import run, tool
from targets.tools import Need, found_by, said_by

BARE = os.path.join(TESTS, "targets", "bare")
FREESTANDING = os.path.join(BARE, "freestanding")
SOURCES = [os.path.join(TESTS, "exports", "replay.c"),
           *(os.path.join(BARE, name + ".c") for name in ("streams", "lending", "main"))]
OPTIONS = ["-std=gnu99", "-O2", "-Wall", "-Wextra", "-Werror", "-ffunction-sections", "-fdata-sections",
           "-I", os.path.join(TESTS, "exports"), "-I", BARE]
QEMU = ["-display", "none", "-monitor", "none", "-serial", "none", "-semihosting-config", "enable=on,target=native"]
PROGRAM = "replay.elf"

# Bytes of stack below a call that are painted, more than any call takes, and the stack's room. The program notices a
# call that takes all of the paint.
PAINTED = 8192
STACK = PAINTED + 4096

# The most stack that is taken by what the linker adds to the library, copies and divisions. With Debian 12's libgcc a
# division of 64 bits takes 72 bytes on a Cortex-M0+ and 48 on a Cortex-M4, and no copy more; on RISC-V nothing takes
# any. Another libgcc or C library may take a little more. For AArch64 there is memory.c alone, which takes none.
ON_ARM, ON_RISCV, ON_AARCH64 = 96, 32, 0


class Gcc:
    """a compiler for the processor, and the C library whose specs it finds"""

    def __init__(self, need, *options):
        self.needs, self.words = [need], [need.command, *options, "--specs=" + need.finds]

    def compile(self, folder, *words):
        run(*self.words, *OPTIONS, "-c", *words, cwd=folder)

    def link(self, folder, script, options, *words):
        run(*self.words, "-nostartfiles", "-T", script, *("-Wl," + option for option in options), *words, cwd=folder)


class Kit:
    """the Rattle kit's clang and linker, with those headers of the compiler at hand that need no C library"""
    needs = [Need("gcc", ["gcc"])]

    def __init__(self, *options):
        self.options = options

    def compile(self, folder, *words):
        run(tool("clang"), *self.options, *OPTIONS, "-ffreestanding", "-isystem", found_by("gcc", "include"),
            "-I", FREESTANDING, "-c", *words, os.path.join(FREESTANDING, "memory.c"), cwd=folder)

    def link(self, folder, script, options, *words):
        run(tool("ld.lld"), "-T", script, *options, *words, cwd=folder)


class Board:
    """a machine of an emulator; `begins` is the address of its program, where the linker's script leaves that open, and
    `linked` the stack that may be taken by what is linked beside the library"""
    library = "libthalluskin.a"

    def __init__(self, emulator, toolchain, start, script, begins, linked):
        self.emulator, self.toolchain, self.linked = emulator, toolchain, linked
        self.needs = [*toolchain.needs, EMULATORS[emulator[0]]]
        self.words = "%s %s" % (emulator[0], emulator[2])
        self.start, self.script = os.path.join(BARE, start), os.path.join(BARE, script)
        self.linking = ["--gc-sections", "--defsym=STACK_ROOM=%d" % STACK, "--defsym=PROGRAM=%d" % begins]

    def prepare(self, folder, rooms, headers):
        """compiles what its programs have beside the library; `rooms` has the most bytes of each object"""
        defined = {"STACK_IS_MEASURED": 1, "PAINTED": PAINTED,
                   **{name.upper() + "_ROOM": most for name, most in rooms.items()}}
        self.toolchain.compile(folder, "-I", headers, *("-D%s=%d" % one for one in defined.items()), *SOURCES,
                               self.start)

    def run(self, what, folder, archive):
        """makes the calls of calls.bin, which leaves left.bin; what the program says"""
        self.toolchain.link(folder, self.script, self.linking, *glob.glob(os.path.join(folder, "*.o")), archive,
                            "-o", PROGRAM)
        return said_by(what, *self.emulator, *QEMU, "-kernel", PROGRAM, folder=folder)


ARM = Need("arm-none-eabi-gcc", ["gcc-arm-none-eabi", "libnewlib-arm-none-eabi"], finds="nano.specs")
RISCV = Need("riscv64-unknown-elf-gcc", ["gcc-riscv64-unknown-elf", "picolibc-riscv64-unknown-elf"],
             finds="picolibc.specs")
EMULATORS = {command: Need(command, *([package] for package in packages)) for command, *packages in (
    ("qemu-system-arm", "qemu-system-arm"), ("qemu-system-aarch64", "qemu-system-arm"),
    ("qemu-system-riscv32", "qemu-system-misc", "qemu-system-riscv"),
    ("qemu-system-riscv64", "qemu-system-misc", "qemu-system-riscv"))}

VIRT = ["-M", "virt", "-m", "64", "-nic", "none"]
BOARDS = {
    "cortex-m4": Board(["qemu-system-arm", "-M", "mps2-an386"],
                       Gcc(ARM, "-mcpu=cortex-m4", "-mthumb"), "start_arm.c", "arm.ld", 0, ON_ARM),
    "cortex-m0plus": Board(["qemu-system-arm", "-M", "microbit", "-global", "nrf51-soc.sram-size=262144"],
                           Gcc(ARM, "-mcpu=cortex-m0plus", "-mthumb"), "start_arm.c", "arm.ld", 0, ON_ARM),
    "riscv32": Board(["qemu-system-riscv32", *VIRT, "-bios", "none"],
                     Gcc(RISCV, "-march=rv32imac", "-mabi=ilp32"), "start_riscv.S", "virt.ld", 0x80000000, ON_RISCV),
    "riscv64": Board(["qemu-system-riscv64", *VIRT, "-bios", "none"],
                     Gcc(RISCV, "-march=rv64imac", "-mabi=lp64", "-mcmodel=medany"), "start_riscv.S", "virt.ld",
                     0x80000000, ON_RISCV),
    "aarch64": Board(["qemu-system-aarch64", *VIRT, "-cpu", "cortex-a53"],
                     Kit("--target=aarch64-unknown-none-elf"), "start_aarch64.S", "virt.ld", 0x40200000, ON_AARCH64),
}
