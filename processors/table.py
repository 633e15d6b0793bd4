"""The processors that the library can be made for."""
import collections
import platform

# `options` are clang's; `extended` is how a number of 32 bits stands in a register when it is answered; `asm` goes into
# the module's assembler text
Target = collections.namedtuple("Target", "words options extended asm", defaults=("", ""))

# Tag_ABI_VFP_args, 3: the code passes no floats, so that programs of both ways to pass them may link it
NO_FLOATS = ".eabi_attribute 28, 3"

TARGETS = {
    "cortex-m4": Target("Arm Cortex-M4, with soft or hard floats", [
        "--target=thumbv7em-none-eabi", "-mcpu=cortex-m4", "-mfloat-abi=soft"], asm=NO_FLOATS),
    "cortex-m0plus": Target("Arm Cortex-M0+", [
        "--target=thumbv6m-none-eabi", "-mcpu=cortex-m0plus", "-mfloat-abi=soft"], asm=NO_FLOATS),
    "riscv32": Target("RISC-V of 32 bits, rv32imac and ilp32", [
        "--target=riscv32-unknown-elf", "-march=rv32imac", "-mabi=ilp32"]),
    "riscv64": Target("RISC-V of 64 bits, rv64imac and lp64", [
        "--target=riscv64-unknown-elf", "-march=rv64imac", "-mabi=lp64", "-mcmodel=medany"], "signext "),
    "aarch64": Target("Arm of 64 bits, Linux or bare", ["--target=aarch64-unknown-none-elf", "-fPIC"]),
    "x86-64": Target("Linux, the kit's own archive", ["--target=x86_64-unknown-linux-gnu", "-fPIC"]),
    "wasm": Target("WebAssembly of 32 bits, for browsers and node", ["--target=wasm32-unknown-unknown"]),
}

# the one whose archive the kit makes itself
OWN = "x86-64"


def at_hand():
    """the name of the machine at hand in the table, or None"""
    name = {"x86_64": OWN}.get(platform.machine(), platform.machine())
    return name if name in TARGETS else None
