"""The program examples/firmware under an emulator: its page against the panel program's, cut and complete, and its
refusal of a record that was changed by hand; that it does not link where the stack would grow into the page; and the
README's lines for firmware."""
import os
import re
import subprocess
import tempfile
import threading

from common import ROOT, fail, indented_blocks, read, run
from targets.boards import ARM, EMULATORS
from targets.tools import Need

SCRIPT = os.path.join(ROOT, "thalluskin")
FOLDER = os.path.join(ROOT, "examples", "firmware")
BUILT = os.path.join(ROOT, "target", "firmware")
NEEDS = [ARM, EMULATORS["qemu-system-arm"], Need("make", ["make"])]
BOARD = ["qemu-system-arm", "-M", "mps2-an386", "-display", "none", "-monitor", "none", "-serial", "stdio", "-kernel"]
COMPILER = ["arm-none-eabi-gcc", "-mcpu=cortex-m4", "-mthumb", "-std=c99", "-Wall", "-Wextra", "-Werror"]
HARD_FLOATS = ["-mfloat-abi=hard", "-mfpu=fpv4-sp-d16"]
COMPLETE, CUT = 21, 15  # pixels high
LAST = re.compile(rb"(complete|cut, rows dropped: \d+|refused: .*|fault)\n")
SECONDS = 60


def must(*words, **more):
    got = run(*words, **more)
    if got.returncode != 0:
        fail("targets: %s: status %d, %s" % (words[:4], got.returncode, got.stderr.decode()[-2000:]))
    return got.stdout


def make(height, *options, out=BUILT):
    return ["make", "-C", FOLDER, "HEIGHT=%d" % height, "OUT=" + out, *options]


def made(height, *options, out=BUILT):
    must(*make(height, *options, out=out))
    return os.path.join(out, "meter-%d.elf" % height)


def sent(program):
    """what the board sends, up to its last line; it runs on after that, and is stopped"""
    board = subprocess.Popen([*BOARD, program], stdin=subprocess.DEVNULL, stdout=subprocess.PIPE)
    stop = threading.Timer(SECONDS, board.kill)
    stop.start()
    lines = []
    for line in board.stdout:
        lines.append(line)
        if LAST.fullmatch(line):
            break
    stop.cancel()
    board.kill()
    board.wait()
    if not lines or not LAST.fullmatch(lines[-1]):
        fail("targets: the firmware sent no last line: %r" % lines[-3:])
    return b"".join(lines)


def snapshot():
    """the text in the program's source"""
    words = re.search(r'snapshot\[\] = "(.*)";', read("examples", "firmware", "main.c"))[1]
    return words.encode("ascii").decode("unicode_escape").encode("latin-1")


def panel(height, folder):
    """what the panel program makes of the text: its picture, and what was dropped as the firmware says it"""
    picture = os.path.join(folder, "page.pbm")
    said = must(SCRIPT, "show", snapshot(), "--height", str(height), "--pbm", picture).decode()
    dropped = re.search(r"^(no|\d+) rows? dropped", said, re.M)[1]
    last = "complete" if dropped == "no" else "cut, rows dropped: %s" % dropped
    with open(picture, "rb") as f:
        return f.read() + last.encode() + b"\n"


def refusal(folder):
    """with a font that lacks a byte the record reaches past its end, and no pixel is sent"""
    header = os.path.join(BUILT, "meter.h")
    with open(header) as f:
        text = f.read()
    changed, times = re.subn(r"meter_font\[(\d+)\] = \{\s*0x\w+, ",
                             lambda found: "meter_font[%d] = {" % (int(found[1]) - 1), text)
    if times != 1:
        fail("targets: meter.h is of another form")
    with open(os.path.join(folder, "meter.h"), "w") as f:
        f.write(changed)
    got = sent(made(COMPLETE, out=folder))
    words = re.search(r'case THK_BAD_TABLE:\n        return "(.*)";', read("include", "thalluskin.h"))[1]
    if got != b"refused: %s\n" % words.encode():
        fail("targets: the firmware with a font that is cut sends %r" % got)


def no_room():
    """a library that takes more stack than there is does not link"""
    must(SCRIPT, "build", "cortex-m4", "-Oz")
    got = run(*make(COMPLETE))
    if got.returncode == 0 or b"too little RAM is left for the stack" not in got.stderr:
        fail("targets: the firmware links without room for its stack: %s" % got.stderr.decode()[-2000:])


def readme(folder):
    """the README's lines for firmware: its commands succeed, and its C compiles and links, in a program that passes
    floats in registers"""
    section = read("README.md").split("## Use in firmware\n")[1].split("\n## ")[0]
    blocks = indented_blocks(section)
    commands = [line for block in blocks for line in block.splitlines() if line.startswith("./thalluskin ")]
    sources = [block for block in blocks if '#include "meter.h"' in block]
    if len(commands) != 2 or len(sources) != 1:
        fail("targets: the README's lines for firmware are others")
    for command in commands:
        must("sh", "-c", command.replace("> meter.h", "> %s/meter.h" % folder), cwd=ROOT)
    source, library = os.path.join(folder, "lines.c"), os.path.join(ROOT, "target", "cortex-m4")
    with open(source, "w") as f:
        f.write(sources[0] + "\nint main(void)\n{\n    return show((const uint8_t *)\"8\", 1);\n}\n")
    must(*COMPILER, *HARD_FLOATS, "-I", library, "-I", folder, source, "start.c",
         os.path.join(library, "libthalluskin.a"), "-nostartfiles", "--specs=nano.specs", "-T", "mps2-an386.ld",
         "-Wl,--gc-sections", "-Wl,-z,noexecstack", "-Wl,--defsym=LIBRARY_STACK=0", "-o", source + ".elf", cwd=FOLDER)
    return len(commands) + 1


def firmware():
    """how many programs ran, and how many of the README's lines; the library is made by the example's own rules"""
    with tempfile.TemporaryDirectory() as folder:
        for height, options in ((COMPLETE, ["-B"]), (CUT, [])):
            got, want = sent(made(height, *options)), panel(height, folder)
            if got != want:
                fail("targets: the firmware's page is not the panel's:\n%s\n%s" % (got.decode(), want.decode()))
        if not panel(COMPLETE, folder).endswith(b"complete\n") or b"cut" not in panel(CUT, folder):
            fail("targets: the two pages do not differ in what was cut")
        refusal(folder)
        no_room()
        return 3, readme(folder)
