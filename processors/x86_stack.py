"""How deep the stack grows in each function of an archive for x86-64, from their instructions: along every path what
is pushed and what is taken off the stack's pointer, what is stored below that pointer, and under each call the callee's
own. The kit's archive has no tables of stack sizes."""
import re

from processors.kit import Failed, run
from processors.table import OWN, at_hand

DISASSEMBLER = "objdump" if at_hand() == OWN else "x86_64-linux-gnu-objdump"
ELSEWHERE = {"memcpy", "memset"}  # of the C library, and not counted
WORD = 8


def functions(archive):
    """the instructions of each function: address, name, operands, and the function that it calls or jumps to"""
    found, lines = {}, []
    for line in run(DISASSEMBLER, "-dr", "--no-show-raw-insn", archive).split("\n"):
        start = re.fullmatch(r"[0-9a-f]+ <(.*)>:", line)
        one = re.fullmatch(r" *([0-9a-f]+):\t(\w+) *(.*)", line)
        named = re.search(r"\bR_X86_64_PLT32\t(?:\.text\.)?(.*)-0x4$", line)
        if start:
            lines = found[start[1]] = []
        elif one and not one[2].startswith("R_"):
            lines.append([int(one[1], 16), one[2], one[3], None])
        elif named:
            lines[-1][3] = named[1]
    return found


def taken(word, operands):
    """by how much an instruction moves the stack's pointer down"""
    if word in ("push", "pop"):
        return WORD if word == "push" else -WORD
    moved = re.fullmatch(r"\$0x([0-9a-f]+),%rsp", operands)
    if moved and word in ("add", "sub"):
        n = int(moved[1], 16)
        n -= n >> 63 << 64  # it is signed
        return n if word == "sub" else -n
    if re.match("push|pop|enter|leave", word) or operands.endswith(",%rsp") and word not in ("cmp", "test"):
        raise Failed("stack: what does '%s %s' take?" % (word, operands))
    return 0


def leads(lines, k, places):
    """where an instruction leads in its function; None for a jump by a table"""
    _, word, operands, named = lines[k]
    if word in ("ret", "ud2"):
        return []
    if word == "jmp" and "*" in operands:
        return None
    there = [places[int(operands.split()[0], 16)]] if word[0] == "j" and not named else []
    return there if word == "jmp" else [*there, k + 1]


def depths(lines):
    """how much is taken before each instruction. What only a table leads to has what is taken at the jump"""
    places = {line[0]: k for k, line in enumerate(lines)}
    before, ways, jumps = {0: 0}, [0], []
    while ways:
        k = ways.pop()
        deep, following = before[k] + taken(*lines[k][1:3]), leads(lines, k, places)
        if following is None:
            jumps.append(deep)
        for there in following or []:
            if there not in before:
                ways.append(there)
            if before.setdefault(there, deep) != deep:
                raise Failed("stack: two depths at %x" % lines[there][0])
        rest = [there for there in range(len(lines)) if there not in before]
        if jumps and rest and not ways:
            before[rest[0]] = max(jumps)
            ways.append(rest[0])
    return before


def deepest(found, name, above=()):
    """how much a function takes, its return address not counted"""
    if name in ELSEWHERE:
        return 0
    if name in above:
        raise Failed("stack: %s calls itself" % name)
    most = 0
    for k, before in depths(found[name]).items():
        _, word, operands, named = found[name][k]
        if word.startswith("call") and not named:
            raise Failed("stack: whom does '%s %s' call?" % (word, operands))
        below = [int(n, 16) for n in re.findall(r"-(0x[0-9a-f]+)\(%rsp", operands)]
        inside = [deepest(found, named, (*above, name)) + WORD * (word == "call")] if named else []
        most = max([most, before + max(0, taken(word, operands)), *(before + n for n in below + inside)])
    return most


def of_archive(archive, names):
    """of these functions, with the return address"""
    found = functions(archive)
    return {name: deepest(found, name) + WORD for name in names}
