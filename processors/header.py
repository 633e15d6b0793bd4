"""What the C header says: the archive's functions and the structs that go through them."""
import functools
import re

from processors.kit import HEADER

# what the archive's functions begin with: on x86-64, and elsewhere, where structs are lent
BY_VALUE, LENT = "thalluskin_", "thalluskin_lent_"
VERSION = "thalluskin_version"

NUMBERS = {"bool": 1, "uint8_t": 1, "int16_t": 2, "uint16_t": 2, "int32_t": 4, "uint32_t": 4, "uint64_t": 8}


@functools.lru_cache(None)
def text():
    with open(HEADER, encoding="utf-8") as f:
        return f.read()


def defined(name):
    """a macro's number"""
    return int(re.search(r"^#define %s (\d+)$" % name, text(), re.M)[1])


@functools.lru_cache(None)
def named_numbers():
    """what the header's own names for types of numbers stand for"""
    return {name: kind for kind, name in re.findall(r"^typedef (\w+) (\w+);", text(), re.M)}


def plain(kind):
    """a type without such a name"""
    return named_numbers().get(kind, kind)


def prototypes():
    """answer, name and parameters of the archive's functions but the version's; a parameter is its type, its name and
    whether it is a struct"""
    for answer, name, given in re.findall(r"^THK_DECLARE\((\w+), (\w+), (.*?)\);", text(), re.M | re.S):
        parts = [" ".join(one.split()) for one in given.split(",")]
        parts = [re.fullmatch(r"(?:THK_STRUCT\((\w+)\) |(.*?))(\w+)", one) for one in parts]
        yield answer, name, [(m[1] or plain(m[2].strip()), m[3], m[1] is not None) for m in parts]


def is_pointer(kind):
    return kind.endswith("*")


@functools.lru_cache(None)
def structs():
    """type and name of each struct's fields, of those structs that hold numbers alone"""
    found = {}
    for body, name in re.findall(r"^typedef struct \{\n(.*?)^\} (\w+);", text(), re.M | re.S):
        fields = re.findall(r"^    (\w+) (\w+);", body, re.M)
        if "*" not in body:
            found[name] = [(plain(kind), field) for kind, field in fields]
    return found


@functools.lru_cache(None)
def sizes():
    """the size of each of these, as the header asserts it"""
    return {name: int(size) for name, size in re.findall(r"\bTHK_SIZE\((\w+), (\d+)\);", text())}


@functools.lru_cache(None)
def offsets():
    """where each field stands, as the header asserts it"""
    stated = re.findall(r"\bTHK_AT\((\w+), (\w+), (\d+)\);", text())
    return {(name, field): int(offset) for name, field, offset in stated}


def alignment(kind):
    """of a number or a struct: that of its widest number"""
    return NUMBERS.get(kind) or max(alignment(of) for of, _ in structs()[kind])


def numbers(kind):
    """offset and width of each number of a number or a struct"""
    if kind in NUMBERS:
        return [(0, NUMBERS[kind])]
    return [(offsets()[kind, field] + at, width) for of, field in structs()[kind] for at, width in numbers(of)]
