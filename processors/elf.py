"""Object files of the form ELF, little-endian, of 32 and 64 bits: sections, symbols, and which section refers to
which."""
import collections
import struct

from processors.kit import Failed

ALLOCATED = 2
SYMBOLS, RELOCATIONS = 2, {4, 9}  # kinds of sections
UNDEFINED, RESERVED = 0, 0xFF00
FUNCTION, GLOBAL = 2, {1, 2}

Section = collections.namedtuple("Section", "name kind flags start size link info")
Symbol = collections.namedtuple("Symbol", "name kind is_global section")


class Object:
    def __init__(self, content):
        if content[:4] != b"\x7fELF" or content[5] != 1:
            raise Failed("not an object file of the form ELF, little-endian")
        self.content, self.wide = content, content[4] == 2
        place, count, names = (40, 60, 62) if self.wide else (32, 48, 50)
        start, = struct.unpack_from("<Q" if self.wide else "<I", content, place)
        form = "<IIQQQQIIQQ" if self.wide else "<IIIIIIIIII"
        raw = [struct.unpack_from(form, content, start + k * struct.calcsize(form)) for k in range(self.half(count))]
        strings = raw[self.half(names)][4]
        self.sections = [Section(self.word(strings + name), kind, flags, at, size, link, info)
                         for name, kind, flags, _, at, size, link, info, _, _ in raw]
        self.symbols = list(self.read_symbols())

    def half(self, place):
        return struct.unpack_from("<H", self.content, place)[0]

    def word(self, start):
        return self.content[start:self.content.index(b"\0", start)].decode()

    def read_symbols(self):
        for section in self.sections:
            if section.kind == SYMBOLS:
                strings, size = self.sections[section.link].start, 24 if self.wide else 16
                for at in range(section.start, section.start + section.size, size):
                    if self.wide:
                        name, kind, _, of, _, _ = struct.unpack_from("<IBBHQQ", self.content, at)
                    else:
                        name, _, _, kind, _, of = struct.unpack_from("<IIIBBH", self.content, at)
                    yield Symbol(self.word(strings + name), kind & 15, kind >> 4 in GLOBAL, of)

    def allocated(self):
        """bytes of code and constants"""
        return sum(section.size for section in self.sections if section.flags & ALLOCATED)

    def undefined(self):
        return sorted({symbol.name for symbol in self.symbols if symbol.section == UNDEFINED and symbol.name})

    def functions(self):
        """the section of each function; each has one of its own"""
        found = {symbol.name: symbol.section for symbol in self.symbols
                 if symbol.kind == FUNCTION and UNDEFINED < symbol.section < RESERVED}
        if len(set(found.values())) != len(found):
            raise Failed("two functions share a section")
        return found

    def references(self):
        """which sections each section refers to"""
        found = collections.defaultdict(set)
        for section in self.sections:
            if section.kind in RELOCATIONS:
                size = (16 if self.wide else 8) + (8 if self.wide else 4) * (section.kind == 4)
                for at in range(section.start, section.start + section.size, size):
                    info, = struct.unpack_from("<Q" if self.wide else "<I", self.content, at + (8 if self.wide else 4))
                    found[section.info].add(self.symbols[info >> (32 if self.wide else 8)].section)
        return found

    def frames(self):
        """the bytes of stack that the function in each section takes for itself, as the compiler says"""
        found = {}
        for section in self.sections:
            if section.name == ".stack_sizes":
                at, taken, shift = section.start + (8 if self.wide else 4), 0, 0
                while True:
                    byte = self.content[at]
                    taken |= (byte & 127) << shift
                    at, shift = at + 1, shift + 7
                    if byte < 128:
                        break
                if at != section.start + section.size:
                    raise Failed("two functions share a table of stack sizes")
                found[section.link] = taken
        return found
