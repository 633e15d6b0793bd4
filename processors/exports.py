"""The exported functions in LLVM's text: as the kit writes them for a prototype of the header, with structs by value in
the way of x86-64, and as other processors have them, with structs lent. Both hand on to a function of the crate
thalluskin_c that takes its answer's place, a slice as a pointer, which is not null, and a length, a struct of one or
two numbers as these, other structs by pointers, and numbers as they are."""
from processors import header
from processors.accesses import READ_BYTES, WRITE_BYTES, WRITE_PIXELS
from processors.header import BY_VALUE, LENT

IN_LLVM = {"uint32_t": "i32", "uint64_t": "i64"}
WAYS = {"const uint8_t *": READ_BYTES, "uint8_t *": WRITE_BYTES, "uint32_t *": WRITE_PIXELS}
SLICE, WORD, BY_POINTER = 16, 8, 16  # bytes: of a slice, of a register, and of the largest struct that goes in two
NUMBERS = 2  # at most, of a struct that is handed on as its numbers
IN_BYTES = {1: "i8", 2: "i16", 4: "i32", 8: "i64"}
NOT_NULL = 4096  # the address in the place of NULL


class Export:
    """one function's text, as it grows: parameters %a0 and on, memory of its own %r0 and on"""

    def __init__(self):
        self.parameters, self.inside, self.values, self.registers = [], [], [], 0

    def parameter(self, words):
        self.parameters.append("%s %%a%d" % (words, len(self.parameters)))
        return "%%a%d" % (len(self.parameters) - 1)

    def line(self, words):
        """an instruction that answers something; where that is"""
        name = "%%r%d" % self.registers
        self.registers += 1
        self.inside.append("%s = %s" % (name, words))
        return name

    def step(self, place, by):
        return self.line("getelementptr i8, ptr %s, i64 %s" % (place, by)) if by else place

    def kept(self, size, align, given):
        """memory of its own, with the words that `given` makes, one after the other, as they are named"""
        first = self.line("alloca [%d x i8], align %d" % (size, align))
        for k, (kind, value) in enumerate(given()):
            place = self.step(first, WORD * k)
            self.inside.append("store %s %s, ptr %s, align %d" % (kind, value, place, align))
        return first

    def not_null(self, pointer):
        """the pointer, or another one in the place of NULL"""
        is_null = self.line("icmp eq ptr %s, null" % pointer)
        wide = self.line("zext i1 %s to i64" % is_null)
        return self.step(pointer, self.line("mul i64 %s, %d" % (wide, NOT_NULL)))

    def parts(self, place, kinds, align):
        """the numbers or pointers at a place are handed on, by their offsets"""
        for offset, kind in kinds:
            self.values.append("%s %s" % (kind, self.line("load %s, ptr %s, align %d" % (
                kind, self.step(place, offset), align))))

    def text(self, head, called, end):
        lines = [*self.inside, "call void %s(%s)" % (called, ", ".join(self.values)), end]
        lines = "".join("  %s\n" % line for line in lines)
        return "%s(%s) #0 {\nstart:\n%s}\n" % (head, ", ".join(self.parameters), lines)


def exported(answer, name, given, called, lends):
    """a function's text; by the parameter, size and alignment of each struct that it is lent, and how each slice is
    reached"""
    made, stated, slices = Export(), {}, {}
    place = made.parameter("ptr noundef align %d" % header.alignment(answer) if lends else "ptr noundef")
    stated[place] = header.sizes()[answer], header.alignment(answer)
    made.values.append("ptr " + place)
    lengths = {word + "_len" for kind, word, _ in given if header.is_pointer(kind)}
    for kind, word, is_struct in given:
        if is_struct:
            size, align = header.sizes()[kind], header.alignment(kind)
            if lends:
                value = made.parameter("ptr noundef align %d" % align)
                stated[value] = size, align
            elif size > BY_POINTER:
                value = made.parameter("ptr noundef byval([%d x i8]) align %d" % (size, align))
            else:
                kinds = ["i%d" % (8 * min(WORD, size - at)) for at in range(0, size, WORD)]
                value = made.kept(size, align, lambda: [(one, made.parameter(one)) for one in kinds])
            numbers = header.numbers(kind)
            if len(numbers) <= NUMBERS:
                made.parts(value, [(offset, IN_BYTES[width]) for offset, width in numbers], 1)
            else:
                made.values.append("ptr " + value)
        elif header.is_pointer(kind):
            pointer, length = made.parameter("ptr noundef"), made.parameter("i64 noundef")
            slices[pointer] = WAYS[kind]
            slice = made.kept(SLICE, WORD, lambda: [("ptr", made.not_null(pointer)), ("i64", length)])
            made.parts(slice, [(0, "ptr"), (WORD, "i64")], 1)
        elif word not in lengths:
            made.values.append("%s %s" % (IN_LLVM[kind], made.parameter(IN_LLVM[kind] + " noundef")))
    if lends:
        return made.text("define void @%s%s" % (LENT, name), called, "ret void"), stated, slices
    return made.text("define noundef ptr @%s%s" % (BY_VALUE, name), called, "ret ptr " + place), stated, slices
