"""Every access to memory of a module, and whether it means the same where a pointer has 4 bytes as where it has 8.

A function's own memory is what it allocates and what its caller hands it the address of: answers, records. Lent memory
is what the pointer of a slice points to: a font's bytes, a text, a buffer; and a constant array of bytes. A slice is
handed on as a pointer and a length. The module is refused unless

  - own memory is reached by constant offsets, within what was allocated or what the header says a struct has, at the
    alignment that the access asks for;
  - lent memory is reached by the pointer of a slice and a number of bytes, always in one way, the one that the header
    says of it: bytes that are read, bytes that are written, or pixels that are written;
  - a place of own memory that holds a pointer has 8 bytes to itself, under every name that it has, and is only ever
    read, written and copied as a whole pointer; what is allocated for one pointer is used for nothing else; no struct
    of a caller's holds one, and none is put into memory that a caller hands in;
  - what is set to 0 as a whole is all of what was allocated, and was not for one pointer alone;
  - no address of own memory is stored, answered or made of a number, but for an array of bytes or of pixels, which is
    lent memory from then on, neither handed on by that address nor copied;
  - what is reached by a pointer is what a caller lends, or such an array;
  - a function's parameter is an address of own memory in every call, or of lent memory in every call;
  - what is copied as a whole is own memory, of a constant size;
  - nothing is written through a pointer to a struct that a caller lends, but the answer;
  - no function calls itself, directly or through others.

Where these hold no number depends on a pointer's size: pointers are stored and copied, never counted. That lent memory
is reached within its length, and pixels at multiples of 4 bytes from its beginning, is not looked at here: it is proved
of the source, and the kit translates it."""
import collections

from processors.kit import Failed
from processors.module import arguments

WIDTH = {"i1": 1, "i8": 1, "i16": 2, "i32": 4, "i64": 8, "ptr": 8}
# how lent memory is reached: what is done, to which type, at which alignment
READ_BYTES, WRITE_BYTES, WRITE_PIXELS = ("load", "i8", 1), ("store", "i8", 1), ("store", "i32", 4)

# an address of own memory: what was allocated or handed in, by its function and name, and the offset from there
Place = collections.namedtuple("Place", "region offset")
# an address of lent memory, by the place that its pointer was read from, or by the parameter or constant that it is
Lent = collections.namedtuple("Lent", "source")
Touch = collections.namedtuple("Touch", "offset type align")


class Accesses:
    """of the functions of a module; `structs` has size and alignment of each struct that a caller lends, by function
    and parameter, `answers` those of them that are written, and `slices` how memory is reached that a caller lends"""

    def __init__(self, functions, structs, answers, slices):
        self.functions, self.structs, self.answers, self.slices = functions, structs, answers, slices
        self.touches = collections.defaultdict(list)
        self.copies, self.handed = [], []  # two places and a size; a parameter and the place that it is
        self.lent = []  # a parameter and the lent memory that it is
        self.constants = {}  # how constant arrays are reached
        self.allocated, self.slots = {}, set()
        self.stored, self.arrays = [], []  # what is lent or an array, and where its address is stored
        self.written, self.reached = set(), collections.Counter()  # the ways in which lent memory is reached
        for name in self.callers_first():
            self.walk(functions[name])
        self.elsewhere = {place.region for *places, _ in self.copies for place in places}
        self.elsewhere |= {place.region for _, place in self.handed}
        self.lent_arrays()
        self.extents()
        self.alignments()
        self.pointers()
        self.writes()

    # ---- one function

    def walk(self, function):
        """what its instructions do, each by its form; `known` are the addresses that its pointers hold"""
        self.inside, known = function.name, {}
        lent, own = ({parameter for parameter, _ in given} for given in (self.lent, self.handed))
        for kind, name in function.parameters:
            if kind == "ptr":
                region = (function.name, name)
                if region in lent & own:
                    raise Failed("%s of %s is handed own memory and lent memory" % (name, function.name))
                known[name] = Lent(region) if region in {*lent, *self.slices} else Place(region, 0)
        for form, parts, line in function.instructions:
            try:
                getattr(self, form)(known, parts)
            except KeyError as unknown:
                raise Failed("in %s %s is not known before this: %s" % (function.name, unknown, line))
            except Failed as failed:
                raise Failed("in %s %s: %s" % (function.name, failed, line))

    def alloca(self, known, parts):
        region = (self.inside, parts["to"])
        size = int(parts["bytes"]) if parts["bytes"] else WIDTH[parts["of"]]
        self.allocated[region] = size, int(parts["align"])
        self.slots |= {region} if parts["of"] == "ptr" else set()
        known[parts["to"]] = Place(region, 0)

    def step(self, known, parts):
        at = known[parts["at"]]
        if isinstance(at, Place):
            if not parts["by"].isdigit():
                raise Failed("own memory is reached by a number that is not constant")
            at = Place(at.region, at.offset + int(parts["by"]))
        known[parts["to"]] = at

    def touch(self, what, at, parts):
        if isinstance(at, Lent):
            self.reached[at.source, (what, parts["type"], int(parts["align"]))] += 1
        else:
            self.touches[at.region].append(Touch(at.offset, parts["type"], int(parts["align"])))

    def load(self, known, parts):
        at = known[parts["at"]]
        self.touch("load", at, parts)
        if parts["type"] == "ptr":
            if isinstance(at, Lent):
                raise Failed("lent memory is taken for a pointer")
            known[parts["to"]] = Lent(at)

    def pair(self, known, parts):
        at, align = known[parts["at"]], int(parts["align"])
        if isinstance(at, Lent):
            raise Failed("lent memory is taken for two numbers")
        offset = 0
        for kind in parts["type"].strip("{ }").split(", "):
            offset += -offset % WIDTH[kind]
            self.touches[at.region].append(Touch(at.offset + offset, kind, min(align, WIDTH[kind])))
            offset += WIDTH[kind]

    def null(self, known, parts):
        pass

    def store(self, known, parts):
        at = known[parts["at"]]
        self.touch("store", at, parts)
        if parts["type"] == "ptr":
            if isinstance(at, Lent):
                raise Failed("a pointer is stored in lent memory")
            if at.region not in self.allocated:
                raise Failed("a pointer is stored in memory of a caller's")
            value = self.constant(parts["value"]) or known[parts["value"]]
            (self.stored if isinstance(value, Lent) else self.arrays).append((value, at))
        if isinstance(at, Place):
            self.written.add(at.region)

    def constant(self, name):
        """a constant array of bytes, which is read; None of another name"""
        if not name.startswith("@"):
            return None
        region = ("the module", name)
        self.constants[region] = READ_BYTES
        return Lent(region)

    def zero(self, known, parts):
        at = known[parts["at"]]
        if isinstance(at, Lent):
            raise Failed("lent memory is set to 0 as a whole")
        if at.offset or at.region in self.slots or self.allocated.get(at.region, (0,))[0] != int(parts["size"]):
            raise Failed("what is set to 0 is not all that was allocated, or is so for a pointer")
        self.written.add(at.region)

    def copy(self, known, parts):
        at, source = known[parts["at"]], known[parts["source"]]
        if isinstance(at, Lent) or isinstance(source, Lent):
            raise Failed("lent memory is copied as a whole")
        self.copies.append((at, source, int(parts["size"])))
        self.written.add(at.region)

    def call(self, known, parts):
        called, given = self.functions[parts["name"]], arguments(parts["given"])
        kinds = [kind for kind, _ in called.parameters]
        if parts["type"] != called.answer or [kind for kind, _ in given] != kinds:
            raise Failed("a call does not have the function's parameters and answer")
        for (kind, name), (_, value) in zip(called.parameters, given):
            if kind == "ptr":
                is_lent = isinstance(known[value], Lent)
                (self.lent if is_lent else self.handed).append(((called.name, name), known[value]))

    def plain(self, known, parts):
        pass

    # ---- all of them together

    def stated(self, region):
        """size and alignment of a region that is not a parameter of an internal function"""
        return self.structs.get(region) or self.allocated.get(region)

    def callers_first(self):
        """the functions' names, each after those of its callers; no function calls itself"""
        calls = {name: {parts["name"] for form, parts, _ in function.instructions if form == "call"}
                 for name, function in self.functions.items()}
        order = []
        while calls:
            called = set().union(*calls.values())
            firsts = [name for name in calls if name not in called]
            if not firsts:
                raise Failed("%s calls itself" % ", ".join(sorted(calls)))
            order += firsts
            for name in firsts:
                del calls[name]
        return order

    def lent_arrays(self):
        """what is lent though it is own memory is an array of bytes or of pixels, allocated where it is lent"""
        for (region, offset), _ in self.arrays:
            kinds = {touch.type for touch in self.touches[region]}
            _, align = self.allocated.get(region, (0, 0))
            if offset or region in self.elsewhere or kinds not in ({"i8"}, {"i32"}) or align < WIDTH[min(kinds)]:
                raise Failed("in %s the address of %s is stored, which is no array of bytes or pixels" % region)

    def extents(self):
        """no access ends past what was allocated or lent"""
        self.ends = most = collections.Counter()
        for region, touches in self.touches.items():
            most[region] = max(touch.offset + WIDTH[touch.type] for touch in touches)
        for *places, size in self.copies:
            for place in places:
                most[place.region] = max(most[place.region], place.offset + size)
        settle(self.handed, lambda parameter, place: raised(most, place.region, place.offset + most[parameter]))
        for region, end in most.items():
            stated = self.stated(region)
            if stated and end > stated[0]:
                raise Failed("in %s %s has %d bytes, and %d are reached" % (*region, stated[0], end))

    def alignments(self):
        """a parameter's alignment is the least that a call of its function gives; no access asks for more"""
        self.aligned = dict.fromkeys((parameter for parameter, _ in self.handed), 8)

        def at(place):
            stated = self.stated(place.region)
            base = stated[1] if stated else self.aligned.get(place.region, 1)
            return min(base, place.offset & -place.offset) if place.offset else base
        settle(self.handed, lambda parameter, place: lowered(self.aligned, parameter, at(place)))
        for region, touches in self.touches.items():
            for touch in touches:
                if at(Place(region, touch.offset)) < touch.align:
                    raise Failed("in %s %s is not aligned to %d at byte %d" % (*region, touch.align, touch.offset))

    def pointers(self):
        """each byte of a pointer is that byte of a pointer under every name that it has, and no copy has a part of one.
        Bytes that a copy or a call makes the same are one; so is the pointer that is read from a place and stored in
        another"""
        same, kinds = Same(), collections.defaultdict(set)
        for one, other, size in self.copies:
            for k in range(size):
                same.join(Place(one.region, one.offset + k), Place(other.region, other.offset + k))
        for parameter, place in self.handed:
            for k in range(self.ends[parameter]):
                same.join(Place(parameter, k), Place(place.region, place.offset + k))
        for region, touches in self.touches.items():
            for touch in set(touches):
                for k in range(WIDTH[touch.type]):
                    kinds[same.of(Place(region, touch.offset + k))].add((touch.type, k))
        for of_it in kinds.values():
            if len(of_it) > 1 and any(kind == "ptr" for kind, _ in of_it):
                raise Failed("a pointer shares its place: %s" % sorted(of_it))
        self.whole(same, kinds)
        for region in self.slots:
            if region in self.elsewhere or {touch[:2] for touch in self.touches[region]} - {(0, "ptr")}:
                raise Failed("in %s what is allocated for the pointer %s is used for something else" % region)
        self.ways(same)

    def whole(self, same, kinds):
        """pointers are aligned, copied as wholes, and not in structs of a caller's"""
        for *places, size in self.copies:
            for region, offset in places if size else ():
                first, last = (kinds.get(same.of(Place(region, at)), ()) for at in (offset, offset + size - 1))
                if {("ptr", k) for k in range(1, 8)} & set(first) or {("ptr", k) for k in range(7)} & set(last):
                    raise Failed("in %s a part of a pointer is copied to or from %s" % region)
        for (region, offset), _, size in self.copies:
            within = [kinds.get(same.of(Place(region, offset + k)), ()) for k in range(size)]
            if region not in self.allocated and any(("ptr", 0) in of_it for of_it in within):
                raise Failed("in %s a pointer is copied to %s, which is memory of a caller's" % region)
        self.held = {Place(region, touch.offset) for region, touches in self.touches.items() for touch in touches
                     if touch.type == "ptr"}
        for place in self.held:
            for region, offset in same.members(place):
                if offset % WIDTH["ptr"]:
                    raise Failed("in %s the pointer at byte %d of %s is not aligned" % (region[0], offset, region[1]))
                if region in self.structs:
                    raise Failed("the struct %s of %s holds a pointer" % (region[1], region[0]))

    def ways(self, same):
        """what one pointer may point to is reached in one way, and what a caller lends as the header says"""
        for value, at in self.stored:
            same.join(value.source, at)
        for parameter, value in self.lent:
            same.join(parameter, value.source)
        for (region, _), at in self.arrays:
            same.join(region, at)
        stated = {**self.slices, **self.constants}
        lent = {same.of(one) for one in [*stated, *(region for (region, _), _ in self.arrays)]}
        found = collections.defaultdict(set)
        for source, way in self.reached:
            if same.of(source) not in lent:
                raise Failed("memory that was never lent is reached by the pointer at %s" % (source,))
            found[same.of(source)].add(way)
        for parameter, way in stated.items():
            if found[same.of(parameter)] - {way}:
                raise Failed("%s of %s is lent for %s, and reached by %s" % (
                    parameter[1], parameter[0], way, sorted(found[same.of(parameter)])))
        for (region, _), _ in self.arrays:
            kinds = {touch.type for touch in self.touches[region]}
            if {kind for _, kind, _ in found[same.of(region)]} - kinds:
                raise Failed("the array %s of %s is reached by another type" % (region[1], region[0]))
        for some in found.values():
            if len(some) > 1 or not some <= {READ_BYTES, WRITE_BYTES, WRITE_PIXELS}:
                raise Failed("lent memory is reached in other ways than as bytes or pixels: %s" % sorted(some))

    def writes(self):
        """no struct that a caller lends is written, but the answer"""
        def write(parameter, place):
            new = parameter in self.written and place.region not in self.written
            self.written |= {place.region} if new else set()
            return new
        settle(self.handed, write)
        for region in self.written & set(self.structs) - self.answers:
            raise Failed("%s writes to %s, which is only lent" % region)

    def summary(self):
        return "%d functions, %d places that hold a pointer, %d accesses of lent memory" % (
            len(self.functions), len(self.held), sum(self.reached.values()))


class Same:
    """things that are known to be the same, in classes"""

    def __init__(self):
        self.classes = {}

    def members(self, one):
        return self.classes.setdefault(one, [one])

    def of(self, one):
        """the first member of its class"""
        return self.members(one)[0]

    def join(self, one, other):
        small, large = sorted((self.members(one), self.members(other)), key=len)
        if small is not large:
            large += small
            for member in small:
                self.classes[member] = large


def settle(pairs, change):
    while any([change(*pair) for pair in pairs]):
        pass


def raised(numbers, key, to):
    old = numbers[key]
    numbers[key] = max(old, to)
    return numbers[key] != old


def lowered(numbers, key, to):
    old = numbers[key]
    numbers[key] = min(old, to)
    return numbers[key] != old
