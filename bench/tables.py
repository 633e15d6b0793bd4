"""What was measured, as tables. A measurement's key is table, call, font and what grows, as the driver prints them."""
import re

PORT, ORIGINAL, USUAL_ORDER, IN_C = "port", "000", "usual order", "C"  # the sides, as the driver names them
BESIDE = (ORIGINAL, IN_C)


class Measured:
    def __init__(self, times, counts):
        """times: key and side to the side's ns, the port's ratio to it and that ratio's quartiles; counts: key and side
        to instructions. A side that does not have the call is not there, nor what was not counted"""
        self.times, self.counts = times, counts

    def keys(self, table=None, call=None):
        every = dict.fromkeys(key[:4] for key in self.times)
        return [key for key in every if table in (None, key[0]) and call in (None, key[1])]

    def time_ratio(self, key, side):
        """the port's to the side's; None where there is none"""
        return self.times[(*key, side)][1] if (*key, side) in self.times else None

    def instruction_ratio(self, key, side):
        port, other = (self.counts.get((*key, one)) for one in (PORT, side))
        return port / other if port and other else None

    # cells, which are empty where there is nothing

    def ns(self, key, side=PORT, each=1):
        return number(self.times[(*key, side)][0] / each) if (*key, side) in self.times else ""

    def instructions(self, key, side=PORT, each=1):
        return number(self.counts[(*key, side)] / each) if (*key, side) in self.counts else ""

    def quartiles(self, key, side):
        return "%.2f to %.2f" % self.times[(*key, side)][2:] if (*key, side) in self.times else ""


def number(x):
    return "%.1f" % x if x < 100 else "{:,.0f}".format(x)


def ratio(x):
    return "" if x is None else "%.2f" % x


# ---- columns that tables share


def heads(what, *more):
    """of the port; then of each side beside it, with the ratio and more"""
    return ["port " + what, *(head for side in BESIDE for head in ("%s %s" % (side, what), "port/" + side, *more))]


def times(got, key, *more):
    """more: what else is asked of a key and a side, for a cell after the ratio"""
    cells = [got.ns(key)]
    for side in BESIDE:
        cells += [got.ns(key, side), ratio(got.time_ratio(key, side)), *(ask(key, side) for ask in more)]
    return cells


def counts(got, key, each=1):
    cells = [got.instructions(key, each=each)]
    for side in BESIDE:
        cells += [got.instructions(key, side, each), ratio(got.instruction_ratio(key, side))]
    return cells


def named(call):
    """a call's name as code, and how it is made"""
    name, comma, how = call.partition(",")
    return "`%s`%s%s" % (name, comma, how)


def scale_cell(scale):
    return "" if scale == "0" else scale


# ---- tables: heads and rows


def calls(got):
    rows = [[named(call), font, scale_cell(scale), *times(got, key, got.quartiles), *counts(got, key)]
            for key in got.keys("calls") for _, call, font, scale in [key]]
    return ["call", "font", "scale", *heads("ns", "quartiles"), *heads("instr.")], rows


def orders(got):
    rows = []
    for key in got.keys("orders"):
        _, call, font, scale = key
        size, order = size_and_order(font)
        rows.append([order, named(call), size, scale_cell(scale), got.instructions(key),
                     got.instructions(key, USUAL_ORDER), ratio(got.instruction_ratio(key, USUAL_ORDER)), got.ns(key),
                     got.ns(key, USUAL_ORDER), ratio(got.time_ratio(key, USUAL_ORDER)),
                     got.quartiles(key, USUAL_ORDER)])
    return ["order", "call", "font", "scale", "instr.", "usual instr.", "ratio", "ns", "usual ns", "ratio",
            "quartiles"], rows


def size_and_order(font):
    """of the name of a font in another order of rows"""
    return font.split(", ", 1)


def length(got):
    rows = []
    for key in got.keys("length"):
        count = int(key[3])
        each = [got.ns(key, side, count) for side in (PORT, *BESIDE)]
        rows.append(["{:,}".format(count), *times(got, key), *each, *counts(got, key, count)])
    return ["characters", *heads("ns"), *("%s ns each" % side for side in (PORT, *BESIDE)),
            *heads("instr. each")], rows


def scale(got):
    rows = [[key[3], *times(got, key), *counts(got, key)] for key in got.keys("scale")]
    return ["scale", *heads("ns"), *heads("instr.")], rows


def size(got):
    rows = [[key[2], key[3], *times(got, key), *counts(got, key)] for key in got.keys("size")]
    return ["font", "pixels", *heads("ns"), *heads("instr.")], rows


def codes(got, with_glyph):
    """with_glyph: how many of a font's codes have a glyph, by the font's name"""
    rows = []
    for _, _, font, count in got.keys("codes", "lookup"):
        load, lookup, vet = (("codes", call, font, count) for call in ("load", "lookup", "vet"))
        if got.ns(load) and got.ns(vet):
            rows.append(["{:,}".format(int(count)), "{:,}".format(with_glyph[font]), got.ns(load),
                         got.ns(load, ORIGINAL), got.ns(lookup), got.ns(lookup, ORIGINAL), got.ns(vet),
                         got.ns(vet, each=with_glyph[font])])
    return ["codes", "with a glyph", "load: port ns", "000 ns", "lookup: port ns", "000 ns", "vet: port ns",
            "each glyph"], rows


def text(heads, rows):
    """the table in Markdown, with columns that can be read as they stand"""
    widths = [max(len(line[k]) for line in [heads, *rows]) for k in range(len(heads))]
    numbers = [all(re.fullmatch(r"([\d.,]+( .*)?)?", cell) for cell in column) for column in zip(*rows)]

    def line(cells, fill=" "):
        return "| %s |" % " | ".join(cell.rjust(width, fill) if right else cell.ljust(width, fill)
                                     for cell, width, right in zip(cells, widths, numbers))
    rule = ["-" * (width - 1) + (":" if right else "-") for width, right in zip(widths, numbers)]
    return "\n".join([line(heads), line(rule), *map(line, rows)])
