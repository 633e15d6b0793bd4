"""What is to be reached, and whether it is."""
import collections

from tables import IN_C, ORIGINAL, PORT, USUAL_ORDER, named, scale_cell, size_and_order

SIZES = ("6x12", "8x16", "16x32")
DOUBLED, BETWEEN, EVERY = "1 2 4 8".split(), "3 5 6 7".split(), "1 2 3 4 5 6 7 8".split()
UNSCALED = ["0"]

# at each of some scales the port's time or instructions are at most this part of a side's; without a font, with every
# one that is measured
Goal = collections.namedtuple("Goal", "call font scales most what side")


def at_most(most, call, font, scales, what="instructions"):
    return Goal(call, font, scales, most, what, ORIGINAL)


def below_c(call, what):
    return Goal(call, None, EVERY, 1, what, IN_C)


GOALS = [
    *(at_most(most, "draw_glyph", size, DOUBLED) for size, most in zip(SIZES, (0.35, 0.25, 0.15))),
    *(at_most(0.5, "draw_glyph", size, DOUBLED, "time") for size in SIZES),
    *(at_most(most, "draw_string", size, DOUBLED) for size, most in zip(SIZES, (0.42, 0.3, 0.18))),
    *(at_most(0.5, "draw_string", size, DOUBLED, "time") for size in SIZES),
    at_most(0.35, "draw_string", "8x16", BETWEEN),
    at_most(0.4, "draw_string, spaces", None, ["1"]),
    at_most(1, "unpack_glyph", None, UNSCALED),
]
BEYOND = [
    *(at_most(0.2, "draw_string", size, DOUBLED) for size in SIZES),
    below_c("draw_glyph", "instructions"),
    below_c("draw_glyph", "time"),
]
# a text in other orders of rows, by the usual order's instructions; and other calls on a font, in milliseconds or by
# 000's time
IN_ORDERS, IN_ORDERS_AT_MOST = ("draw_string", "8x16"), 1.3
ON_A_FONT = [("vet", "unifont", "ms", 20), ("lookup", "unifont", "times 000", 1.5)]


def largest(ratios):
    """of ratios by what they are of the largest, with that; None where nothing was measured"""
    measured = {of: ratio for of, ratio in ratios.items() if ratio is not None}
    return max(measured.items(), key=lambda item: item[1], default=None)


def reached(is_so):
    return "reached" if is_so else "not reached"


# ---- drawings, at their scales


def lines(got, call):
    """a call's lines by font and scale; one that several tables have, as it is in the first"""
    found = {}
    for key in got.keys(call=call):
        table, _, font, at = key
        if table in ("calls", "scale", "size"):
            found.setdefault((font, "1" if table == "size" else at), key)
    return found


def worst(got, goal):
    """font and scale with the largest ratio, and that"""
    ratio = got.instruction_ratio if goal.what == "instructions" else got.time_ratio
    return largest({(font, scale): ratio(key, goal.side) for (font, scale), key in lines(got, goal.call).items()
                    if goal.font in (None, font) and scale in goal.scales})


def told(goal):
    """what is to be reached, in words"""
    if goal.side == IN_C:
        return "below C's %s" % goal.what
    return "at most %g of 000's %s" % (goal.most, goal.what)


def told_worst(goal, font, scale, ratio):
    words = "%.3f" % ratio
    if goal.font is None:
        words += " with " + font
    if len(goal.scales) > 1:
        words += " at scale " + scale
    return words


def drawing_goals(got, goals, before=""):
    for goal in goals:
        found = worst(got, goal)
        if found:
            (font, scale), ratio = found
            is_so = ratio < goal.most if goal.side == IN_C else ratio <= goal.most
            yield [named(goal.call), goal.font or "every size", ", ".join(map(scale_cell, goal.scales)),
                   before + told(goal), told_worst(goal, font, scale, ratio), reached(is_so)]


# ---- others


def order_goals(got):
    call, size = IN_ORDERS
    found = largest({key: got.instruction_ratio(key, USUAL_ORDER) for key in got.keys("orders", call)
                     if size_and_order(key[2])[0] == size})
    if found:
        (_, _, font, scale), ratio = found
        yield [named(call), size + ", other orders", ", ".join(DOUBLED),
               "at most %g times the usual order's instructions" % IN_ORDERS_AT_MOST,
               "%.2f at scale %s: %s" % (ratio, scale, size_and_order(font)[1]), reached(ratio <= IN_ORDERS_AT_MOST)]


def font_goals(got):
    for call, font, unit, most in ON_A_FONT:
        key = ("calls", call, font, "0")
        if key in got.keys():
            measured = got.times[(*key, PORT)][0] / 1e6 if unit == "ms" else got.time_ratio(key, ORIGINAL)
            yield [named(call), font, "", "at most %g %s" % (most, unit), "%.2f %s" % (measured, unit),
                   reached(measured <= most)]


def table(got):
    rows = [*drawing_goals(got, GOALS), *order_goals(got), *font_goals(got), *drawing_goals(got, BEYOND, "beyond: ")]
    return ["call", "font", "scale", "goal", "measured", ""], rows
