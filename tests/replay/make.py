"""The files of crates/replay/data: fonts, and calls on each."""
from fonts import questions as reading
from recorded import questions as recorded_ones
from replay import defaults, glyphs, lines, orders, reasons, texts
from replay.calls import content


def named(topics):
    """by name, in the order in which the program takes them: fonts, each with the list of its calls"""
    return {name + ".calls": [(b, list(calls)) for b, calls in topic] for name, topic in topics}


def drawn():
    return named([*glyphs.topics(), *texts.topics(), *orders.topics(), *reasons.topics()])


def read():
    return named(reading.topics())


def put():
    return named(lines.topics())


def by_default():
    """calls in default mode"""
    return named(defaults.topics())


def in_no_mode():
    """calls that are not made, since there is no such mode"""
    return named(defaults.without_mode())


def recorded():
    """the calls to which the answers of 000 are kept, in tests/recorded"""
    return named(recorded_ones.topics())


def files():
    topics = {**drawn(), **read(), **put(), **by_default(), **in_no_mode(), **recorded()}
    return {name: content(sections) for name, sections in topics.items()}
