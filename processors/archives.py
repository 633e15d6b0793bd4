"""Archives of object files, as llvm-ar and ar write them."""
from processors.elf import Object
from processors.kit import Failed

MAGIC, HEAD = b"!<arch>\n", 60


def objects(archive):
    """the object files in an archive"""
    with open(archive, "rb") as f:
        content = f.read()
    if not content.startswith(MAGIC):
        raise Failed("not an archive: %s" % archive)
    at, found = len(MAGIC), []
    while at < len(content):
        size = int(content[at + 48:at + 58])
        if not content[at:at + 16].startswith((b"/ ", b"// ", b"/SYM64/ ")):  # the index, and long names
            found.append(Object(content[at + HEAD:at + HEAD + size]))
        at += HEAD + size + size % 2
    return found


def undefined(archive):
    """what the object files need and do not have"""
    found = objects(archive)
    defined = {symbol.name for one in found for symbol in one.symbols if symbol.is_global and symbol.section}
    return sorted({name for one in found for name in one.undefined()} - defined)
