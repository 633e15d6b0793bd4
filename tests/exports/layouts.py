"""The exported structs and functions as the Rattle sources declare them: where #[repr(C)] puts each field, and what
each is called in C and in Rust."""
import functools
import os
import re

from common import ROOT, read

CRATES = ["reads", "names", "tables", "lookup", "place", "bitmaps", "why", "text", "thalluskin"]

# bytes, which are the alignment too, and the kind; numbers are little-endian
PLAIN = {"bool": (1, "bool"), "u8": (1, "unsigned"), "u16": (2, "unsigned"), "u32": (4, "unsigned"),
         "u64": (8, "unsigned"), "usize": (8, "unsigned"), "i16": (2, "signed"), "i32": (4, "signed")}

IN_C = {
    "CharCode": "thk_char_code", "GlyphIndex": "thk_glyph_index", "PropertiesData": "thk_props_data",
    "MetricsUnpacked": "thk_measures", "AcceleratorUnpacked": "thk_accelerators", "MetricsData": "thk_metrics_data",
    "BitmapData": "thk_bitmap_data", "EncodingData": "thk_code_data", "GlyphNameData": "thk_name_data",
    "Record": "thk_record", "Span": "thk_span", "Extent": "thk_extent", "GlyphInfo": "thk_glyph_info",
    "Supplier": "thk_supplier", "Rows": "thk_rows", "ReasonNumber": "thk_reason", "TextRows": "thk_text_rows",
    "PageNumbers": "thk_page_numbers", "Bitmap": "thk_bitmap", "FontAnswer": "thk_font_answer",
    "PropertyAnswer": "thk_property_answer", "GlyphAnswer": "thk_glyph_answer", "NameAnswer": "thk_name_answer",
    "MetricsAnswer": "thk_metrics_answer", "AccelAnswer": "thk_accel_answer", "ExtentAnswer": "thk_extent_answer",
    "InfoAnswer": "thk_info_answer",
    "RowsAnswer": "thk_rows_answer", "CharAnswer": "thk_char_answer", "WhyAnswer": "thk_why_answer",
    "UnpackAnswer": "thk_unpack_answer", "TextAnswer": "thk_text_answer", "StepAnswer": "thk_step_answer",
}
NUMBERS_IN_C = {"bool": "bool", "u8": "uint8_t", "u16": "uint16_t", "u32": "uint32_t", "u64": "uint64_t",
                "usize": "uint64_t", "i16": "int16_t", "i32": "int32_t"}
NAMED_IN_C = {"mode": "thk_mode"}  # a parameter whose number has a type of its own
SLICES_IN_C = {"&[u8]": "const uint8_t *", "&mut [u8]": "uint8_t *", "&mut [u32]": "uint32_t *"}
IN_RUST = {"MetricsUnpacked": "Metrics", "AcceleratorUnpacked": "Accelerators"}  # the others have their own names


DECLARED = r"#\[repr\(C\)\]\s*#\[derive\(Clone, Copy\)\]\s*pub struct (\w+)"


def declared():
    """the fields of each #[repr(C)] struct, with their types"""
    structs = {}
    for crate in CRATES:
        text = re.sub(r"//.*", "", read("crates", crate, "src", "lib.rt"))
        for name, fields in re.findall(DECLARED + r" \{(.*?)\}", text, re.S):
            structs[name] = re.findall(r"pub (\w+): (\w+)", fields)
        for name, kind in re.findall(DECLARED + r"\(pub (\w+)\);", text):
            structs[name] = [("0", kind)]
    return {name: structs[name] for name in IN_C}


def functions():
    """of each exported function that answers with a struct, so of all but the version's, its parameters in order, name
    and type, and its answer's type"""
    source = os.path.join("crates", "thalluskin_c", "src")
    made = {}
    for file in sorted(os.listdir(os.path.join(ROOT, source))):
        for name, parameters, answer in re.findall(
                r'#\[unsafe\(no_mangle\)\]\s*pub extern "C" fn (\w+)\((.*?)\) -> (\w+)', read(source, file), re.S):
            if answer in IN_C:
                made[name] = (re.findall(r"(\w+): ([^,]+)", parameters), answer)
    return made


def in_header(name):
    """the header's function over one of the archive's"""
    return name.replace("thalluskin_", "thk_")


STRUCTS = declared()


@functools.lru_cache(maxsize=None)
def size_and_alignment(kind):
    if kind in PLAIN:
        return PLAIN[kind][0], PLAIN[kind][0]
    alignment = max(size_and_alignment(of)[1] for _, of in STRUCTS[kind])
    end = 0
    for _, offset, of in fields(kind):
        end = offset + size_and_alignment(of)[0]
    return -(-end // alignment) * alignment, alignment


def fields(kind):
    """each field with its offset and its type: at the first multiple of its alignment after the one before"""
    at = 0
    for name, of in STRUCTS[kind]:
        size, alignment = size_and_alignment(of)
        at = -(-at // alignment) * alignment
        yield name, at, of
        at += size


def size_of(kind):
    return size_and_alignment(kind)[0]


@functools.lru_cache(maxsize=None)
def leaves(kind):
    """the numbers in a struct: path, offset, type"""
    found = []
    for name, offset, of in fields(kind):
        inside = [((), 0, of)] if of in PLAIN else leaves(of)
        found += [((name, *path), offset + further, number) for path, further, number in inside]
    return found


def put(kind, numbers, padding=0xCC):
    """the struct's bytes, of its numbers by their paths; those that belong to no field are `padding`"""
    made = bytearray([padding]) * size_of(kind)
    for path, offset, of in leaves(kind):
        size, sort = PLAIN[of]
        made[offset:offset + size] = numbers[path].to_bytes(size, "little", signed=sort == "signed")
    return bytes(made)


def in_fields(kind):
    """a byte for each of the struct's, 255 where it belongs to a field and 0 where it is padding"""
    made = bytearray(size_of(kind))
    for _, offset, of in leaves(kind):
        made[offset:offset + PLAIN[of][0]] = b"\xff" * PLAIN[of][0]
    return bytes(made)


def got(kind, content):
    """the numbers in a struct's bytes, by their paths"""
    return {path: int.from_bytes(content[offset:offset + PLAIN[of][0]], "little", signed=PLAIN[of][1] == "signed")
            for path, offset, of in leaves(kind)}


def flat(kind, value):
    """the same of a value, in which a tuple struct may be its number"""
    return {path: int(at(value, path)) for path, _, _ in leaves(kind)}


def at(value, path):
    for part in path:
        value = value if part == "0" else value[part]
    return value


# ---- in C and in Rust


def rust_field(name):
    return {"default": "default_code"}.get(name, re.sub("([A-Z])", lambda m: "_" + m[1].lower(), name))


def c_field(name):
    return "value" if name == "0" else rust_field(name)


def rust_struct(kind):
    return IN_RUST.get(kind, kind)


def in_c(parameters):
    """name and type; a slice is a pointer and a length"""
    for name, kind in parameters:
        if kind in SLICES_IN_C:
            yield name, SLICES_IN_C[kind]
            yield name + "_len", "uint64_t"
        else:
            yield name, NAMED_IN_C.get(name) or NUMBERS_IN_C.get(kind) or "THK_STRUCT(%s)" % IN_C[kind]


def in_rust(kind):
    return "u64" if kind == "usize" else rust_struct(kind)


def c_prototypes():
    """name, parameters and answer of each function"""
    return {(name, ", ".join("%s %s" % (kind, of) for of, kind in in_c(parameters)).replace("* ", "*"), IN_C[answer])
            for name, (parameters, answer) in functions().items()}


def rust_prototypes():
    """the same as the crate lists them"""
    return {(name, ", ".join("%s: %s" % (of, in_rust(kind)) for of, kind in parameters), rust_struct(answer))
            for name, (parameters, answer) in functions().items()}


def assertions():
    """what the header says of its structs: each field's offset, and the size"""
    for kind in STRUCTS:
        for name, offset, _ in fields(kind):
            yield "THK_AT(%s, %s, %d);" % (IN_C[kind], c_field(name), offset)
        yield "THK_SIZE(%s, %d);" % (IN_C[kind], size_of(kind))


def rows(struct_name, field_name):
    """(struct, size) and (struct, field, offset, size) of all, in some language's names"""
    for kind in STRUCTS:
        yield struct_name(kind), str(size_of(kind))
        for name, offset, of in fields(kind):
            yield struct_name(kind), field_name(name), str(offset), str(size_and_alignment(of)[0])


def c_program():
    """C that prints those rows from the header, and the sort of each number"""
    lines = ["#include <stdio.h>", '#include "thalluskin.h"', "int main(void) {"]
    for kind in STRUCTS:
        struct = IN_C[kind]
        lines.append('    printf("%s %%zu\\n", sizeof(%s));' % (struct, struct))
        for name, _, of in fields(kind):
            field = "%s, %s" % (struct, c_field(name))
            member = "((%s *)0)->%s" % (struct, c_field(name))
            lines.append('    printf("%s %s %%zu %%zu\\n", offsetof(%s), sizeof(%s));' % (
                struct, c_field(name), field, member))
            if of in PLAIN:
                of_it = "(__typeof__(%s))" % member
                sort = '%s2 == 1 ? "bool" : %s-1 < 0 ? "signed" : "unsigned"' % (of_it, of_it)
                lines.append('    printf("%s %s %%s\\n", %s);' % (struct, c_field(name), sort))
    return "\n".join(lines + ["    return 0;", "}", ""])


def c_rows():
    """what that program has to print"""
    made = {" ".join(row) for row in rows(IN_C.get, c_field)}
    for kind in STRUCTS:
        made |= {"%s %s %s" % (IN_C[kind], c_field(name), PLAIN[of][1]) for name, _, of in fields(kind) if of in PLAIN}
    return made
