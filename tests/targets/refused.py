"""Modules that may not be compiled for another processor: each breaks one rule of processors/accesses.py, has what
processors/module.py does not know, or is not what the kit makes, and has to be refused in words that name it."""
import re

from common import fail
from native import library
from processors import kit, retarget, table

READING = "reads::byte_at"                           # takes a slice, as a pointer and a length, and two numbers
ANSWERING = "thalluskin::reading::thalluskin_accel"  # takes its answer, a slice and the record
EXPORTED = "thalluskin_c::thalluskin_accel"          # takes the same, from a caller
DRAWING = "thalluskin::drawing::thalluskin_draw_bitmap"
INFO = "thalluskin::placing::no_info"                # takes its answer, a placed glyph, alone
FONT = "thalluskin::reading::font_answer"            # takes its answer and the record, or a refusal
COPY = "call void @llvm.memmove.p0.p0.i64(ptr %s, ptr %s, i64 %d, i1 false)"
ZERO = "call void @llvm.memset.p0.i64(ptr %s, i8 0, i64 %d, i1 false)"
SLICE = ["%s = alloca [16 x i8], align 8", "store ptr %a0, ptr %s, align 8"]  # with the pointer that READING takes


def inserted(function, *lines):
    """the module with lines at the beginning of a function"""
    return replaced(r'(define internal [^\n]*@"%s"\([^\n]*\n[^\n]*\n)' % re.escape(function),
                    lambda found: found[1] + "".join("  %s\n" % line for line in lines))


def replaced(expression, by):
    """the module with the first of these replaced"""
    def edit(text):
        made, times = re.subn(expression, by, text, count=1, flags=re.S)
        if times != 1:
            fail("targets: the module has no %s" % expression)
        return made
    return edit


def made_whole(function, *lines):
    """the module with lines in the place of all that a function does"""
    whole = "".join("  %s\n" % line for line in [*lines, "ret void"])
    return replaced(r'(define internal [^\n]*@"%s"\([^\n]*\{\nstart:\n).*?\n\}\n' % re.escape(function),
                    lambda found: found[1] + whole + "}\n")


def both(*edits):
    return lambda text: edits[1](edits[0](text))


def added(*lines):
    """the module with lines after its functions"""
    return replaced(r"\ndeclare void @llvm\.memmove", "\n" + "\n".join(lines) + "\n\\g<0>")


# what is done to the module, by the words of the refusal
EDITS = {
    "not understood: ": [
        inserted(READING, "%x = freeze i64 %a1"),
        inserted(READING, "%x = ptrtoint ptr %a0 to i64"),
        inserted(READING, "%x = icmp eq ptr %a0, null"),
        inserted(READING, "%x = select i1 true, ptr %a0, ptr %a0"),
        inserted(READING, "ret ptr %a0"),
        inserted(READING, '%x = call i8 @"reads::byte_at"(i64 ptrtoint (ptr @f to i64), i64 1, i64 1)'),
        inserted(READING, '%x = call i8 @"reads::byte_at"(ptr byval([16 x i8]) %a0, i64 1, i64 1)'),
        inserted(READING, '%x = call i32 @"reads::wide"(i8 1) store i64 0, ptr %a0, align 8 call void @llvm.trap()'),
        inserted(READING, "call void @thalluskin_lent_load(ptr %a0, ptr %a0, i64 16)"),
        inserted(READING, "br label %x ; store i8 0, ptr %a0, align 1"),
        inserted(READING, '%x = call i8 @"reads::byte_at"(ptr %a0i64 1, i64 1)'),
        lambda text: text.replace('@"load::load_in"', '@"__aeabi_uldivmod"'),
        lambda text: text.replace("e-m:e-p270", "E-m:e-p270"),
        lambda text: text.replace('"reads::wide"', '"reads::byte_at"'),
        replaced(r'("reads::wide"\(i8 noundef %a0\)) #0', r"\1 #9"),
        replaced(r'("reads::byte_at"\(ptr noundef) %a0', r"\1 align 64 %a0"),
        inserted(READING, "%x = load { ptr, i64 }, ptr %a0, align 8"),
        inserted(READING, "%x = alloca [16 x i8], align 8",
                 "call void @llvm.memset.p0.i64(ptr %x, i8 1, i64 16, i1 false)"),
        inserted(READING, "%x = alloca [16 x i8], align 8",
                 "call void @llvm.memset.p0.i64(ptr %x, i8 0, i64 %a1, i1 false)"),
        added('@static.99 = private unnamed_addr global [1 x i8] c"a", align 1'),
        added('@static.99 = private unnamed_addr constant [1 x ptr] [ptr @static.99], align 8'),
        added("@global = global i32 0"),
        added("define i64 @thalluskin_more(ptr %a0) #0 {", "  ret i64 0", "}"),
        added("attributes #9 = { nounwind } define void @more() #0 { unreachable }"),
        added("!9 = !{} define void @more() #0 { unreachable }"),
        added("!llvm.module.flags = !{!0}"),
        added("attributes #0 = { noreturn nounwind memory(none) }"),
        added("declare void @elsewhere(ptr) #0"),
    ],
    "has letters": [inserted(READING, "br label %x ; preds = %y\r  store i8 0, ptr %a0, align 1")],
    "exports what the header does not declare": [
        added("define noundef i64 @thalluskin_more() #0 {", "  ret i64 0", "}")],
    "is not what the kit is known to make": [
        replaced(r'(@thalluskin_vet\([^\n]*\n)start:\n', r"\1start:\n  %m = xor i32 %a3, 1\n"),
        replaced(r'(thalluskin_vet"\(ptr %a0, ptr %r6, i64 %r8, i32) %a3', r"\1 0"),
        replaced(r'(thalluskin_draw_string"\(ptr %a0, ptr) %r6, i64 %r8, ptr %a3, ptr %r15',
                 r"\1 %r15, i64 %r8, ptr %a3, ptr %r6"),
        replaced(r'(@thalluskin_vet\((?:[^\n]*\n){5}  %r3 = mul i64 %r2,) 4096', r"\1 4095"),
        replaced(r'(call void @"thalluskin_c::thalluskin_vet"[^\n]*\n)', r"\1  store i8 0, ptr %a0, align 1\n")],
    "has 0 functions under thalluskin_vet": [replaced(r"(thalluskin_c::thalluskin)_vet\"\(", r'\1_looked"(')],
    "by a number that is not constant": [
        inserted(ANSWERING, "%x = getelementptr i8, ptr %a0, i64 %a2"),
        inserted(ANSWERING, "%x = getelementptr i8, ptr %a0, i64 -8")],
    "lent memory is taken for a pointer": [inserted(READING, "%x = load ptr, ptr %a0, align 8")],
    "lent memory is taken for two numbers": [inserted(READING, "%x = load { i8, i8 }, ptr %a0, align 1")],
    "a pointer is stored in lent memory": [inserted(READING, "store ptr %a0, ptr %a0, align 8")],
    "is lent for ('load', 'i8', 1), and reached by": [
        *(inserted(READING, access) for access in (
            "%x = load i64, ptr %a0, align 1", "%x = load i32, ptr %a0, align 4", "%x = load i8, ptr %a0, align 4",
            "store i8 0, ptr %a0, align 1", "store i16 0, ptr %a0, align 1", "store i32 0, ptr %a0, align 4")),
        replaced(r"(\n  store ptr @static\.\d+, ptr (%\w+), align 8)",
                 r"\1\n  %x = load ptr, ptr \2, align 8\n  store i8 0, ptr %x, align 1")],
    "is lent for ('store', 'i32', 4), and reached by": [
        inserted(DRAWING, access) for access in (
            "store i32 0, ptr %a5, align 1", "store i8 0, ptr %a5, align 1", "%x = load i32, ptr %a5, align 4")],
    "in other ways than as bytes or pixels": [
        inserted(READING, "%x = alloca ptr, align 8", "%y = alloca [16 x i8], align 8", "store i32 0, ptr %y, align 4",
                 "store ptr %y, ptr %x, align 8", "%z = load ptr, ptr %x, align 8", "store i32 0, ptr %z, align 1")],
    "is reached by another type": [
        inserted(READING, "%x = alloca ptr, align 8", "%y = alloca [16 x i8], align 8", "store i32 0, ptr %y, align 4",
                 "store ptr %y, ptr %x, align 8", "%z = load ptr, ptr %x, align 8", "store i8 0, ptr %z, align 1")],
    "a pointer is stored in memory of a caller's": [
        inserted(ANSWERING, "%y = alloca [16 x i8], align 8", "store i8 0, ptr %y, align 1",
                 "store ptr %y, ptr %a0, align 8"),
        inserted(ANSWERING, "store ptr %a1, ptr %a0, align 8"),
        made_whole("thalluskin::texts::thalluskin_utf8_step", "%x = getelementptr i8, ptr %a0, i64 24",
                   "store ptr %a1, ptr %x, align 8")],
    "a pointer is copied to %a0, which is memory of a caller's": [
        # as the whole of a function, since else the place is one of a number too
        made_whole("thalluskin::texts::thalluskin_utf8_step", "%x = alloca [16 x i8], align 8",
                   "store ptr %a1, ptr %x, align 8", COPY % ("%a0", "%x", 16))],
    "memory that was never lent": [
        inserted(READING, "%x = alloca [16 x i8], align 8", "%y = load ptr, ptr %x, align 8",
                 "%z = load i8, ptr %y, align 1")],
    "lent memory is copied": [
        inserted(READING, "%x = alloca [8 x i8], align 8", COPY % pair)
        for pair in (("%x", "%a0", 8), ("%a0", "%x", 8))],
    "lent memory is set to 0": [inserted(READING, ZERO % ("%a0", 8))],
    "what is set to 0 is not all": [
        inserted(READING, "%x = alloca [16 x i8], align 8", ZERO % ("%x", 8)),
        inserted(READING, "%x = alloca [16 x i8], align 8", ZERO % ("%x", 17)),
        inserted(READING, "%x = alloca [16 x i8], align 8", "%y = getelementptr i8, ptr %x, i64 8", ZERO % ("%y", 16)),
        inserted(READING, "%x = alloca ptr, align 8", ZERO % ("%x", 8)),
        inserted(ANSWERING, ZERO % ("%a0", 64))],
    "a pointer shares its place": [
        inserted(READING, *SLICE, "%x = load i64, ptr %s, align 8"),
        inserted(READING, *SLICE, "%x = getelementptr i8, ptr %s, i64 4", "%y = load i32, ptr %x, align 4"),
        inserted(READING, *SLICE, "%x = load { i32, i32 }, ptr %s, align 4"),
        inserted(READING, *SLICE, "%x = alloca [16 x i8], align 8", COPY % ("%x", "%s", 16),
                 "%y = load i64, ptr %x, align 8"),
        inserted(READING, *SLICE, "%x = alloca [8 x i8], align 8", "%y = getelementptr i8, ptr %s, i64 4",
                 "%z = getelementptr i8, ptr %x, i64 4", COPY % ("%z", "%y", 4), "%n = load i64, ptr %x, align 8")],
    "a part of a pointer is copied": [
        inserted(READING, *SLICE, "%x = alloca [8 x i8], align 8", COPY % ("%x", "%s", 4)),
        inserted(READING, *SLICE, "%x = alloca [16 x i8], align 8", "%y = getelementptr i8, ptr %s, i64 1",
                 COPY % ("%x", "%y", 8)),
        inserted(READING, *SLICE, "%x = alloca [8 x i8], align 8", "%y = getelementptr i8, ptr %s, i64 4",
                 "%z = getelementptr i8, ptr %x, i64 4", COPY % ("%x", "%s", 4), COPY % ("%z", "%y", 4))],
    "the pointer at byte 4 of %x is not aligned": [
        inserted(READING, "%x = alloca [16 x i8], align 8", "%y = getelementptr i8, ptr %x, i64 4",
                 "store ptr %a0, ptr %y, align 4")],
    "is used for something else": [
        inserted(READING, "%x = alloca ptr, align 8", "store i64 0, ptr %x, align 8"),
        inserted(READING, *SLICE, "%x = alloca ptr, align 8", COPY % ("%x", "%s", 8))],
    "holds a pointer": [
        made_whole("thalluskin::placing::thalluskin_prep_char", "%x = getelementptr i8, ptr %a3, i64 8",
                   "%p = load ptr, ptr %x, align 8", "store i8 0, ptr %p, align 1")],
    "is stored, which is no array": [
        inserted(ANSWERING, "%x = alloca ptr, align 8", "store ptr %a3, ptr %x, align 8"),
        *(inserted(ANSWERING, "%x = alloca ptr, align 8", "%y = alloca [16 x i8], align 8", *lines,
                   "store ptr %y, ptr %x, align 8") for lines in (
            ["store i16 0, ptr %y, align 2"],
            ["store i8 0, ptr %y, align 1", "%z = getelementptr i8, ptr %y, i64 4", "store i32 0, ptr %z, align 4"],
            ["store i8 0, ptr %y, align 1", COPY % ("%y", "%a3", 16)],
            ["store i8 0, ptr %y, align 1", 'call void @"%s"(ptr %%y)' % INFO])),
        inserted(ANSWERING, "%x = alloca ptr, align 8", "%y = alloca [16 x i8], align 8",
                 "store i32 0, ptr %y, align 4", "%z = getelementptr i8, ptr %y, i64 4",
                 "store ptr %z, ptr %x, align 8"),
        inserted(ANSWERING, "%x = alloca ptr, align 8", "%y = alloca [16 x i8], align 1",
                 "store i32 0, ptr %y, align 1", "store ptr %y, ptr %x, align 8")],
    "is handed own memory and lent memory": [inserted(ANSWERING, 'call void @"%s"(ptr %%a1)' % INFO)],
    "does not have the function's parameters and answer": [
        inserted(READING, '%x = call i8 @"reads::wide"(i8 1)'),
        inserted(READING, '%x = call i32 @"reads::wide"(i16 1)')],
    "calls itself": [
        inserted(INFO, 'call void @"%s"(ptr %%a0)' % INFO),
        inserted("reads::lies_in", "%x = call i64 @\"reads::reach\"(i64 0, i64 0, i64 0)")],
    "writes to %a3, which is only lent": [
        inserted(EXPORTED, "store i8 0, ptr %a3, align 1"),
        inserted(EXPORTED, "%x = alloca [200 x i8], align 8", COPY % ("%a3", "%x", 200))],
    "has 64 bytes, and 65 are reached": [
        inserted(ANSWERING, "%x = getelementptr i8, ptr %a0, i64 64", "store i8 0, ptr %x, align 1")],
    "has 16 bytes, and 17 are reached": [
        inserted(READING, "%x = alloca [16 x i8], align 8", "%y = getelementptr i8, ptr %x, i64 16",
                 "%z = load i8, ptr %y, align 1"),
        inserted(READING, "%x = alloca [16 x i8], align 8", "%y = getelementptr i8, ptr %x, i64 15",
                 "%z = load { i8, i8 }, ptr %y, align 1")],
    "has 192 bytes, and 200 are reached": [
        replaced(r"alloca \[200( x i8\], align 8\n  call void @llvm\.memset[^\n]*, i64) 200", r"alloca [192\1 192")],
    "is not aligned to 8 at byte 4": [
        inserted(ANSWERING, "%x = getelementptr i8, ptr %a0, i64 4", "store i64 0, ptr %x, align 8")],
    "is not aligned to 8 at byte 0": [
        inserted(READING, "%x = alloca i64, align 4", "store i64 0, ptr %x, align 8"),
        both(inserted(FONT, "%x = load i64, ptr %a0, align 8"),
             inserted(ANSWERING, "%x = alloca [216 x i8], align 4", "%y = alloca [216 x i8], align 8",
                      'call void @"%s"(ptr %%x, ptr %%y)' % FONT))],
    "is not known before this": [inserted(READING, "%x = load i8, ptr %y, align 1")],
    "of another form: 2 times ^target": [
        replaced(r"(target datalayout = [^\n]*\ntarget triple = [^\n]*\n)", r"\1\1")],
}
ELSEWHERE = ["--target=powerpc64-unknown-linux-gnu", "--target=i386-unknown-linux-gnu"]


def expect(words, work):
    try:
        work()
    except kit.Failed as failed:
        if words not in str(failed):
            fail("targets: refused in other words than '%s': %s" % (words, failed))
        return
    fail("targets: not refused: %s" % words)


def refused():
    """how many modules and processors are refused, after the kit's own module has passed"""
    text, target = retarget.text_of(library.module()), table.TARGETS["cortex-m4"]
    retarget.retargeted(text, target, "-O2")
    tried = [(words, edit) for words, edits in EDITS.items() for edit in edits]
    for words, edit in tried:
        expect(words, lambda: retarget.retargeted(edit(text), target, "-O2"))
    for option in ELSEWHERE:
        expect("another order of bytes", lambda: retarget.retargeted(text, table.Target("", [option]), "-O2"))
    return len(tried) + len(ELSEWHERE)
