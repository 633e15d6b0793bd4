"""The library's LLVM module as text: its functions, and their instructions by form. The kit writes a small part of
what LLVM has. A line of any other form is not understood, and ends the reading."""
import re

from processors.kit import Failed

NUMBER = r"i1|i8|i16|i32|i64"
PAIR = r"\{ (?:%s), (?:%s) \}" % (NUMBER, NUMBER)
TYPE = NUMBER + "|ptr"
VALUE = r"%\w+|-?\d+|true|false"
INTERNAL = r'@"\w+(?:::\w+)+"'  # no name of a function that a compiler calls by itself
STATIC = r"@static\.\d+"  # a constant array of bytes
MEMMOVE, MEMSET = "@llvm.memmove.p0.p0.i64", "@llvm.memset.p0.i64"

# the forms of instructions, by what they do to memory; those of `plain` touch none and hold no pointer
FORMS = {
    "alloca": r"(?P<to>%\w+) = alloca (?:\[(?P<bytes>\d+) x i8\]|(?P<of>{t})), align (?P<align>\d+)",
    "step": r"(?P<to>%\w+) = getelementptr (?:inbounds nuw )?i8, ptr (?P<at>%\w+), i64 (?P<by>{v})",
    "load": r"(?P<to>%\w+) = load (?P<type>{t}), ptr (?P<at>%\w+), align (?P<align>\d+)(?:, !(?:range|noundef) !\d+)*",
    "pair": r"(?P<to>%\w+) = load (?P<type>{p}), ptr (?P<at>%\w+), align (?P<align>\d+)",
    "store": r"store (?P<type>{t}) (?P<value>{v}|{s}), ptr (?P<at>%\w+), align (?P<align>\d+)",
    "zero": r"call void {z}\(ptr (?P<at>%\w+), i8 0, i64 (?P<size>\d+), i1 false\)",
    "copy": r"call void {m}\(ptr (?P<at>%\w+), ptr (?P<source>%\w+), i64 (?P<size>\d+), i1 false\)",
    "call": r"(?:(?P<to>%\w+) = )?call (?P<type>void|{n}|{p}) (?P<name>{i})\((?P<given>(?:{a}(?:, {a})*)?)\)",
    "plain": "|".join([
        r"%\w+ = (?:add|sub|mul|udiv|urem|and|or|xor|shl|lshr)(?: nuw| nsw| exact| disjoint)* (?:{n}) (?:{v}), (?:{v})",
        r"%\w+ = icmp \w+ (?:{n}) (?:{v}), (?:{v})",
        r"%\w+ = extractvalue {p} %\w+, [01]",
        r"%\w+ = (?:zext|sext|trunc)(?: nuw| nsw| nneg)* (?:{n}) (?:{v}) to (?:{n})",
        r"%\w+ = call i8 @llvm\.ctlz\.i8\(i8 (?:{v}), i1 (?:true|false)\)",
        r"call void @llvm\.trap\(\)", r"unreachable",
        r"br label %[\w.]+", r"br i1 (?:{v}), label %[\w.]+, label %[\w.]+",
        r"switch (?:{n}) (?:{v}), label %[\w.]+ \[", r"(?:{n}) -?\d+, label %[\w.]+", r"\]",
        r"ret void", r"ret (?:{n}) (?:{v})", r"ret {p} %\w+",
    ]),
    "null": r"%\w+ = icmp eq ptr %\w+, null",  # in an exported function alone
}
ARGUMENT = "(?:%s) (?:%s)" % (TYPE, VALUE)
FORMS = {name: re.compile(form.format(n=NUMBER, p=PAIR, t=TYPE, v=VALUE, s=STATIC, i=INTERNAL, a=ARGUMENT,
                                       m=re.escape(MEMMOVE), z=re.escape(MEMSET)))
         for name, form in FORMS.items()}
LABEL = re.compile(r"[\w.]+:(?: +; (?:preds = [%\w., ]+|No predecessors!))?")
HEAD = re.compile(r"define (?P<internal>internal )?(?:noundef )?(?:zeroext )?(?P<answer>void|%s|%s) "
                  r"(?P<name>%s|@thalluskin_\w+)\((?P<parameters>[^()]*)\) #0 \{" % (NUMBER, PAIR, INTERNAL))
PARAMETER = re.compile(r"(?P<type>%s|ptr(?= noundef))(?: noundef)?(?: zeroext)?(?P<align> align \d+)? (?P<name>%%\w+)"
                       % NUMBER)
OUTSIDE = re.compile("|".join([
    r"", r"; ModuleID = '[^']*'", r"; Function Attrs: [\w():, ]+", r'source_filename = "rattle"',
    r'target datalayout = "e-m:e-p270:32:32-p271:32:32-p272:64:64-i64:64-i128:128-f80:128-n8:16:32:64-S128"',
    r'target triple = "x86_64-unknown-linux-gnu"',
    # what is declared is LLVM's own
    r"declare void %s\(ptr writeonly captures\(none\), ptr readonly captures\(none\), i64, i1 immarg\) #\d"
    % re.escape(MEMMOVE),
    r"declare void %s\(ptr writeonly captures\(none\), i8, i64, i1 immarg\) #\d" % re.escape(MEMSET),
    r'%s = private unnamed_addr constant \[\d+ x i8\] c"[ !#-~]*", align 1' % STATIC,
    r"declare void @llvm\.trap\(\) #\d", r"declare i8 @llvm\.ctlz\.i8\(i8, i1 immarg\) #\d",
    r'attributes #0 = \{ nounwind "probe-stack"="inline-asm" "stack-probe-size"="3072" "target-cpu"="x86-64" \}',
    r"attributes #[1-9] = \{ (?:cold |nocallback |nofree |noreturn |nosync |nounwind |speculatable |willreturn )+"
    r"memory\([\w: ]+\) \}",
    r"!llvm\.ident = !\{!\d+\}", r'!\d+ = !\{!"[^"]*"\}', r"!\d+ = !\{i8 \d+, i8 \d+\}", r"!\d+ = !\{\}"]))


class Function:
    """its name, the type of its answer, type and name of its parameters, and its instructions: the form's name, the
    parts that the form names, and the line"""

    def __init__(self, head):
        self.name, self.answer, self.internal = head["name"], head["answer"], bool(head["internal"])
        self.parameters, self.instructions = [], []
        for one in filter(None, head["parameters"].split(", ")):
            known = PARAMETER.fullmatch(one)
            if not known or known["align"] and self.internal:
                raise Failed("a parameter of %s is not understood: %s" % (self.name, one))
            self.parameters.append((known["type"], known["name"]))

    def take(self, line):
        for form, expression in FORMS.items():
            found = expression.fullmatch(line)
            if found and not (form == "null" and self.internal):
                self.instructions.append((form, found.groupdict(), line))
                return
        raise Failed("in %s this is not understood: %s" % (self.name, line))


def functions(text):
    """the module's functions by name, in their order"""
    if not re.fullmatch(r"[\n -~]*", text):
        raise Failed("the module has letters that are not understood")
    found, inside = {}, None
    for line in text.split("\n"):
        head = HEAD.fullmatch(line)
        if head and not inside and head["name"] not in found:
            inside = Function(head)
            found[inside.name] = inside
        elif line == "}" and inside:
            inside = None
        elif inside:
            if line and not LABEL.fullmatch(line):
                inside.take(line.strip())
        elif not OUTSIDE.fullmatch(line):
            raise Failed("in the module this is not understood: %s" % line)
    if inside:
        raise Failed("the module ends within %s" % inside.name)
    return found


def arguments(given):
    """type and value of each argument of a call"""
    return [tuple(one.split(" ")) for one in given.split(", ")] if given else []
