"""The archive's symbols."""
from exports import layouts
from exports.machine import ARCHIVE, fail, must


def symbols(at):
    def named(*options):
        lines = must("nm", at.prefix + "nm", *options, ARCHIVE).decode().splitlines()
        return {line.split()[-1] for line in lines if line and not line.endswith(":")}
    exported = {*layouts.functions(), "thalluskin_version"}
    if named("-g", "--defined-only") != exported:
        fail("the archive defines %s" % sorted(named("-g", "--defined-only") ^ exported))
    if not named("-u") <= {"memcpy", "memset"}:
        fail("the archive needs %s" % sorted(named("-u")))
    print("exports: %d functions defined, undefined %s" % (len(exported), ", ".join(sorted(named("-u"))) or "nothing"))
