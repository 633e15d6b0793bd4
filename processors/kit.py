"""The Rattle kit: its tools, and what it makes of the library. One run of `rt lib` proves the library and makes both
the archive for x86-64 and the LLVM module that the archive is compiled from, which is taken where the kit hands it to
its clang."""
import fcntl
import os
import shlex
import shutil
import subprocess
import sys
import tempfile
import time

ROOT = os.path.dirname(os.path.dirname(os.path.abspath(__file__)))
TARGET = os.path.join(ROOT, "target")
CRATE = os.path.join(ROOT, "crates", "thalluskin_c")
MADE = os.path.join(CRATE, "out", "libthalluskin_c.a")
ARCHIVE = os.path.join(TARGET, "staticlib", "libthalluskin.a")
MODULE = os.path.join(TARGET, "module", "module.bc")
KIT_OF_MODULE = os.path.join(TARGET, "module", "KIT-ID")
HEADER = os.path.join(ROOT, "include", "thalluskin.h")
COMPILER = ["toolchain", "bin", "clang"]
COMMAND = ["rt", "rtlib.py"]  # it takes the folder above its own, links followed, for the kit
ANY_X86 = ["--cpu", "x86-64"]  # else the archive is for processors with more than SSE2


class Failed(Exception):
    pass


def say(words):
    sys.stderr.write("thalluskin: %s\n" % words)


def tell(failed):
    """what a failed command printed, and then in one line what failed"""
    said, *log = str(failed).splitlines() or ["something failed, which does not say what"]
    sys.stderr.writelines(line + "\n" for line in log)
    say(said)


def run(*words, **more):
    """what a command prints"""
    try:
        got = subprocess.run(words, stdout=subprocess.PIPE, stderr=subprocess.STDOUT, **more)
    except FileNotFoundError:
        raise Failed("%s is not there" % words[0])
    if got.returncode != 0:
        raise Failed("%s failed\n%s" % (" ".join(words[:3]), got.stdout.decode(errors="replace")[-3000:]))
    return got.stdout.decode(errors="replace")


def home():
    rt = shutil.which("rt")
    if not rt:
        raise Failed("the Rattle kit's command 'rt' is not on the PATH")
    return os.environ.get("RATTLE_HOME", os.path.dirname(os.path.dirname(os.path.realpath(rt))))


def tool(name):
    """the path of one of the kit's own tools: clang, ld.lld, llvm-ar"""
    found = os.path.join(home(), *COMPILER[:-1], name)
    if not os.path.exists(found):
        raise Failed("the Rattle kit has no %s: %s is not there" % (name, found))
    return found


def command(main, words):
    """runs a command: with anything wrong it ends with status 2, and in words"""
    try:
        main(words)
    except KeyboardInterrupt:
        sys.exit(130)
    except Failed as failed:
        tell(failed)
        sys.exit(2)
    except OSError as failed:
        say("%s: %s" % (failed.filename or "standard output", failed.strerror))
        sys.exit(2)


# ---- what the kit makes


def files(folder):
    """all files below a folder, and the folders, which are newer where a file was removed"""
    return [os.path.join(inside, name) for inside, _, names in os.walk(folder) for name in [*names, ""]]


def sources():
    """what the library is made of"""
    crates = os.path.join(ROOT, "crates")
    folders = [os.path.join(crates, name, part) for name in os.listdir(crates) for part in ("src", "specs", "proofs")]
    return [os.path.join(ROOT, "crates.txt"), *(file for folder in folders for file in files(folder))]


def is_newer(file, *sources):
    """whether there is one that no source is newer than"""
    return os.path.exists(file) and os.path.getmtime(file) > max(map(os.path.getmtime, sources))


def identity(file):
    """what a kit says that it is; an empty name of none"""
    if not os.path.exists(file):
        return ""
    with open(file) as f:
        return f.read()


def is_made():
    """whether there are an archive and a module of the sources as they are, made by the kit at hand"""
    by = identity(os.path.join(home(), "KIT-ID"))
    return all(is_newer(made, *sources()) for made in (ARCHIVE, MODULE)) and by == identity(KIT_OF_MODULE)


def archive():
    """libthalluskin.a for x86-64, as the kit makes it"""
    make()
    return ARCHIVE


def module():
    """the archive's LLVM module, in binary form"""
    make()
    return MODULE


def make():
    os.makedirs(TARGET, exist_ok=True)
    with open(os.path.join(TARGET, "making"), "w") as lock:
        fcntl.flock(lock, fcntl.LOCK_EX)  # as where make runs `record` and `build` at once
        if not is_made():
            say("proving and making the library, which takes half a minute, and some minutes for the first time")
            make_anew(os.path.dirname(MODULE))


def make_anew(folder):
    shutil.rmtree(folder, ignore_errors=True)
    os.makedirs(folder)
    os.makedirs(os.path.dirname(ARCHIVE), exist_ok=True)
    begun = time.time()  # what is changed while the kit proves is newer than what it makes
    with tempfile.TemporaryDirectory() as kit:  # outside the repository, where the kit wants no links
        run(keeping(os.path.join(kit, "kit")), "lib", *ANY_X86, cwd=CRATE)
    for made in (MADE, MODULE):
        if not os.path.exists(made):
            raise Failed("the kit did not make %s" % os.path.relpath(made, ROOT))
    shutil.copyfile(MADE, ARCHIVE)
    for made in (ARCHIVE, MODULE):
        os.utime(made, (begun, begun))
    with open(KIT_OF_MODULE, "w") as f:
        f.write(identity(os.path.join(home(), "KIT-ID")))


def keeping(made):
    """the command rt of a kit whose clang keeps a copy of the module that it is handed, and else is the kit at hand"""
    there, clang = home(), tool("clang")
    for k, but in enumerate([[COMPILER[0], "bin"], COMPILER[1:2], COMPILER[2:]]):
        links(os.path.join(there, *COMPILER[:k]), os.path.join(made, *COMPILER[:k]), but)
    links(os.path.join(there, "bin"), os.path.join(made, "bin"), COMMAND)
    for name in COMMAND:
        shutil.copy(os.path.join(there, "bin", name), os.path.join(made, "bin", name))
    keeps = os.path.join(made, *COMPILER)
    with open(keeps, "w") as f:
        f.write('#!/bin/sh\nfor word; do case $word in *.bc) cp "$word" %s ;; esac; done\nexec %s "$@"\n' % (
            shlex.quote(MODULE), shlex.quote(clang)))
    os.chmod(keeps, 0o755)
    return os.path.join(made, "bin", COMMAND[0])


def links(there, here, but):
    """links in a folder to all that another one has, but for some names"""
    os.makedirs(here)
    for name in os.listdir(there):
        if name not in but:
            os.symlink(os.path.join(there, name), os.path.join(here, name))
