"""How deep the stack grows in each of a library's functions: what each takes for itself, and the deepest chain of
calls. What the linker adds, copies and divisions, is not counted."""
import re

from processors.kit import Failed


def deepest(name, frames, calls, above=()):
    if name in above:
        raise Failed("%s calls itself" % name)
    return frames[name] + max((deepest(called, frames, calls, (*above, name)) for called in calls[name]), default=0)


def of_object(made):
    """of the functions of an object file; a section that refers to another's code is taken for a call, which it is or
    a jump"""
    sections = made.functions()
    names = {section: name for name, section in sections.items()}
    frames, references = made.frames(), made.references()
    lacking = [name for name, section in sections.items() if section not in frames]
    if lacking:
        raise Failed("the compiler does not say what stack %s takes" % ", ".join(lacking))
    calls = {name: {names[to] for to in references[section] if to in names and to != section}
             for name, section in sections.items()}
    return {name: deepest(name, {name: frames[section] for name, section in sections.items()}, calls)
            for name in sections}


def of_wasm(assembler):
    """of the functions of WebAssembly's assembler text, in the linear memory: each begins by taking what it needs off
    the stack's pointer"""
    frames, calls, name, last = {}, {}, None, []
    for line in assembler.split("\n"):
        label = re.match(r'(?:"([^"]+)"|([^\s":.][^\s":]*)):', line)  # one with a dot first is within a function
        words = [word.strip('"') for word in line.split("#")[0].split()]
        if label:
            name, last = label[1] or label[2], []
            frames[name], calls[name] = 0, set()
        elif name and words:
            if words[0].startswith("call"):
                if words[0] != "call":
                    raise Failed("whom does %s call by '%s'?" % (name, " ".join(words)))
                calls[name].add(words[1])
            if ["global.get", "__stack_pointer"] in last:
                last.append(words)
                if len(last) == 3:
                    if last[1][0] != "i32.const" or last[2] != ["i32.sub"] or frames[name]:
                        raise Failed("what does %s take of the stack by %s?" % (name, last))
                    frames[name], last = int(last[1][1]), []
            elif words == ["global.get", "__stack_pointer"]:
                last = [words]
    unknown = {called for one in calls.values() for called in one} - set(frames)
    if unknown:
        raise Failed("what stack does %s take?" % ", ".join(sorted(unknown)))
    return {name: deepest(name, frames, calls) for name in frames}
