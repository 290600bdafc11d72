"""Prints crates.txt as the sources have it: for each crate those that it uses itself, leaves first.

A crate uses another where its code names it (`name::`), where its code, definitions or proofs name its definitions
(`Rattle.name`), or where the types of its functions' values are declared there: those in the types and signatures of the
crates that its code names, and so on. Comments and the order of the lines are those of the file as it is; a crate that has no line yet
is named on standard error."""
import os
import re
import sys

# The toolchain's libraries.
KIT = ["io", "os", "libc", "check", "bytes"]

top = os.path.dirname(os.path.dirname(os.path.abspath(__file__)))
folder = os.path.join(top, "crates")
names = {name for name in os.listdir(folder) if os.path.isdir(os.path.join(folder, name, "src"))}


def files(name, parts, ending):
    """The texts of a crate's files that the prover reads."""
    for part in parts:
        for at, _, found in os.walk(os.path.join(folder, name, part)):
            for file in found:
                if file.endswith(ending):
                    with open(os.path.join(at, file), encoding="utf-8") as text:
                        yield text.read()


def code(name):
    """The crate's code without its comments and ghost lines."""
    for text in files(name, ["src"], ".rt"):
        yield re.sub(r"//.*|ghost use [^;]*;", "", text)


def in_code(name):
    """The crates that the code names. A module of its own, or one of std, may have the name of a library."""
    own = {file[:-3] for file in os.listdir(os.path.join(folder, name, "src")) if file.endswith(".rt")}
    used = set()
    for text in code(name):
        own_here = own | {path.split("::")[-1] for path in imports(text) if path.startswith("std::")}
        used.update(set(re.findall(r"(?<!::)\b([a-z_][a-z_0-9]*)::", text)) - own_here)
    return {other for other in used if other in names or other in KIT} - {name}


def in_laws(name):
    """The crates whose definitions are named."""
    used = set()
    for text in files(name, ["src", "specs", "proofs"], (".rt", ".antt")):
        used.update(re.findall(r"Rattle\.([a-z_0-9]+)", text))
    return (used & (names | set(KIT))) - {name}


def imports(text):
    """The whole path of each import, of those in braces too."""
    for path in re.findall(r"\buse ([^;]*);", text):
        begun, found = [], ""
        for part in re.findall(r"[^{},\s]+|[{},]", re.sub(r"\s+as\s+\w+", "", path)):
            if part == "{":
                begun.append(found)
            elif part == "}":
                begun.pop()
                found = ""
            elif part == ",":
                found = begun[-1] if begun else ""
            else:
                found = (begun[-1] if begun else "") + part
                if not part.endswith("::"):
                    yield found


def in_types(name):
    """The crates that declare the types in the crate's own public types and signatures."""
    used = set()
    for text in code(name):
        imported = {kind: path.split("::")[0] for path in imports(text) for kind in re.findall(r"::([A-Z]\w*)$", path)}
        bodies = re.findall(r"\bpub (?:struct|enum) \w+ \{(.*?)\n\}", text, re.S)
        heads = re.findall(r"\bpub (?:extern \"C\" )?fn (.*?)(?:\bensures\b|\brequires\b|\{)", text, re.S)
        for part in bodies + heads:
            used.update(imported.get(kind) for kind in re.findall(r"\b([A-Z]\w*)", part))
            used.update(re.findall(r"\b([a-z_0-9]+)::[A-Z]", part))
    return (used & names) - {name}


def uses(name):
    """All that the crate is to be given."""
    found, todo = set(), list(in_code(name) & names)
    while todo:
        other = todo.pop()
        if other not in found:
            found.add(other)
            todo.extend(in_types(other))
    return (found | in_code(name) | in_laws(name)) - {name}


def main():
    with open(os.path.join(top, "crates.txt"), encoding="utf-8") as file:
        lines = file.read().splitlines()
    order = [line.split(":")[0].split(" ")[0] for line in lines if ":" in line and not line.startswith("#")]
    for name in sorted(names - set(order)):
        print(f"crates.py: {name} has no line", file=sys.stderr)
    for line in lines:
        words = line.split(":")[0]
        name = words.split(" ")[0]
        if name not in order:
            print(line)
        elif name in names:
            used = uses(name)
            for other in order[order.index(name):]:
                if other in used:
                    print(f"crates.py: {name} uses {other}, which stands below it", file=sys.stderr)
            own = [other for other in order if other in used] + [library for library in KIT if library in used]
            print(f"{words}:" + "".join(f" {other}" for other in own))


main()
