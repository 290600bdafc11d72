"""Holds the machine code of some functions of an object or archive to dividing nothing (02, request 5).

    python3 tests/divisions.py FILE FUNCTION ..

Prints each instruction of the functions, and of those that they call, that divides (`div`, `idiv`) or makes the upper half of a product (`mul`, `mulx`, `imul` with one
operand), which is how a compiler divides by a constant; and fails if there is one. A function that isn't there fails too."""
import re
import subprocess
import sys

START = re.compile(r"^[0-9a-f]+ <(.+)>:$")
CALLS = re.compile(r"R_X86_64_(?:PLT32|PC32|GOTPCREL\w*)\s+([^\s+-]+)")
INSIDE = re.compile(r"\b(?:call|jmp)q?\s+[0-9a-f]+ <([^>+]+)>")
DIVIDES = re.compile(r"^(?:i?div[bwlq]?|mul[bwlq]?|mulx[lq]?)\s|^imul[bwlq]?\s+[^,]+$")


def functions(path):
    """The instructions of each function, and the functions that each names."""
    said = subprocess.run(["objdump", "-dr", "--no-show-raw-insn", path], check=True, capture_output=True, text=True).stdout
    code, named, name = {}, {}, None
    for line in said.splitlines():
        start = START.match(line)
        if start:
            name = start.group(1)
            code[name], named[name] = [], set()
        elif name and "\t" in line:
            text = line.split("\t")[1].strip()
            named[name].update(CALLS.findall(line), INSIDE.findall(line))
            if "R_X86_64" not in text:
                code[name].append(text)
    return code, named


def reached(roots, named):
    found, todo = set(), list(roots)
    while todo:
        name = todo.pop()
        if name in named and name not in found:
            found.add(name)
            todo.extend(named[name])
    return found


def main():
    path, roots = sys.argv[1], sys.argv[2:]
    code, named = functions(path)
    wrong = [f"{name} is not in {path}" for name in roots if name not in code]
    for name in sorted(reached(roots, named)):
        wrong += [f"{name}: {text}" for text in code[name] if DIVIDES.match(text)]
    print("\n".join(wrong) if wrong else f"{len(reached(roots, named))} functions, none divides")
    sys.exit(1 if wrong else 0)


main()
