#!/usr/bin/env python3
"""The stack that each exported C function takes at most, read off the code of a linked program.

    tests/stack.py PROGRAM LIMIT OTHERS    prints the five deepest, and the deepest that reads no store of records; fails where one takes more than LIMIT
                                           bytes, or one that reads no such store more than OTHERS

Of each function the frame is read: what it pushes, what it takes from the stack pointer, and the place of the return; then the deepest way along its calls.
A function that calls itself is `distinct::merging::sort` alone, as often as the largest table of `store` halves; any other round of calls fails, and so does a
call by pointer. What the C library takes for a call (`memset`, `memcpy`) is counted with 256 bytes."""
import os
import re
import subprocess
import sys

TOP = os.path.dirname(os.path.dirname(os.path.abspath(__file__)))
LIBRARY = 256
SORT = "distinct::merging::sort"
READS = "store::read_store"


def halvings():
    """How many calls of the sort can be under way at once: a run of one place is not halved."""
    with open(os.path.join(TOP, "crates/store/src/lib.rt"), encoding="utf-8") as file:
        size = max(int(n) for n in re.findall(r"is_distinct_in::<(\d+)>", file.read()))
    return 1 + (size - 1).bit_length()


def functions(program):
    """Each function's frame and the functions that it calls or jumps to."""
    text = subprocess.run(["objdump", "-d", "--no-show-raw-insn", program], capture_output=True, text=True, check=True).stdout
    frames, calls, name, probed = {}, {}, None, False
    for line in text.split("\n"):
        head = re.match(r"[0-9a-f]+ <(.*)>:$", line)
        if head:
            name, probed = head.group(1), False
            frames[name], calls[name] = 8, set()
            continue
        code = re.match(r"\s+[0-9a-f]+:\t(\S+)\s*(.*)", line)
        if not code or name is None:
            continue
        word, rest = code.groups()
        if word == "push":
            frames[name] += 8
        elif word == "sub" and rest.endswith(",%rsp"):
            size = re.match(r"\$0x([0-9a-f]+),", rest)
            if not size:
                sys.exit(f"stack: {name} has a frame of a size known only at run time")
            if not probed:
                frames[name] += int(size.group(1), 16)
        elif word == "sub" and rest.endswith(",%r11") and rest.startswith("$"):
            # A large frame is taken page by page, down to what is in r11; the step is not counted again.
            frames[name] += int(re.match(r"\$0x([0-9a-f]+),", rest).group(1), 16)
            probed = True
        elif word == "jne" and probed:
            probed = False
        elif word in ("call", "jmp") or word.startswith("j"):
            to = re.match(r"[0-9a-f]+ <([^+>]*)>$", rest)
            if to:
                if to.group(1) != name or word == "call":
                    calls[name].add(to.group(1))
            elif rest.startswith("*") and word == "call":
                calls[name].add("*")
    return frames, calls


def main():
    if len(sys.argv) != 4:
        sys.exit(__doc__)
    frames, calls = functions(sys.argv[1])
    limit, others, deepest, sorts = int(sys.argv[2]), int(sys.argv[3]), {}, halvings()

    def depth(name, above):
        if name == "*":
            sys.exit(f"stack: {above[-1]} calls by pointer")
        if name.endswith("@plt") or name not in frames:
            return LIBRARY, []
        if name not in deepest:
            if name in above:
                sys.exit("stack: a round of calls: " + " ".join(above[above.index(name):]))
            inner = [(depth(to, above + [name]), to) for to in sorted(calls[name]) if not (to == name and name == SORT)]
            best = max(inner, default=((0, []), ""), key=lambda x: x[0][0])
            times = sorts if name == SORT and SORT in calls[name] else 1
            deepest[name] = frames[name] * times + best[0][0], [(name, frames[name] * times)] + best[0][1]
        return deepest[name]

    sys.setrecursionlimit(10000)
    exported = sorted((depth(name, [])[0], name) for name in frames if name.startswith("sip_dialog_"))
    if not exported:
        sys.exit("stack: no function sip_dialog_..")
    reads = lambda name: any(one == READS for one, _ in deepest[name][1])
    lone = [(size, name) for size, name in exported if not reads(name)]
    for size, name in [*reversed(exported[-5:]), *lone[-1:]]:
        print(f"{size:8d} {name}: " + ", ".join(f"{n} {f}" for n, f in deepest[name][1] if f >= 200))
    over = [name for size, name in exported if limit < size] + [name for size, name in lone if others < size]
    print(f"stack: {len(exported)} functions, {len(over)} over {limit} bytes, or over {others} without a store of records")
    sys.exit(1 if over else 0)


main()
