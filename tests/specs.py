"""Prints the files of crates/*/specs whose head doesn't say what they come from, and where docs/PROOFS.md has another list of
those with steps of the code alone; nothing where all is well.

A head is the comment that a file opens with. It names a section of document 01, a refusal of its table, a request of document 02, a
section of an RFC or a file of the Rust, or begins by saying that the file has steps of the code. A `Lib.antt` that only lists modules needs none."""
import glob
import os
import re
import sys

# Document 01's sections and the heads of their paragraphs. It isn't in this repository.
SECTIONS = [
    "A request arrives", "Entry", "Block", "Identifier", "CSeq", "Contact", "Routes", "Response",
    "Intervals, PRACK, RSeq", "Record image", "Turned back", "The book of demand 3", "Handover listing",
    "Lines from the test sheet", "How firmly it is stated", "Rust forms that give way", "The shape of each place",
    "Files, leaves first",
]
SOURCES = [
    r'[Dd]ocument 01\b.*"(' + "|".join(SECTIONS) + r')"',
    r"[Dd]ocument 01, (refusal|refusals) \d",
    r"[Dd]ocument 02, requests? \d",
    r"RFC (3261|3262|4028),? sections? \d",
    r"\b(lib|msg|metrics|prack_validator|session_timer_manager)\.rs\b",
]
STEP = r"(A step|Steps) of the code\b"
# The paragraph of PROOFS with the list.
LIST = "**Steps of the code.**"


def head(text):
    """The comment that a file opens with, in one line."""
    lines = []
    for line in text.splitlines():
        if not line.startswith("--"):
            break
        lines.append(line[2:].strip())
    return " ".join(lines)


def lists_modules(text):
    """Whether a file has module lines alone."""
    return all(re.fullmatch(r"(pub )?mod \w+", line) for line in text.splitlines() if line)


def listed(proofs):
    """The files that the paragraph of PROOFS names."""
    paragraph = next(part for part in proofs.split("\n\n") if part.startswith(LIST))
    return set(re.findall(r"`(\w+/specs/\w+\.antt)`", paragraph))


def main():
    top = os.path.dirname(os.path.dirname(os.path.abspath(__file__)))
    crates = os.path.join(top, "crates")
    heads = {}
    for path in sorted(glob.glob(os.path.join(crates, "*", "specs", "**", "*.antt"), recursive=True)):
        with open(path, encoding="utf-8") as file:
            text = file.read()
        if not lists_modules(text):
            heads[os.path.relpath(path, crates)] = head(text)
    steps = {name for name, said in heads.items() if re.match(STEP, said)}
    for name, said in heads.items():
        if name not in steps and not any(re.search(source, said) for source in SOURCES):
            print(f"{name}: its head names no section: {said[:80]}")
    with open(os.path.join(top, "docs", "PROOFS.md"), encoding="utf-8") as file:
        named = listed(file.read())
    for name in sorted(steps - named):
        print(f"{name}: steps of the code, and not in the list of docs/PROOFS.md")
    for name in sorted(named - steps):
        print(f"{name}: in the list of docs/PROOFS.md, and its head doesn't begin so")
    print(f"{len(heads)} files of definitions, {len(steps)} of them of steps of the code", file=sys.stderr)


main()
