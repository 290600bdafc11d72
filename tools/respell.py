#!/usr/bin/env python3
"""Spells the repository's own definitions, lemmas and record fields in snake case, as today's Rattle spells its library.

usage: python3 tools/respell.py            at the top of the repository, once, on what the kit's port/port.py wrote

Words in lowerCamel (`storeImage`) and names with dashes (`size-then`) get underscores. Names that Rattle makes of the
code (goals, steps, places of the older proofs) keep their dashes: a dashed name turns where a file declares it itself,
imports it, or names a record's field. In .rt files clauses and `ghost use` items turn, in documents and comments code spans,
in must-fail edits the words in lowerCamel. Functions, exported names, strings, inputs and outputs stay.
"""
import os
import re
import sys

WORD = re.compile(r"[^\s(){}.;,@\"«»\[\]|λ]+")
CAMEL = re.compile(r"[a-z][a-z0-9]*(?:[A-Z][A-Za-z0-9]*)+'*$")
DECLARED = re.compile(r"^ *(?:(?:abbrev|unfoldable|pub|mutual|ruleset|data|record) +)*([^\s:(){}]+)(?: +[({].*?)? :(?: (.*))?$")
# Names whose plain spelling another name of the same file has: style's `_lem`, or a word that says more.
OTHER = {
    "first_of": "first_of_rseq",  # the plain spelling is a tactic's
    "first-of": "first_of_lem",
    "number-of": "number_of_lem",
    "state-of": "state_of_lem",
    "end-at": "end_at_lem",
    "with-list": "with_list_lem",
    "local-uri": "local_uri_start",
    "remote-uri": "remote_uri_start",
    "value-at": "value_at_lem",
    "end-of": "end_of_lem",
    "is-line": "is_line_lem",
    "is-plain": "is_plain_lem",
    "only-requested": "only_requested_iff",
    "getD-before": "get_or_before",
    "getD-within": "get_or_within",
    "lies-getD": "lies_get_or",
}
# Lemmas that port.py had spelled so already, and the definition that has the plain spelling now.
LEMMAS = {"text_at": "text_at_lem", "map_of": "map_of_lem", "as_read": "as_read_lem"}
LEMMA_FILES = {
    "text_at": ("msg/proofs/TableLaws.antt", "prack_headers/proofs/ReadingLaws.antt"),
    "map_of": ("image/proofs/MapBits.antt",),
    "as_read": ("uri/proofs/Laws.antt",),
}


def snake(word):
    word = re.sub(r"([A-Z]+)([A-Z][a-z])", r"\1_\2", word)
    return re.sub(r"(?<=[a-z0-9])([A-Z])", lambda m: "_" + m.group(1), word).lower()


def files(top, ends):
    for folder, dirs, names in os.walk(top):
        dirs[:] = [d for d in sorted(dirs) if d != "out"]
        for name in sorted(names):
            if name.endswith(ends):
                yield os.path.join(folder, name)


def code(line):
    m = re.search(r"(?:^|\s)--(?:\s|$)", line)
    return (line[: m.start()], line[m.start() :]) if m else (line, "")


def names_of(texts):
    own, made, fields = {}, set(), set()
    for path, text in texts.items():
        here = own.setdefault(path, set())
        of_function = path.endswith("/Proof.antt")
        for line in text.split("\n"):
            m = DECLARED.match(code(line)[0])
            if not m:
                continue
            kind = m.group(2) or ""
            if of_function and (kind.startswith("tie.") or "statement" in kind):
                made.add(m.group(1))
            else:
                here.add(m.group(1))
                fields.add(m.group(1))
    return own, made, fields


def imported(text):
    out = set()
    for m in re.finditer(r"^ *(?:pub )?use +[^\s{]+\.\{([^}]*)\}", text, re.M):
        for part in m.group(1).split(","):
            out.add(part.strip().split(" as ")[0])
    return out


def dashed(word):
    return "-" in word.strip("-") and re.fullmatch(r"[A-Za-z0-9_'-]+", word) and not re.match(r"^(Need|After|Then|Else|In|At)-", word)


def turn_code(line, table):
    def put(m):
        return table.get(m[0], m[0])

    return WORD.sub(put, line)


def turn_spans(text, table):
    return re.sub(r"`[^`\n]+`", lambda m: turn_code(m[0][:1] + " " + m[0][1:-1] + " " + m[0][-1:], table).replace("` ", "`", 1)[:-2] + "`", text)


def rt_parts(text):
    """Cuts a .rt file into pieces (is it of a clause, text)."""
    at, out = 0, []
    for m in re.finditer(r"ghost use [^;]*;|(?:requires|ensures)\*? *(?:\w+ *)?\{|ghost +(?:\w+ *(?:: *|= *))?\{", text):
        if m.start() < at:
            continue
        end = m.end()
        if m[0].endswith("{"):
            depth = 1
            while depth:
                depth += {"{": 1, "}": -1}.get(text[end], 0)
                end += 1
        out += [(False, text[at : m.start()]), (True, text[m.start() : end])]
        at = end
    return out + [(False, text[at:])]


def main():
    texts = {p: open(p, encoding="utf-8").read() for p in files("crates", ".antt")}
    own, made, fields = names_of(texts)
    camel = {}
    for text in texts.values():
        for line in text.split("\n"):
            for word in WORD.findall(code(line)[0]):
                if CAMEL.match(word):
                    camel[word] = snake(word)
    camel["first_of"] = OTHER["first_of"]
    declared = set().union(*own.values())
    # A lemma that would have its function's name gets `_lem`.
    taken = set(camel.values()) | {n for n in declared if not dashed(n)}
    plain = {n: n.replace("-", "_") for n in declared if dashed(n)}
    dashes = {n: OTHER.get(n, new + "_lem" if new in taken else new) for n, new in plain.items()}
    notes = []
    for path, text in texts.items():
        table = dict(camel)
        brought = imported(text)
        mine = {m.group(1) for line in text.split("\n") for m in [DECLARED.match(code(line)[0])] if m}
        tied = mine - own[path]
        for n, new in dashes.items():
            if n in tied:
                if n in own[path] or n in brought:
                    notes.append(f"left: {path}: {n} is a goal here too")
                continue
            if n in own[path] or n in brought or n not in made:
                table[n] = new
        for n, new in LEMMAS.items():
            if path[7:] in LEMMA_FILES[n]:
                table[n] = new
        words = {w for line in text.split("\n") for w in WORD.findall(code(line)[0])}
        for w in words & set(table):
            if table[w] in words and table[w] not in table:
                notes.append(f"look: {path}: {w} and {table[w]}")
        lines = []
        for line in text.split("\n"):
            a, b = code(line)
            lines.append(turn_code(a, table) + turn_spans(b, {**dashes, **camel}))
        new = "\n".join(lines)
        new = re.sub(r"\b(\w+) as \1\b", r"\1", new)
        if new != text:
            open(path, "w", encoding="utf-8").write(new)
    for path in files("crates", ".rt"):
        text = open(path, encoding="utf-8").read()
        out = []
        for clause, part in rt_parts(text):
            if clause:
                words = set(WORD.findall(part))
                for w in words & set(camel):
                    if camel[w] in words:
                        notes.append(f"look: {path}: {w} and {camel[w]} in one clause")
                out.append(turn_code(part, {**camel, **{n: v for n, v in dashes.items() if n not in made}}))
            else:
                out.append(turn_spans(part, {**dashes, **camel}))
        new = "".join(out)
        if new != text:
            open(path, "w", encoding="utf-8").write(new)
    for path in files("crates", ".edit"):
        text = open(path, encoding="utf-8").read()
        new = turn_code(text, camel)
        if new != text:
            open(path, "w", encoding="utf-8").write(new)
    for path in ["README.md", *files("docs", ".md"), "oracle/README.md"]:
        text = open(path, encoding="utf-8").read()
        new = turn_spans(text, {**dashes, **camel})
        if new != text:
            open(path, "w", encoding="utf-8").write(new)
    print("\n".join(sorted(set(notes))))
    print(f"respell: {len(camel)} words in lowerCamel, {len(dashes)} names with dashes", file=sys.stderr)


if __name__ == "__main__":
    main()
