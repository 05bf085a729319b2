#!/usr/bin/env python3
"""Spells the names of the repository's definitions and lemmas as the toolchain spells its own: words in snake case, types in camel case.

usage: names.py [--list | --meets]     at the top of the repository, once, after the toolchain's own script and before any edit by hand

A name is the repository's where a file of specs/, or a file of lemmas in proofs/, has it with a dash and no file of a library gives it: drawing-refusal is
spelled drawing_refusal, Can-look CanLook. Programs, exported names, strings and outputs keep what they have; of a program only its clauses and ghost items
turn. Also turned: edits that must fail, code spans of comments, README and docs/. --list prints each name with its new spelling; --meets prints the names
that would fall together with another one, and writes nothing.
"""
import collections
import os
import re
import sys

WORD = re.compile(r"[^\s(){}\[\].,;:@\"«»`=|/\\*]+")
DASHED = re.compile(r"[A-Za-z0-9_'₀-₉]+(?:-[A-Za-z0-9_'₀-₉]+)+")
USE = re.compile(r"\buse ([\w.'+]+)\.\{([^}]*)\}", re.S)
CLAUSE = re.compile(r"\b(?:requires|ensures|ghost|tactic)\b")

# Where the new spelling is taken, by a function of the same program or by another definition.
OTHERS = {
    "bit-and": "bit_and_lem",
    "List-checked": "IsListChecked",
    "Taken-on": "IsTakenOn",
}


def files(*ends):
    for folder, dirs, names in os.walk("crates"):
        dirs[:] = sorted(d for d in dirs if d != "out")
        for name in sorted(names):
            if name.endswith(ends):
                yield os.path.join(folder, name)


def text_of(path):
    with open(path, encoding="utf-8") as f:
        return f.read()


def without_comments(path, text):
    return re.sub(r"(?m)(?:^|(?<=\s))--(?:\s.*)?$" if path.endswith(".antt") else r"(?m)//.*$", "", text)


def ours(module):
    head = module.split(".")
    return head[0] == "Rattle" and len(head) > 1 and os.path.isdir(os.path.join("crates", head[1]))


def lent(text):
    """The names that a file takes from a library."""
    found = set()
    for m in USE.finditer(text):
        if not ours(m.group(1)):
            found |= {side.strip() for part in m.group(2).split(",") for side in part.split(" as ")}
    return found


def lemma_file(path):
    parts = path.split(os.sep)
    return path.endswith(".antt") and (parts[2] == "specs" or parts[2] == "proofs" and len(parts) == 4)


def spelled(name):
    if name in OTHERS:
        return OTHERS[name]
    parts = name.split("-")
    if name[0].isupper():
        return parts[0] + "".join(p[0].upper() + p[1:] for p in parts[1:])
    return "_".join(parts)


def table():
    names = set()
    for path in files(".antt"):
        if lemma_file(path):
            text = without_comments(path, text_of(path))
            names |= {w for w in WORD.findall(text) if DASHED.fullmatch(w)} - lent(text)
    return {name: spelled(name) for name in names}


def turned(text, rows, keep):
    def word(m):
        w = m.group(0)
        return rows[w] if w in rows and w not in keep else w

    return WORD.sub(word, text)


def own(path, text, rows):
    """The lemmas that a function's proof keeps for itself: what it declares that is no goal."""
    if not path.endswith("Proof.antt"):
        return {}
    declared = re.findall(r"(?m)^(?:abbrev |unfoldable )?(?:pub )?([^\s(){}]+) :(?!\s*tie\.)", text)
    return {w: spelled(w) for w in declared if DASHED.fullmatch(w) and not w.endswith("-spec") and w not in rows}


def in_spans(text, rows):
    return re.sub(r"`[^`\n]*`", lambda m: turned(m.group(0), rows, ()), text)


def of_antt(text, rows):
    keep = lent(text)
    lines = []
    for line in text.split("\n"):
        m = re.search(r"(?:^|(?<=\s))--(?:\s|$)", line)
        code, comment = (line[: m.start()], line[m.start() :]) if m else (line, "")
        lines.append(turned(code, rows, keep) + in_spans(comment, rows))
    return "\n".join(lines)


def of_program(text, rows):
    """Clauses and ghost items turn, from their first word to the brace that closes them."""
    out, at, keep = [], 0, lent(text)
    pattern = re.compile(r"//[^\n]*|b?\"(?:\\.|[^\"\\])*\"|b?'(?:\\.|[^'\\])'|\b(?:requires|ensures)\b\*?\s*\w*\s*\{|\bghost\b[^;{]*[;{]", re.S)
    while True:
        m = pattern.search(text, at)
        if not m:
            out.append(text[at:])
            return "".join(out)
        out.append(text[at : m.start()])
        piece, end = m.group(0), m.end()
        if piece.startswith("//"):
            out.append(in_spans(piece, rows))
        elif piece[0] in "\"'b":
            out.append(piece)
        else:
            if piece.endswith("{"):
                depth = 1
                while depth:
                    depth += {"{": 1, "}": -1}.get(text[end], 0)
                    end += 1
            out.append(turned(text[m.start() : end], rows, keep))
        at = end


def of_edit(text, rows):
    return "\n".join(
        in_spans(line, rows) if line.startswith("#") else turned(line, rows, ()) if line.startswith(("old:", "new:")) else line
        for line in text.split("\n")
    )


def meets(rows):
    """Names that fall together: in one file of specs/ or proofs/, with an exported definition, or with a function of the same program."""
    spelled_by = collections.defaultdict(set)
    for old, new in rows.items():
        spelled_by[new].add(old)
    for new, olds in sorted(spelled_by.items()):
        if len(olds) > 1:
            yield f"{new}: {' and '.join(sorted(olds))}"
    for path in files(".antt", ".rt"):
        text = without_comments(path, text_of(path))
        words = set(WORD.findall(text))
        keep = lent(text)
        for w in sorted(words):
            if w in rows and w not in keep and rows[w] in words:
                yield f"{path}: {w} beside {rows[w]}"


def main():
    rows = table()
    if sys.argv[1:] == ["--list"]:
        for old, new in sorted(rows.items()):
            print(old, new, sep="\t")
        return
    if sys.argv[1:] == ["--meets"]:
        for line in meets(rows):
            print(line)
        return
    pages = ["README.md"] + [os.path.join(f, n) for f, _, ns in os.walk("docs") for n in sorted(ns) if n.endswith(".md")]
    for path in list(files(".antt", ".rt", ".edit")) + pages:
        old = text_of(path)
        turn = of_antt if path.endswith(".antt") else of_program if path.endswith(".rt") else of_edit if path.endswith(".edit") else in_spans
        new = turn(old, rows)
        for name, spelling in own(path, new, rows).items():
            new = re.sub(rf"(?<![^\s(){{}}\[\],;]){re.escape(name)}(?![^\s(){{}}\[\].,;])", spelling, new)
        if new != old:
            with open(path, "w", encoding="utf-8") as f:
                f.write(new)


main()
