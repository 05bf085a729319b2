#!/usr/bin/env python3
"""Lists the places of src/ that docs/DESIGN-PASS.md counts, point by point; `-v` prints each. Run at the top: tools/places.py [-v] [FOLDER]."""
import re
import sys
from pathlib import Path

ARGUMENTS = [a for a in sys.argv[1:] if a != "-v"]
VERBOSE = "-v" in sys.argv
TOP = Path(ARGUMENTS[0] if ARGUMENTS else ".")
# Cases of an enum that say that there is nothing, or why not.
NOTHING = "Refused|Failed|Unread|Unclear|None|Nothing|Stopped|NotPermitted|NotContained|TooShort|Past|Passed"
# A number that stands for nothing, as comments and bodies have it.
SENTINEL = r"ten if|; 0 is no|0 for none|, or 0\b|0 is none|0, which is none|is none\. No top|-1 where it|return FULL|or 0 where|where no .* go(es)?;? *0"


def functions(lines):
    """(first line, name, lines) of each function with a body."""
    at = 0
    while at < len(lines):
        found = re.match(r"( *)(?:pub(?:\(crate\))? )?(?:extern \"C\" )?fn (\w+)", lines[at])
        if not found:
            at += 1
            continue
        end = at
        while end < len(lines) and not re.match(found.group(1) + r"\}$", lines[end]):
            end += 1
        yield at, found.group(2), lines[at:end + 1]
        at = end + 1


places = {}


def place(point, where, text):
    places.setdefault(point, []).append(f"{where}: {text.strip()[:110]}")


facts = {}
for path in sorted(TOP.glob("crates/*/src/*.rt")):
    short = f"{path.parts[-3]}/{path.name}"
    lines = path.read_text().split("\n")
    for n, line in enumerate(lines, 1):
        where = f"{short}:{n}"
        if re.match(rf"    ({NOTHING})(\(|,| \{{)", line):
            place("1 enums with a case of nothing", where, line)
        if re.match(r"^(pub(\(crate\))? )?enum Order", line):
            place("1 enums with a case of nothing", where, line)
        if re.search(SENTINEL, line) and "//" in line or "return FULL" in line:
            place("1 numbers that stand for nothing", where, line)
        if re.match(r"    pub (\w+: bool|checked: )", line):
            place("1 a flag beside a value", where, line)
        if re.match(r"pub const \w+: u32 = \d+;", line) and short.startswith("transcript"):
            place("1 numbers for kinds", where, line)
        if re.match(r" *(while|loop) ", line):
            place("3 while and loop", where, line)
        if re.match(r" *for \w+ in 0\.\.\w+\.len\(\)", line):
            place("3 for over the indices of one slice", where, line)
        if re.match(r" *for ", line):
            body = [x.strip() for x in lines[n:n + 4]]
            if re.match(r"\w+\[.*\] = .*;$", body[0]) and body[1] == "}" and re.search(r"= (0|\w+\[[^\]]*\]);$", body[0]):
                place("3 for that copies or fills", where, body[0])
            if re.match(r"if .*\{$", body[0]) and re.match(r"return (true|false);", body[1]) and body[2] == "}" and body[3] == "}":
                place("3 for that asks any or all", where, body[0])
            if re.match(r"if .*\{$", body[0]) and re.match(r"return [a-z]+( as u8)?;", body[1]) and body[2] == "}" and body[3] == "}" \
                    and not re.match(r"return (true|false);", body[1]):
                place("3 for that finds", where, body[0])
            at = next((x for x in body if re.search(r"Drawing::BYTES \* \w+;", x)), None)
            if at and "d" in at:
                place("3 for over the drawings of a survey by offset", where, at)
    for at, name, text in functions(lines):
        where = f"{short}:{at + 1}"
        body = " ".join(x.strip() for x in text)
        if re.search(r"\{ (x|b) as usize \}$", body) or re.search(r"\{ x as usize \}", body):
            place("2 wide, three types", where, name)
        if name.startswith("insert"):
            place("2 insert, two types", where, name)
        if re.search(r"match (answer|verdict|order) \{", body) and short.split("/")[0] in ("answer_numbers", "transcript", "drawing_calls"):
            place("2 an answer as numbers, a function for each type", where, name)
        if name in ("label_in", "slot_in", "group_end", "bits_in"):
            place("2 a cell of a table, a function for each offset", where, name)
        if re.match(r"place_o", name):
            place("2 the place of a number on a path, three types", where, name)
        if re.search(r"numbers\[1\] = w as u8; let mut used", body):
            place("2 the arrays of a start", where, name)
        if re.search(r"fn (then|compare_numbers|least|lesser|same_bytes)\b", body):
            place("4 order and equality by hand", where, name)
        if re.search(r"^(pub )?fn number\(", body):
            place("4 conversion by hand", where, name)
        for group, need in (("numbers, used, path", r"numbers: .*used: .*path: "), ("cells, seen, count", r"cells: .*seen: .*count: "),
                            ("kept, ends", r"kept: .*ends: "), ("survey, labels, rank", r"survey: .*labels: .*rank: "),
                            ("checking, given, output", r"checking: .*given: .*output: "), ("table, twins", r"table: .*twins: ")):
            head = body.split("requires")[0].split("ensures")[0]
            if re.search(need, head):
                place(f"5 parameters together: {group}", where, name)
        contract = re.findall(r"(?:requires|ensures)[^{]*\{(.*?)\}(?= requires| ensures| \{)", body)
        for fact in set(re.findall(r"\((?:\w+ )*[\w.]+ ≡ (?:10|20|100|256|0)\)", " ".join(contract))):
            facts.setdefault(fact, []).append(where + " " + name)
for fact, at in sorted(facts.items()):
    if len(at) >= 3:
        place("5 facts in three contracts or more", fact, f"{len(at)} contracts")
for point in sorted(places):
    print(f"{point}: {len(places[point])}")
    if VERBOSE:
        for x in places[point]:
            print("    " + x)
