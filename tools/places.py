#!/usr/bin/env python3
"""Lists the places in crates/*/src that docs/DESIGN-PASS.md counts, a line for each, and their number for each point.

    tools/places.py [FOLDER]      FOLDER: the top of a checkout; this one if it is left out
    tools/places.py --counts      the numbers alone

It reads text and knows no Rattle: a line is a place to look at, and the page says what became of it."""
import pathlib
import re
import sys
from collections import Counter, defaultdict

# point, what is looked for, a pattern over the text of a file (^ and $ are the ends of a line)
PATTERNS = [
    (1, "a case of an own enum that says 'nothing' or 'refused'", r"^    (Nothing|Unlisted|Blank|Refused)\b.*$"),
    (1, "Option or Result taken apart and put together again by hand",
     r"^.*(\bNone => (return )?None|Err\((_|[a-z]+)\) => (return )?(Err|None|unreachable|\{\n\s*Err)).*$"),
    (1, "an early None or Err after a let .. else or an if let", r"^\s*(let|if) [^\n]*else \{\n\s*return [^\n]*(None|Err)[^\n]*$"),
    (1, "a flag or a number that stands for 'none' or for a kind",
     r"^.*(\b(is_minus|differs): bool|_ => 36|fn (set_pin|cut)\(|\b(code|level): u8\b|matches!\(answer).*$"),
    (1, "a kind named by a text that is compared", r'^\s*("temperature"|"reflector"|match kind\.as_str).*$'),
    (3, "a loop that counts an index by hand", r"^\s*for \w+ in [^\n]*\.\.[^\n]*$"),
    (3, "a loop with a condition", r"^\s*while [^\n]*$"),
    (3, "a for over elements that the library has a method for", r"^\s*for (\w+|\(\w+, \w+\)) in (&?\w+|[^\n]*\.iter\(\)[^\n]*) \{\n\s*if [^\n]*\{\n\s*return [^\n]*$"),
    (4, "a number of an enum's case", r"^\s*pub fn number\(.*$"),
    (4, "equality, a copy or a print written out", r"^\s*(fn (eq|ne|cmp|clone|told|millimetres|degrees|hex|write_hex|hex_digit)|pub\(crate\) fn (millimetres|write_hex|push_decimal|push_hex))\b.*$"),
    (4, "bytes of a number put together or taken apart by hand",
     r"^(?!\s*(requires|ensures))[^\n]*(as u\d+ \* 256\b|\(\w+ / 256|65_536\) as u8|\* 65_536 \+)[^\n]*$"),
    (4, "a number made shorter by hand", r"^\s*fn (is_short|shortened)\(.*$"),
    (6, "a buffer of fixed size, or a length beside one", r"^\s*(len|count): usize,$|^.*: \[u8; \d+\],$|^.*= \[(0|0xff|b' '|byte); \d+\];$"),
    (7, "a switch on which step to run", r"^\s*match (step|event|command\.as_str\(\)|kind\.as_str\(\)|rest|words) \{$"),
]


def sources(top):
    for path in sorted(pathlib.Path(top, "crates").glob("*/src/**/*.rt")):
        yield path, path.read_text()


def clauses(text):
    """The clauses of a file, without their names."""
    for m in re.finditer(r"^\s*(requires|ensures)\s+(?:\w+\s+)?\{(.*)\}\s*$", text, re.M):
        yield m.group(1), " ".join(m.group(2).split()), text.count("\n", 0, m.start()) + 1


def main():
    args = [a for a in sys.argv[1:] if not a.startswith("--")]
    top = pathlib.Path(args[0] if args else pathlib.Path(__file__).resolve().parent.parent)
    counts = Counter()
    rows = defaultdict(list)
    for path, text in sources(top):
        rel = path.relative_to(top / "crates")
        for point, what, pattern in PATTERNS:
            for m in re.finditer(pattern, text, re.M):
                line = text.count("\n", 0, m.start()) + 1
                counts[(point, what)] += 1
                rows[(point, what)].append(f"{rel}:{line}: {' '.join(m.group(0).split())[:110]}")
    # point 5: a clause that asks the same of three functions or more of a crate, whatever the parameter is called
    facts = defaultdict(list)
    for path, text in sources(top):
        rel = path.relative_to(top / "crates")
        for kind, clause, line in clauses(text):
            shape = re.sub(r"\.(old|new|now)\b", "", clause)
            facts[(rel.parts[0], kind, shape)].append(f"{rel}:{line}")
    for (crate, kind, shape), where in sorted(facts.items()):
        if len(where) >= 3 and (kind == "requires" or "result" not in shape):
            key = (5, "a fact that stands in three contracts or more of a crate")
            counts[key] += 1
            rows[key].append(f"{crate}: {len(where)} times {kind} {{ {shape[:90]} }}")
    for key in sorted(counts):
        print(f"point {key[0]}: {counts[key]:3} {key[1]}")
        if "--counts" not in sys.argv:
            for row in rows[key]:
                print(f"      {row}")


main()
