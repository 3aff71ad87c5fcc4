#!/usr/bin/env python3
"""Brings this repository's own definitions and lemmas to today's spelling, after port.py.

usage: python3 tools/respell.py          at the top of a checkout, once, on what port.py left

Words are in snake case, types and modules in camel case; a dash stays where it joins two functions' names, and joins no
plain word; a step or goal that is named after the source has the source's underscores. Only specs/, proofs/ and what
.rt files say of them (imports, clauses, ghost items) are touched: functions of src/, strings, inputs and outputs keep
their names.
"""

import glob
import os
import re

TOKEN = re.compile(r"[^\s(){}\[\],;.«»|:=]+")
DEFINED = re.compile(r"^(?:pub )?(?:abbrev |unfoldable )?(?:pub )?(?:record |data |ruleset )?([^\s:(){}]+)(?: [({].*[)}])* :(?!=)")
FIELD = re.compile(r"^\s+pub ([^\s:(){}]+) :(?!=)")
CAMEL = re.compile(r"^[a-z][\w'-]*?[a-z0-9][A-Z]")
# functions of the library that a lemma's name begins or ends with
LIBRARY = set("length get_or take drop set append map reverse replicate sum cond min max mod bit_and bit_or".split())
# a lemma that would have its function's name, one that begins with its outer call, and a fact, which is spelled as a type
OWN = {"right-row": "right_row_lem", "security-byte": "security_byte_lem", "tick-from": "tick_from_lem", "bit-and": "bit_of-bit_and", "knownTo": "KnownTo"}
GOALS = ("Answers.antt", "Invariants.antt", "Choices.antt", "Proof.antt")


def read(path):
    with open(path, encoding="utf-8") as f:
        return f.read()


def write(path, text):
    with open(path, "w", encoding="utf-8") as f:
        f.write(text)


def snake(name):
    name = name.replace("getD", "get_or")
    return re.sub(r"([a-z0-9])([A-Z])", lambda m: m.group(1) + "_" + m.group(2).lower(), name)


def antt_files():
    return sorted(p for p in glob.glob("crates/*/specs/**/*.antt", recursive=True) + glob.glob("crates/*/proofs/**/*.antt", recursive=True))


def rt_files():
    return sorted(glob.glob("crates/*/src/**/*.rt", recursive=True))


def own_names():
    """The top-level names of specs/ and proofs/, but for answers to goals, and the fields of records."""
    names, fields = set(), set()
    for p in antt_files():
        answers = os.path.basename(p) in GOALS
        for line in read(p).split("\n"):
            found = DEFINED.match(line)
            if found and not line.startswith(("use ", "--", "pub mod", "mod ", "unfolding")):
                if not (answers and re.search(r": goal\.", line)):
                    names.add(found.group(1))
            found = FIELD.match(line)
            if found:
                fields.add(found.group(1))
    return names, fields


def other_camel(names):
    """Constructors and variables in camel case that begin low."""
    found = set()
    for p in antt_files():
        for line in read(p).split("\n"):
            if not line.lstrip().startswith("--"):
                found |= {t for t in TOKEN.findall(line) if CAMEL.match(t) and "-" not in t and t not in names}
    return found


def dashes(name, functions):
    """A dash stays between two functions' names; else it becomes an underscore."""
    parts = name.split("-")
    out = [parts[0]]
    for i in range(1, len(parts)):
        if out[-1] in functions and "_".join(parts[i:]) in functions:
            out.append(parts[i])
        else:
            out[-1] += "_" + parts[i]
    return "-".join(out)


def renames():
    names, fields = own_names()
    types = {n for n in names if n[0].isupper()}
    functions = {snake(n) for n in names if "-" not in n and n not in types} | LIBRARY
    table = {}
    for n in sorted(names - types):
        new = dashes(snake(n), functions) if "-" in n else snake(n)
        if new != n:
            table[n] = new
    for n in sorted((fields | other_camel(names)) - names):
        if CAMEL.match(n) or "-" in n:
            table[n] = snake(n).replace("-", "_")
    table.update(OWN)
    return table


def identifiers():
    """Names in src/ with underscores, of this repository and of what it calls."""
    found = set()
    for p in rt_files():
        found |= set(re.findall(r"(?<![\w])[a-z][a-z0-9]*(?:_[a-z0-9]+)+(?![\w])", read(p)))
    return found


def joined(token, words):
    """A step's or goal's name with the underscores of the names that it is made of."""
    parts = token.split("-")
    out, i = [], 0
    while i < len(parts):
        for j in range(len(parts), i + 1, -1):
            word = "_".join(parts[i:j])
            if word in words:
                out.append(word)
                i = j
                break
        else:
            out.append(parts[i])
            i += 1
    return "-".join(out)


def turn(text, table):
    return TOKEN.sub(lambda m: table.get(m.group(0), m.group(0)), text)


def turn_rt(text, table):
    """Names stand only in ghost lines and between the braces of clauses and ghost items; as no identifier of src/ has a
    capital inside or a dash, every such token outside strings is one of ours."""
    out = []
    for line in text.split("\n"):
        code = line.split('"')
        code[::2] = [turn(part, {k: v for k, v in table.items() if CAMEL.match(k) or "-" in k}) for part in code[::2]]
        out.append('"'.join(code))
    return "\n".join(out)


def main():
    table = renames()
    words = identifiers()
    taken = {}
    for old, new in table.items():
        taken.setdefault(new, []).append(old)
    for new, olds in sorted(taken.items()):
        if len(olds) > 1:
            print("fall together:", new, olds)
    for p in antt_files():
        text = read(p)
        tokens = set(TOKEN.findall(text))
        for old in tokens & set(table):
            if table[old] in tokens:
                print("already there:", p, old, table[old])
        new = turn(text, table)
        if os.path.basename(p) in GOALS:
            new = TOKEN.sub(lambda m: joined(m.group(0), words) if "-" in m.group(0) and m.group(0) not in table.values() else m.group(0), new)
        if new != text:
            write(p, new)
    for p in rt_files():
        text = read(p)
        tokens = set(re.findall(r"[\w'-]+", text))
        for old in tokens & set(table):
            if table[old] in tokens:
                print("already there:", p, old, table[old])
        new = turn_rt(text, table)
        if new != text:
            write(p, new)
    for old, new in sorted(table.items()):
        print(old, new)


main()
