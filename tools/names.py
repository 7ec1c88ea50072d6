#!/usr/bin/env python3
"""Brings this repository's own definitions and lemmas to the spelling of today's Rattle: words in snake case.

usage: tools/names.py        once, at the top, after port.py

A dash stays where it joins two names, as in `coef-plus` (the coefficient of a sum), and where the kit's library has the very name. What
Rattle makes (goals, steps) keeps its spelling: such names are not declared in specs/ or in the law files of proofs/. Renamed are the
names in specs/, in proofs/, in contracts and `ghost use` lines of src/, and in must-fail/. It stops where two names would fall together.
"""
import glob
import re
import sys

WORD = r"[^\s(){}.;,:@\"«»\[\]\\`]+"
NAME = r"[^\s(){}.;,:@\"«»\[\]\\`]+"
DECLARED = re.compile(r"^\s*(?:(?:pub|unfoldable|abbrev|private)\s+)*((?:" + NAME + r"\s+)*?" + NAME + r")\s+:\s")
HEAD = re.compile(r"^\s*(?:(?:pub|unfoldable|abbrev)\s+)*(?:record|data)\s+(" + NAME + ")")
USE = re.compile(r"(?:ghost )?use ([^\s;{]+?)(?:\.\{([^}]*)\}| as ([\w-]+))?;?\n")
# Operations that laws are about, beside the definitions of specs/: the words of the kit's own laws.
OPERATIONS = set("add sub mul div mod pow suc eval deg gcd length take drop map append replicate get_or set".split())


def read(path):
    with open(path, encoding="utf-8", newline="") as it:
        return it.read()


def declared(paths):
    names = set()
    for path in paths:
        for line in read(path).split("\n"):
            if line.lstrip().startswith("--"):
                continue
            for pattern in (DECLARED, HEAD):
                m = pattern.match(line)
                if m:
                    names.update(m.group(1).split())
    return names


specs = sorted(glob.glob("crates/*/specs/*.antt"))
laws = sorted(glob.glob("crates/*/proofs/*.antt"))
answers = sorted(set(glob.glob("crates/*/proofs/**/*.antt", recursive=True)) - set(laws))
sources = sorted(glob.glob("crates/*/src/*.rt"))
edits = sorted(glob.glob("crates/*/must-fail/*.edit"))
crates = {line.split(":")[0].split()[0] for line in read("crates.txt").split("\n") if ":" in line and not line.startswith("#")}

of_specs, of_laws = declared(specs), declared(laws)
own = of_specs | of_laws

# Names that this repository takes from the kit, by a use line or below a module's short name; and its own short names for imports.
kit, short = set(), set()
for path in specs + laws + answers + sources:
    text = read(path)
    modules = {}
    for m in USE.finditer(text):
        parts = m.group(1).split(".")
        mine = parts[0] == "Rattle" and parts[1] in crates
        for item in (m.group(2) or "").split(","):
            name, _, other = item.strip().partition(" as ")
            if not mine:
                kit.add(name)
            if other:
                short.add(other)
        if m.group(3) and not mine:
            modules[m.group(3)] = True
    for m in re.finditer(r"(?<![\w.'])(\w+)\.(" + WORD + ")", text):
        if m.group(1) in modules:
            kit.add(m.group(2))

operations = OPERATIONS | {n for n in of_specs if re.fullmatch(r"[a-z_]+", n)}


def renamed(name):
    parts = name.split("-")
    if name in of_specs or name in short:
        return "_".join(parts)
    new = parts[0]
    for before, after in zip(parts, parts[1:]):
        new += ("-" if before.split("_")[-1] in operations and after.split("_")[0] in operations else "_") + after
    return new


table = {}
for name in sorted(own | short):
    if re.fullmatch(r"[A-Za-z0-9_'-]*[A-Za-z0-9_']", name) and "-" in name.strip("-") and name not in kit:
        new = renamed(name)
        if new[0].isupper() and name in short:
            new = new[0].lower() + new[1:]
        if new != name:
            table[name] = new

every = own | short | kit
together = [(a, b) for a, b in table.items() if b in every]
values = {}
for a, b in table.items():
    values.setdefault(b, []).append(a)
together += [(v, k) for k, v in values.items() if len(v) > 1]
if together:
    sys.exit(f"names: these would fall together: {together}")

token = re.compile(WORD)


def turned(text):
    return token.sub(lambda m: table.get(m.group(0), m.group(0)), text)


def turned_source(text):
    # Clauses and ghost use lines, and what a comment cites; code has no such names.
    out = []
    for line in text.split("\n"):
        if re.match(r"\s*(ghost |requires|ensures|//)", line) or "≡" in line:
            line = turned(line)
        out.append(line)
    return "\n".join(out)


count = 0
for paths, turn in ((specs + laws + answers, turned), (sources, turned_source), (edits, turned)):
    for path in paths:
        old = read(path)
        new = turn(old)
        if new != old:
            count += 1
            with open(path, "w", encoding="utf-8", newline="") as it:
                it.write(new)
print(f"names: {len(table)} names in {count} files")
