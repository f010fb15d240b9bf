#!/usr/bin/env python3
"""Brings the repository's own definitions and lemmas to today's spelling, after port.py.

usage: tools/respell.py [--list]     at the top of the repository; --list prints the names and changes nothing

- A word in camelCase becomes snake_case: wellFormed, well_formed. Facts and types, which begin with
  a capital, and names from the code keep their spelling.
- A dash in the name of a record's field, and in a lemma's name that does not join names only, becomes
  an underscore: each_once, an_answer. A name that joins names keeps its dashes, first-append, and
  so does one whose new name stands for something else already.
Names that would fall together in one file are printed, and then nothing is changed.
"""
import glob
import os
import re
import sys

OWN = sorted(os.listdir("crates"))
TOKEN = re.compile(r"(?<![\w'◌])[A-Za-zℕ_◌][A-Za-z0-9_'◌ℕ₀-₉-]*")

LITERAL = re.compile(r"""b?"(?:\\.|[^"\\])*"|b?'(?:\\[^']+|[^'\\\n])'""", re.S)


def antt():
    return sorted(glob.glob("crates/*/specs/**/*.antt", recursive=True) + glob.glob("crates/*/proofs/**/*.antt", recursive=True))


def texts():
    return antt() + sorted(glob.glob("crates/*/src/*.rt") + glob.glob("crates/*/must-fail/*.edit"))


def read(path):
    with open(path, encoding="utf-8") as f:
        return f.read()


def code(line):
    return re.sub(r"--(?= ).*", "", line)


declared, fields, foreign = set(), set(), set()
DECLARES = re.compile(r"(?:abbrev |unfoldable )*(?:pub )?(?:record |data )?(?:pub )?([A-Za-zℕ][A-Za-z0-9_'-]*) *[:({]")
FIELD = re.compile(r"  (?:pub )?([A-Za-z][A-Za-z0-9_'-]*) :")
for path in antt():
    inside = False
    for line in read(path).split("\n"):
        used = re.match(r"(?:pub )?use ([^{]*)\{([^}]*)\}", line)
        if used:
            parts = used.group(1).split(".")
            if not (parts[0] == "Rattle" and parts[1] in OWN):
                foreign |= {n.strip() for n in used.group(2).split(",")}
            continue
        if line.startswith(("use ", "pub use ", "mod ", "pub mod ", "--")):
            continue
        if line and not line[0].isspace():
            inside = bool(re.match(r"(abbrev )?(pub )?(record|data) ", line))
            found = DECLARES.match(line)
            if found:
                declared.add(found.group(1))
        elif inside:
            found = FIELD.match(line)
            if found:
                fields.add(found.group(1))

std = set(foreign)
for path in glob.glob("/opt/rattle/rattle/std/specs/Prelude.antt") + glob.glob("/opt/rattle/rattle/std/proofs/Common.antt"):
    std |= set(TOKEN.findall(read(path)))
GENERATED = re.compile(r"^(invariant|decreases|loop|returns|Need|Then|Else|In|The)-|-(requires|preserved|init|smaller)(-\d+)?$|^(overflow|bounds|slice_bounds)_?")


def snake(word):
    if not re.fullmatch(r"[a-z][A-Za-z0-9']*(_[A-Za-z0-9']+)*", word) or not re.search(r"[A-Z]", word):
        return word
    word = re.sub(r"(?<=[a-z0-9])(?=[A-Z])", "_", word)
    word = re.sub(r"(?<=[A-Z])(?=[A-Z][a-z])", "_", word)
    return word.lower()


camel = {}
for path in texts():
    for line in read(path).split("\n"):
        for token in TOKEN.findall(code(line) if path.endswith(".antt") else line):
            for part in token.split("-"):
                if snake(part) != part and part not in std:
                    camel[part] = snake(part)

names = {camel.get(n, n) for n in declared | fields if "-" not in n} | {n for n in std if "-" not in n and len(n) > 1}


def undash(name):
    """All dashes stay where the whole is a joint of names, or where its new name is taken; else none does."""
    parts = [camel.get(p, p) for p in name.split("-")]
    whole = "_".join(parts)
    joint = all(p in names for p in parts)
    return "-".join(parts) if joint or whole in names else whole


# Lemmas that would have a definition's name, and fields that do: the name of such a field is turned
# only where it is one.
LEMMAS = {"too_long": "too_long_lem", "place_after": "place_after_lem", "kind_fits": "kind_fits_lem", "walk_at": "walk_at_lem"}
DOUBLE = {n for n in fields if "-" in n and "_".join(n.split("-")) in {camel.get(d, d) for d in declared}}
mapped = dict(camel)
mapped |= {old: new for old, new in LEMMAS.items()}
for name in sorted(declared | fields):
    if "-" not in name or name in foreign:
        continue
    if name in DOUBLE:
        continue
    if name in fields:
        mapped[name] = "_".join(camel.get(p, p) for p in name.split("-"))
    elif name.endswith("-spec"):
        mapped[name] = name.replace("-", "_")
    elif not GENERATED.search(name):
        new = undash(name)
        if new != name:
            mapped[name] = new


def turn(token, proof):
    if token in LEMMAS and not proof:
        return token
    if token in mapped:
        return mapped[token]
    if token in std:
        return token
    parts = token.split("-")
    return "-".join(camel.get(p, p) for p in parts)


def turned(text, proof):
    for name in DOUBLE:
        new = name.replace("-", "_")
        text = re.sub(rf"(?<=\.){name}(?![\w'-])|(?<=^  pub ){name}(?= :)|(?<![\w'.-]){name}(?= = )", new, text, flags=re.M)
    if proof:
        return TOKEN.sub(lambda m: turn(m.group(0), proof), text)
    # In code, literals keep their text.
    return re.sub(LITERAL.pattern + "|" + TOKEN.pattern, lambda m: m.group(0) if LITERAL.fullmatch(m.group(0)) else turn(m.group(0), proof), text, flags=re.S)


faults = []
by_new = {}
for old, new in mapped.items():
    by_new.setdefault(new, set()).add(old)
for path in antt():
    body = "\n".join(code(l) for l in read(path).split("\n"))
    here = set(TOKEN.findall(body))
    plain = set(re.findall(r"(?<![.\w'-])[A-Za-z][A-Za-z0-9_'-]*", body))
    for old in here & mapped.keys():
        new = mapped[old]
        if new in plain:
            faults.append(f"{path}: {old} becomes {new}, which stands there")
for new, olds in sorted(by_new.items()):
    if len(olds) > 1 or new in declared | fields:
        faults.append(f"{new}: {sorted(olds)}{' and itself' if new in declared | fields else ''}")

if "--list" in sys.argv:
    for old in sorted(mapped):
        print(old, mapped[old])
    print("\n".join(faults), file=sys.stderr)
    raise SystemExit(0)
if faults and "--anyway" not in sys.argv:
    print("\n".join(faults))
    raise SystemExit(1)
for path in texts():
    text = read(path)
    new = turned(text, path.endswith(".antt"))
    if new != text:
        with open(path, "w", encoding="utf-8") as f:
            f.write(new)
with open("tools/respelled.txt", "w", encoding="utf-8") as f:
    for old in sorted(mapped):
        f.write(f"{old} {mapped[old]}\n")
print(f"{len(mapped)} names")
