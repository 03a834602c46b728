#!/usr/bin/env python3
"""Brings the names of the repository's own definitions and lemmas to the spelling of today's Rattle, once, after port.py.

usage: tools/respell.py            rewrites crates/*/src, specs and proofs and prints nothing
       tools/respell.py --table    prints each old and new name, and writes nothing

Words are in snake case; a dash is left only between two names of definitions, as in `length-drop`; a middle dot becomes `_`. Types and modules, which begin
with a capital, keep their names. A lemma that would get the name of a definition ends in `_lem`. Where two names would fall together the script stops.
A name is replaced as a whole word of antt wherever it stands, but for what follows a `.` and has a dash, since such fields are Rattle's own, and
for what a file brings from the library.
"""

import os
import re
import sys

ROOT = os.path.join(os.path.dirname(os.path.realpath(__file__)), "..")
WORD = r"[^\s(){}\[\],;.:`\"]+"
HEAD = re.compile(rf"^((?:unfoldable |abbrev |pub )*)(record |data |ruleset )?({WORD})\s*(:|\(|\{{)")
# Names that a line declares together, or within a module.
INNER = re.compile(rf"^ *(?:abbrev |pub |unfoldable )*((?:[a-z]{WORD[:-1]}* )+):(?= )")
FIELD = re.compile(rf"^  (?:pub )?({WORD}) : ")
# Names of the library that lemmas are named after.
STD = """add sub mul div mod pow suc pred zero eq ne lt le ltb leb eqb min max and or cond if length map take drop set append reverse filter fold sum get
get_or insert remove replicate tabulate flat_map refl sym trans nan inf fin neg to_bits of_bits round nearest drop kept top ones""".split()


def files(*kinds):
    for folder, below, names in os.walk(os.path.join(ROOT, "crates")):
        below[:] = sorted(it for it in below if it not in ("out", "must-fail"))
        for name in sorted(names):
            if name.endswith(kinds):
                yield os.path.join(folder, name)


def read(path):
    with open(path, encoding="utf-8") as it:
        return it.read()


def declared():
    """Returns the names that specs/ declares, those that proofs/ declares outside a function's own folder, those within, and fields."""
    specs, lemmas, local, fields = {"findersTable"}, set(), set(), set()
    for path in files(".antt"):
        where = os.path.relpath(path, os.path.join(ROOT, "crates")).split(os.sep)
        own = os.path.basename(path) in ("Proof.antt", "Invariants.antt", "Answers.antt")
        for line in read(path).split("\n"):
            head = HEAD.match(line)
            if head and not re.match(r"(pub )?(use|mod)\b", line) and (head[4] == ":" or head[2]):
                (specs if where[1] == "specs" else local if own else lemmas).add(head[3])
            inner = INNER.match(line)
            if inner and not re.match(" *(let|elim|λ|where) ", line):
                within = specs if where[1] == "specs" else local if own else lemmas
                within.update(it for it in inner[1].split() if re.search("[a-z][A-Z]" if own else "[a-z][A-Z]|-", it))
            field = FIELD.match(line)
            if field and where[1] == "specs":
                fields.add(field[1])
    return specs, lemmas, local, fields


def snake(word):
    return re.sub(r"(?<=[a-z0-9])([A-Z]+)", lambda it: "_" + it[1].lower(), re.sub("getD", "get_or", word))


def table():
    specs, lemmas, local, fields = declared()
    known = {snake(it) for it in specs if "-" not in it} | {*STD}
    every = specs | lemmas | local | fields
    spoken = {it for path in files(".antt") for it in re.findall(WORD, read(path))}
    # port.py gave two lemmas the names that definitions get
    new = {"in_use": "in_use_lem", "inUse": "in_use", "held_in": "held_in_lem", "heldIn": "held_in"} if "inUse" in specs else {}
    # definitions first: where a lemma's name falls on one, the lemma gives way
    for name in [*sorted(specs), *sorted(every - specs)]:
        if name in new or not name[0].islower() or name in local - specs - lemmas and name not in fields and "-" in name:
            continue
        parts = [snake(it) for it in re.sub("·", "_", name).split("-")]
        out = parts[0]
        for left, right in zip(parts, parts[1:]):
            out += ("-" if left in known and right in known else "_") + right
        if out in every and out != name or out in new.values() or name not in specs and out in spoken and out != name:
            out += "_lem"
        if out != name:
            new[name] = out
    taken = [it for it in new.values() if it in every and it not in new]
    twice = [it for it in new.values() if list(new.values()).count(it) > 1]
    if taken or twice:
        sys.exit(f"respell: names would fall together: {sorted({*taken, *twice})}")
    return new


def main(words):
    new = table()
    if words == ["--table"]:
        print("\n".join(f"{old} {it}" for old, it in new.items()))
        return
    word = re.compile(rf"(?<![^\s(){{}}\[\],;.:`\"])({'|'.join(map(re.escape, sorted(new, key=len, reverse=True)))})(?![^\s(){{}}\[\],;.:`\"])")
    own = os.listdir(os.path.join(ROOT, "crates"))
    for path in files(".antt", ".rt"):
        text = read(path)
        code = path.endswith(".rt")
        brought = set()
        for module, names in re.findall(r"^(?:pub |ghost )?use ([^\s{}]+)\.\{([^}]*)\}", text, re.M):
            if not (module.startswith("Rattle.") and module.split(".")[1] in own):
                brought |= {it.strip() for it in names.split(",")}

        def turned(it):
            dashed = "-" in it[1]
            kept = it[1] in brought or dashed and (code or text[: it.start()].endswith("."))
            return it[1] if kept else new[it[1]]

        made = word.sub(turned, text)
        if made != text:
            with open(path, "w", encoding="utf-8") as out:
                out.write(made)


main(sys.argv[1:])
