#!/usr/bin/env python3
"""Spells this repository's own definitions and lemmas in snake case, and gives the crate log a name of its own.

usage: python3 tools/port-names.py [FOLDER]     once, after the kit's port.py, at the top of the checkout (or of FOLDER)

Renamed is what specs/ and the lemma files of proofs/ declare: camel case and dashes become plain underscores, but a name that
begins with a capital stays. What a proof of one function declares (a folder with Proof.antt, Answers.antt or
Invariants.antt) stays, since Rattle gives those names. A file's words are renamed only where they are declared in the file, or are brought in from this
repository; the fields of records are renamed everywhere. Functions of src/, strings, inputs and outputs stay. It ends with the names that fall together in
a file, if there are any.
"""

import os
import re
import sys

CRATES = {"log": "buslog"}
WORD = re.compile(r"[^\s(){}\[\].;,@\"«»`]+")
DECLARED = re.compile(r"^(\s*)((?:pattern |abbrev |unfoldable |axiom |pub )*)([^\s:(){}\[\].;,]+) (?:\{[^{}]*\} )*:(?: |$)")
RECORD = re.compile(r"^\s*(?:pub )?(?:record|data) ")
USE = re.compile(r"\buse Rattle\.(\w+\.(?:specs|proofs)\.[\w.]*\w)(?:\.\{([^}]*)\})?", re.S)
FUNCTION = ("Proof.antt", "Answers.antt", "Invariants.antt")
PAGES = ("README.md", "docs/DECISIONS.md", "docs/MISTAKES.md", "docs/PROMISES.md", "docs/STORED_COUNTS.md", "docs/BENCHMARKS.md", "tools/mistakes.txt")
def snake(name):
    if name[:1].isupper() or "·" in name:
        return name
    words = re.sub(r"(?<=[a-z0-9])(?=[A-Z])|(?<=[A-Z])(?=[A-Z][a-z])", "_", name)
    return words.lower().replace("-", "_") if not re.search(r"[→≡≢]", name) else words.replace("-", "_")


def texts(top, ending):
    for folder, dirs, files in os.walk(os.path.join(top, "crates")):
        dirs[:] = sorted(d for d in dirs if d != "out")
        for file in sorted(files):
            if file.endswith(ending):
                yield os.path.join(folder, file)


def read(path):
    with open(path, encoding="utf-8", newline="") as file:
        return file.read()


def write(path, text):
    with open(path, "w", encoding="utf-8", newline="") as file:
        file.write(text)


def is_of_a_function(path):
    return os.path.basename(path) in FUNCTION and "/proofs/" in path


def declarations(text):
    """The names that a file declares, and among them the fields of its records."""
    names, fields, record = set(), set(), None
    for line in text.split("\n"):
        indent = len(line) - len(line.lstrip())
        if line.strip() and record is not None and indent <= record:
            record = None
        if RECORD.match(line):
            record = indent if " record " in " " + line else None
        found = DECLARED.match(line)
        if found and found.group(3) not in ("let", "in", "use"):
            (names if record is None else fields).add(found.group(3))
    return names, fields


def renamed(text, names):
    """The text with each word of the map replaced."""
    return WORD.sub(lambda m: names.get(m.group(0), m.group(0)), text)


def key(path):
    return re.sub(r"^.*?crates/", "", path).removesuffix(".antt")


def home(module, maps):
    """The file that a path of modules is in, which may go on inside the file."""
    steps = module.split(".")
    while steps and "/".join(steps) not in maps:
        steps.pop()
    return "/".join(steps)


def meanings(place, text, maps):
    """What a file brings in from this repository and declares: each name with the file that declares it, the nearest last."""
    whole, named = [], []
    for module, items in USE.findall(text):
        there = home(module, maps)
        if items:
            named += [(there, i.split()[0]) for i in items.split(",") if i.split() and i.split()[0] in maps.get(there, {})]
        else:
            whole += [(there, n) for n in maps.get(there, {})]
    return whole + named + [(place, n) for n in maps.get(place, {})]


def part(maps, files, fields):
    """Two names that would fall together in some file: the lemma gets "_lem" after it."""
    moved = True
    while moved:
        moved = False
        for place, text in files.items():
            by_new = {}
            for there, name in meanings(place, text, maps):
                by_new.setdefault(maps[there][name], set()).add((there, name))
            for new, olds in by_new.items():
                if len({name for _, name in olds}) < 2:
                    continue
                lemmas = sorted(o for o in olds if "/proofs/" in o[0] and not maps[o[0]][o[1]].endswith("_lem"))
                lemmas = [o for o in lemmas if "-" in o[1]] or [o for o in lemmas if not re.search("[A-Z]", o[1])]
                if not lemmas:
                    print("together:", place, sorted(olds))
                    continue
                there, name = lemmas[0]
                maps[there][name] = new + "_lem"
                moved = True


def rename_crates(top):
    for old, new in CRATES.items():
        folder = os.path.join(top, "crates", old)
        if not os.path.isdir(folder):
            continue
        os.rename(folder, os.path.join(top, "crates", new))
        listed = os.path.join(top, "crates.txt")
        write(listed, re.sub(rf"(?<![\w]){old}(?![\w])", new, read(listed)))
        for path in texts(top, (".antt", ".rt", ".edit")):
            text = read(path)
            turned = re.sub(rf"\bRattle([.·]){old}([.·])", rf"Rattle\g<1>{new}\g<2>", text)
            if path.endswith(".rt"):
                turned = re.sub(rf"(?<![\w.:]){old}::", f"{new}::", turned)
            if turned != text:
                write(path, turned)


def main():
    top = sys.argv[1] if len(sys.argv) > 1 else "."
    rename_crates(top)
    # What each file declares, with its new name; the fields of records are known everywhere.
    maps, fields, files = {}, {}, {}
    for path in texts(top, ".antt"):
        if is_of_a_function(path):
            continue
        text, place = read(path), key(path)
        names, own = declarations(text)
        maps[place] = {n: snake(n) for n in names}
        files[place] = text
        fields |= {n: snake(n) for n in own if snake(n) != n}
    part(maps, files, fields)
    everything = {n: w for names in maps.values() for n, w in names.items() if w != n and not w.endswith("_lem")} | fields
    for path in texts(top, (".antt", ".rt")):
        text = read(path)
        names = fields | {n: maps[there][n] for there, n in meanings(key(path), text, maps) if maps[there][n] != n}
        turned = renamed(text, names)
        if turned != text:
            write(path, turned)
    stems = {os.path.splitext(f)[0] for _, _, names in os.walk(os.path.join(top, "crates")) for f in names if not f.endswith((".antt", ".rt"))}
    outside = {n: w for n, w in everything.items() if n not in stems}
    for path in texts(top, ".edit"):
        write(path, renamed(read(path), everything))
    for page in PAGES:
        path = os.path.join(top, page)
        if os.path.exists(path):
            text = read(path)
            if page.endswith(".md"):
                turned = re.sub(r"`[^`\n]+`", lambda m: renamed(m.group(0), outside), text)
            else:
                turned = renamed(text, everything)
            write(path, turned)


main()
