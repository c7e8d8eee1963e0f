#!/usr/bin/env python3
"""Spells this repository's own definitions and lemmas as today's Rattle spells its library.

usage: tools/spell_names.py        at the top of a checkout, right after the kit's port.py, once

- A type, a fact or a relation is in upper camel case: Every-call-promised becomes EveryCallPromised.
- Any other definition, lemma, field or constructor is in snake case: viewAt becomes view_at, kept-forth becomes kept_forth.
- A dash stays where it joins a definition's name to a word of the library: alterAt-length becomes alter_at-length.
- A lemma that would have a definition's name gets _lem: attend-done becomes attend_done_lem, beside attend_done.
- The crate bytes, whose name a library of the kit has, becomes octets.

Functions of src/, files, modules, strings, inputs and outputs keep their names. Where two names would fall together it
stops and writes nothing.
"""

import os
import re
import sys

OLD_CRATE, NEW_CRATE = "bytes", "octets"
# words of the library that lemmas of this repository speak of
LIBRARY = {"at", "length", "map", "take"}
DECLARATION = re.compile(r"^\s*((?:(?:abbrev|unfoldable|pub|record|data)\s+)*)([^\s:(){}]+)(?:\s+\([^)]*\)|\s+\{[^}]*\})*\s*:(?=\s|$)")
TOKEN = re.compile(r"[\w'-]+")
# lemmas whose names would fall together with a definition's, though they differ from it by more than a dash
BESIDE = {"free_bytes": "free_bytes_lem", "part-of": "part_of_lem"}
# a definition of one crate and a private lemma of another, which no file sees together
APART = {"at_rest"}
# a lemma that the kit's script gave the name of a definition of the same crate, and the files that speak of the lemma alone
LEMMA, LEMMA_NOW, ITS_FILES = "first_of", "first_of_lem", ("line/specs/Rows.antt", "line/specs/LeakyLineLemmas.antt")


def files(top, *endings):
    for folder, folders, names in os.walk(os.path.join(top, "crates")):
        folders[:] = sorted(f for f in folders if f != "out")
        for name in sorted(names):
            if name.endswith(endings):
                yield os.path.join(folder, name)


def read(path):
    with open(path, encoding="utf-8") as f:
        return f.read()


def declared(top):
    """The names that the repository declares in specs/ and proofs/, but for the goals that Rattle names; and those of specs/."""
    names, words = set(), set()
    for path in files(top, ".antt"):
        for line in read(path).split("\n"):
            found = DECLARATION.match(line)
            if found and "goal." not in line and found.group(2) not in ("use", "let"):
                names.add(found.group(2))
                if "/specs/" in path:
                    words.add(found.group(2))
    return names, words


def snake(part):
    part = re.sub(r"(?<=[a-z0-9])([A-Z])", lambda m: "_" + m.group(1).lower(), part)
    return re.sub(r"_or(\d)$", r"_or_\1", part)


def respelled(name, words):
    parts = name.split("-")
    if name[0].isupper():
        return "".join(p[0].upper() + p[1:] for p in parts if p)
    parts = [p if p[:1].isupper() else snake(p) for p in parts]
    if len(parts) == 2 and parts[0] in words and parts[1] in LIBRARY and "_".join(parts) not in words:
        return "-".join(parts)
    return "_".join(parts)


def table(top):
    names, specs = declared(top)
    words = {snake(w) for w in specs}
    turned = {}
    defined = {respelled(w, words) for w in specs}
    for name in names:
        if not re.fullmatch(r"[A-Za-z][\w'-]*", name):
            continue
        new = BESIDE.get(name) or respelled(name, words)
        if "-" in name and name not in specs and new in defined:
            new += "_lem"
        if new != name:
            turned[name] = new
    bad = []
    for name, new in sorted(turned.items()):
        if new in names and new not in turned and new not in APART:
            bad.append(f"{name} and {new} fall together")
    seen = {}
    for name, new in sorted(turned.items()):
        if new in seen:
            bad.append(f"{name} and {seen[new]} fall together as {new}")
        seen[new] = name
    return turned, bad


def turn(text, turned, dashes, steps=False):
    """The text with each whole name turned. With steps, it is a proof of one function, where a path from c, w or l names a
    step of that function's code: such a step keeps its name."""

    def one(m):
        name = m.group(0)
        if name not in turned:
            return name
        if not re.search(r"[a-z0-9][A-Z]", name):
            if "-" in name and not dashes:
                return name
            path = re.search(r"([\w'-]+)(?:\.[\w'-]+)*\.$", text[: m.start()])
            if steps and path and path.group(1) in ("c", "w", "l"):
                return name
        return turned[name]

    return TOKEN.sub(one, text)


def turn_antt(text, turned, steps):
    return "\n".join(turn(l, turned, not l.lstrip().startswith("--"), steps) for l in text.split("\n"))


def turn_rt(text, turned):
    lines, ghost = [], 0
    for line in text.split("\n"):
        bare = line.strip()
        starts = re.match(r"(ghost|requires|ensures)\b", bare)
        if starts or ghost > 0:
            lines.append(turn(line, turned, True))
            ghost += line.count("{") - line.count("}")
            continue
        lines.append("".join(p if i % 2 else turn(p, turned, False) for i, p in enumerate(re.split(r'("(?:[^"\\]|\\.)*")', line))))
    return "\n".join(lines)


def turn_edit(text, turned):
    source = re.search(r"^file: src/", text, re.M)
    return "\n".join(turn(l, turned, not source or bool(re.match(r"(old|new):\s*(ghost|requires|ensures)", l))) for l in text.split("\n"))


def turn_crate(text):
    text = re.sub(rf"\bRattle\.{OLD_CRATE}\b", f"Rattle.{NEW_CRATE}", text)
    return re.sub(rf"\b(use\s+){OLD_CRATE}::", rf"\1{NEW_CRATE}::", text)


def main():
    top = os.getcwd()
    if not os.path.isdir(os.path.join(top, "crates")):
        raise SystemExit("run it at the top of a checkout")
    turned, bad = table(top)
    if "--list" in sys.argv:
        for name, new in sorted(turned.items()):
            print(name, new)
    if bad:
        raise SystemExit("\n".join(bad))
    if "--list" in sys.argv:
        return
    for path in list(files(top, ".antt", ".rt", ".edit")):
        text = read(path)
        if path.endswith(".antt"):
            new = turn_antt(text, turned, os.path.basename(path) in ("Answers.antt", "Invariants.antt"))
        elif path.endswith(".rt"):
            new = turn_rt(text, turned)
        else:
            new = turn_edit(text, turned)
        new = turn_crate(new)
        if path.endswith(ITS_FILES):
            new = re.sub(rf"(?<![\w'-]){LEMMA}(?![\w'-])", LEMMA_NOW, new)
        if new != text:
            with open(path, "w", encoding="utf-8") as f:
                f.write(new)
    old, new = (os.path.join(top, "crates", c) for c in (OLD_CRATE, NEW_CRATE))
    if os.path.isdir(old):
        os.rename(old, new)
    listing = os.path.join(top, "crates.txt")
    lines = [re.sub(rf"(?<!\S){OLD_CRATE}(?=[\s:]|$)", NEW_CRATE, l) for l in read(listing).split("\n")]
    with open(listing, "w", encoding="utf-8") as f:
        f.write("\n".join(lines))


if __name__ == "__main__":
    main()
