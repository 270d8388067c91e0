#!/usr/bin/env python3
"""Spells the definitions and lemmas of the repository in snake case, as today's Rattle does.

usage: tools/snake_names.py [--list | --clashes]

It was run once, at the top of the repository, right after the port to today's Rattle (docs/PORT.md). Words of .antt
files that begin with a small letter and have a capital inside, as bodyAfterSlot, become body_after_slot: in crates/*/specs
and crates/*/proofs, in the clauses and comments of crates/*/src, in the edits of must-fail/, and in the pages and
scripts that name them. Types, modules and constructors begin with a capital and stay. --list prints the names, and
--clashes the places where a new name stood in the same file already; neither changes a file.
"""
import os
import re
import sys

TOKEN = re.compile(r"(?<![A-Za-z0-9_'-])[a-z][A-Za-z0-9_'-]*")
HUMP = re.compile(r"(?<=[a-z0-9])([A-Z])")
# port.py respelled these definitions in .antt and .rt files alone.
PORTED = """
addressOf answerOf arrayOf askedOf backBy bitAt bitOf bitsAt bitsOf bodyAt byteOf bytesOf codeAt codesOf countOf endedOf
entryOf fieldOf flatAt imageOf isLast keptF kindAt kindOf lineAt linesOf lowBits markOf nextAt numberOf packedAt partAt
passedAt placeIn putBit readSlot runAt runOf slotAt slotOf stepOf tysOf upFrom
""".split()
# A lemma that had the name that a definition gets takes another one first.
LEMMAS = {
    "crates/bus/proofs": {"slot_turn": "slot_turn-datum"},
    "crates/eprom/proofs": {"goes_on": "byte-goes_on"},
    "crates/judge/proofs": {"is_made": "copy-is_made"},
    "crates/search/proofs": {"level_in": "level_in-is"},
    "crates/search_laws/proofs": {"level_in": "level_in-is", "next_bit": "next_bit-is"},
}


def snake(name):
    """The name in snake case: an underscore stands before each capital inside it."""
    text = HUMP.sub(lambda m: "_" + m.group(1).lower(), name)
    return re.sub(r"(?<=_[a-z])([A-Z])", lambda m: "_" + m.group(1).lower(), text)


def walk(suffixes):
    for root, folders, files in os.walk("."):
        folders[:] = sorted(f for f in folders if f not in ("out", ".git", "target"))
        for name in sorted(files):
            if name.endswith(suffixes):
                yield os.path.join(root, name)


def read(path):
    with open(path, encoding="utf-8") as file:
        return file.read()


def names():
    """The words of the .antt files that change."""
    found = set()
    for path in walk((".antt",)):
        for word in TOKEN.findall(read(path)):
            if HUMP.search(word):
                found.add(word)
    return found


def respelled(text, known):
    return TOKEN.sub(lambda m: snake(m.group(0)) if m.group(0) in known else m.group(0), text)


def apart(path, text):
    """The text with the lemmas of LEMMAS renamed. Paths and projections, which have a dot before the name, stay."""
    for folder, lemmas in LEMMAS.items():
        if path.startswith("./" + folder + "/") and path.endswith(".antt"):
            for old, new in lemmas.items():
                text = re.sub(r"(?<![A-Za-z0-9_'.-])%s(?![A-Za-z0-9_'-])" % re.escape(old), new, text)
    return text


def pages():
    for path in walk((".antt", ".rt", ".edit")):
        yield path
    for path in walk((".md", ".py", ".sh")):
        yield path
    for root in ("tests", "bench", ".ci"):
        for folder, folders, files in os.walk(root):
            for name in sorted(files):
                if "." not in name:
                    yield os.path.join(folder, name)


def clashes(known):
    for path in walk((".antt", ".rt")):
        text = read(path)
        words = set(TOKEN.findall(text))
        for word in sorted(words & known):
            if re.search(r"(?<![A-Za-z0-9_'.-])%s(?![A-Za-z0-9_'-])" % re.escape(snake(word)), text):
                print(f"{path}: {word} and {snake(word)}")


def main():
    if len(sys.argv) > 2 or sys.argv[1:] not in ([], ["--list"], ["--clashes"]):
        sys.exit(__doc__)
    known = names()
    if "--list" in sys.argv:
        for word in sorted(known):
            print(word, snake(word))
        return
    if "--clashes" in sys.argv:
        clashes(known)
        return
    known |= set(PORTED)
    for path in pages():
        if path.endswith("snake_names.py"):
            continue
        text = read(path)
        new = respelled(apart(path, text), known)
        if new != text:
            with open(path, "w", encoding="utf-8") as file:
                file.write(new)


main()
