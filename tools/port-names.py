#!/usr/bin/env python3
"""Respells the repository's own definitions and lemmas: words in snake case, where they were in camel case or joined by dashes.
And gives a crate that has the name of one of Rattle's libraries another.

usage: python3 tools/port-names.py        at the top, once, after /opt/rattle/port/port.py

Names that are declared in specs/ and proofs/ are taken, but for answers (`f : goal.f`), whose names Rattle makes. Functions of
src/ keep theirs; a definition that mirrors one has its name. It stops, and writes nothing, where two names of a file would fall together.
"""

import os
import re
import sys

DECLARED = re.compile(r"^\s*(?:(?:abbrev|unfoldable|opaque|pub|mod) )*([^\s:(){}]+)\s*:(?=\s|$)(.*)")
KIND = re.compile(r"^\s*(?:pub )?(?:record|data)\s+([^\s:(){}]+)")
GOAL = re.compile(r"^\s*(?:goal|given|need|needs)\.")
# where the new spelling alone would fall together with another name of a file that uses both
CHOSEN = {
    "leads-on": "leads_on_lawfully",
    "may-mark": "mark_is_allowed",
    "state-of": "state_of_located",
    "settled-row": "settled_row_stays",
    "lossIn": "entry_loss",
    "good-places": "places_are_good",
    "good-ways": "ways_are_good",
}
TOKEN = re.compile(r"[\w'\u2032-]+")
# a crate that has the name of one of Rattle's libraries
CRATE = ("bytes", "byte_slices")


def files(ends):
    for folder, dirs, names in os.walk("crates"):
        dirs[:] = sorted(d for d in dirs if d not in ("out", ".git"))
        for name in sorted(names):
            if name.endswith(ends):
                yield os.path.join(folder, name)


def read(path):
    with open(path, encoding="utf-8") as file:
        return file.read()


def declared():
    """Each declared name, with the files that declare it."""
    found = {}
    for path in files(".antt"):
        for line in read(path).split("\n"):
            match = DECLARED.match(line)
            if match and not GOAL.match(match.group(2)) and not line.lstrip().startswith("--"):
                found.setdefault(match.group(1), set()).add(path)
            match = KIND.match(line)
            if match:
                found.setdefault(match.group(1), set()).add(path)
    return found


def snake(name):
    if name in CHOSEN:
        return CHOSEN[name]
    if name[0].isupper() or not re.fullmatch(r"[\w'-]+", name):
        return name
    return re.sub(r"(?<=[a-z0-9])([A-Z])", lambda m: "_" + m.group(1).lower(), name).replace("-", "_")


def rename_crate(old, to):
    if not os.path.isdir(os.path.join("crates", old)):
        return
    os.rename(os.path.join("crates", old), os.path.join("crates", to))
    for path in files((".antt", ".rt")):
        text = read(path)
        turned = re.sub(rf"\bRattle\.{old}\.", f"Rattle.{to}.", text)
        turned = re.sub(rf"(?m)^(\s*(?:pub )?use ){old}::", rf"\g<1>{to}::", turned)
        if turned != text:
            with open(path, "w", encoding="utf-8") as file:
                file.write(turned)
    text = read("crates.txt")
    with open("crates.txt", "w", encoding="utf-8") as file:
        file.write(re.sub(rf"(?m)^(?!#)(.*)$", lambda line: re.sub(rf"\b{old}\b", to, line.group(0)), text))
    print(f"crate {old} renamed {to}")


def main():
    names = declared()
    new = {name: snake(name) for name in names if snake(name) != name}
    paths = list(files((".antt", ".rt")))
    clash = False
    for path in paths:
        here = {}
        for token in set(TOKEN.findall(read(path))):
            if token in names:
                here.setdefault(new.get(token, token), set()).add(token)
        for to, old in sorted(here.items()):
            if len(old) > 1:
                clash = True
                print(f"{path}: {', '.join(sorted(old))} would all be {to}")
    if clash:
        return 1
    count = 0
    for path in paths:
        text = read(path)
        turned = TOKEN.sub(lambda m: new.get(m.group(0), m.group(0)), text)
        if turned != text:
            count += 1
            with open(path, "w", encoding="utf-8") as file:
                file.write(turned)
    print(f"{len(new)} names respelled in {count} files")
    rename_crate(*CRATE)
    return 0


sys.exit(main())
