#!/usr/bin/env python3
"""Checks docs/PAPER.md: everything that a row names is in the place that the row gives for it.

A row is 'sentence | names | places'. Names stand between backquotes, in groups between semicolons: one group for each place,
in the same order. A place is
  a file of definitions or theorems (.antt) or of code (.rt) that declares the names; the ending is left out, and so is the
  folder crates/paper/specs/; `src` is the file where that crate declares its types;
  a page (.md), of which a line begins with each name;
  a folder with a file of each name: captures, edits that must fail, tools, programs in C.
A sentence marked (02) may have the place 'awaited': its request has not landed.

Prints a line for each row that fails, then 'paper: N names in M rows, K awaited'; exit status 1 if a row fails.
"""
import pathlib
import re
import sys

TOP = pathlib.Path(__file__).resolve().parent.parent
SHORT = {"src": "crates/paper/src/lib"}

# How a line begins that declares a name, by the ending of its file.
DECLARES = {
    ".antt": r"(?:unfoldable |abbrev )*pub (?:record |data )?{name} [:({{]",
    ".rt": r'(?:pub )?(?:extern "C" )?(?:fn|struct|enum|const) {name}\b',
    ".md": r"(?:#+ |\d+\. )?(?:\*\*)?{name}(?:\.\*\*|$)",
}

# What a name stands for in a folder, where it is not a whole file name or one without its ending.
ENDINGS = {"captures": (".records", ".text"), "must-fail": (".edit",)}


def path_of(place):
    """The file or folder that a row calls so, or None."""
    whole = SHORT.get(place, place)
    paths = [TOP / path for path in (whole, whole + ".antt", whole + ".rt", f"crates/paper/specs/{place}.antt")]
    return next((path for path in paths if place and path.exists()), None)


def holds(path, name):
    """Whether a file declares a name, or a folder has a file of that name."""
    if path.is_dir():
        if path.name in ENDINGS:
            return all((path / (name + ending)).exists() for ending in ENDINGS[path.name])
        return any(name in (entry.name, entry.stem) for entry in path.iterdir())
    if path.suffix not in DECLARES:
        return False
    declares = DECLARES[path.suffix].format(name=re.escape(name))
    return re.search("^" + declares, path.read_text(), re.M) is not None


def names_in(text):
    return re.findall(r"`([^`]+)`", text)


def faults_at(place, names):
    """What is wrong with the names given for one place."""
    path = path_of(place)
    if path is None:
        return [f"there is no {place or 'place'}"]
    if not names:
        return [f"nothing is named for {place}"]
    return [f"{name} is not in {place}" for name in names if not holds(path, name)]


def faults(cells):
    """What is wrong with a row."""
    if len(cells) != 3:
        return ["a row has three cells"]
    groups, places = cells[1].split(";"), cells[2].split(", ")
    if len(groups) != len(places):
        return [f"groups of names: {len(groups)}, places: {len(places)}"]
    return [fault for group, place in zip(groups, places) for fault in faults_at(place, names_in(group))]


def is_awaited(cells):
    return cells[-1] == "awaited" and "(02)" in cells[0]


def rows():
    """Each row with the number of its line. The head of a table and the rule under it are no rows."""
    lines = (TOP / "docs/PAPER.md").read_text().splitlines()
    rules = {number for number, line in enumerate(lines, 1) if re.fullmatch(r"\|[-|]+\|", line)}
    for number, line in enumerate(lines, 1):
        if line.lstrip().startswith("|") and number not in rules and number + 1 not in rules:
            yield number, [cell.strip() for cell in line.strip()[1:].removesuffix("|").split("|")]


def main():
    named = checked = awaited = failed = 0
    for number, cells in rows():
        checked += 1
        if is_awaited(cells):
            awaited += 1
            continue
        named += len(names_in("|".join(cells[1:])))
        wrong = faults(cells)
        if wrong:
            failed += 1
            print(f"docs/PAPER.md:{number}: {'; '.join(wrong)}")
    print(f"paper: {named} names in {checked} rows, {awaited} awaited")
    return 1 if failed else 0


if __name__ == "__main__":
    sys.exit(main())
