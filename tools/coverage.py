#!/usr/bin/env python3
"""coverage.py: what tools/reach does not reach of the second program, by the counts that its runs leave.

Names the lines that never ran and the branches that were never taken; the last line has the sums. The exit status is 1 if a
line never ran that c/compare/unreached.txt does not except, or if an exception there isn't true.
"""
import collections
import itertools
import json
import pathlib
import platform
import subprocess
import sys

TOP = pathlib.Path(__file__).resolve().parent.parent
# The objects are for x86-64 on any machine.
GCOV = "gcov" if platform.machine() == "x86_64" else "x86_64-linux-gnu-gcov"

# 100 captures of 400 calls, and 100,000 calls compared
REACH = "tools/reach", "100", "400", "100000"

SOURCES = "c/second"
OBJECTS = "target/c/covered"
EXCEPTIONS = "c/compare/unreached.txt"

TEXTS = {path.name: [line.strip() for line in path.read_text().splitlines()] for path in (TOP / SOURCES).glob("*.[ch]")}


def told():
    """What gcov tells of each file: a line for each object, on its source and on the headers whose code it has."""
    notes = [f"{OBJECTS}/{pathlib.Path(name).stem}.gcno" for name in sorted(TEXTS) if name.endswith(".c")]
    command = [GCOV, "--branch-probabilities", "--json-format", "--stdout", *notes]
    documents = subprocess.run(command, cwd=TOP, check=True, stdout=subprocess.PIPE, text=True).stdout
    return [file for document in documents.splitlines() for file in json.loads(document)["files"]]


def counts():
    """How often each line ran, and each branch of it was taken. A line's place is the name of its file and its number."""
    lines, branches = collections.Counter(), collections.Counter()
    for file in told():
        for line in file["lines"]:
            place = pathlib.Path(file["file"]).name, line["line_number"]
            lines[place] += line["count"]
            for which, branch in enumerate(line["branches"]):
                branches[place, which] += branch["count"]
    return lines, branches


def exceptions():
    """The file that each exception names, the lines that it quotes, and its reason."""
    for entry in (TOP / EXCEPTIONS).read_text().strip().split("\n\n"):
        if not entry.startswith("#"):
            name, *rest = entry.splitlines()
            quote = list(itertools.takewhile(lambda line: line.startswith((" ", ">")), rest))
            yield name, quote, rest[len(quote):]


def beginnings(name, quote):
    """The numbers of the lines from which on the file has the quoted ones. A quote's first column is for the marks."""
    texts, quoted = TEXTS.get(name, []), [line[1:].strip() for line in quote]
    return [at + 1 for at in range(len(texts)) if texts[at:at + len(quoted)] == quoted]


def excepted(lines):
    """The places of the excepted lines, and what isn't true of the exceptions."""
    places, untrue = set(), []
    for name, quote, reason in exceptions():
        found = beginnings(name, quote)
        marked = {(name, start + at) for start in found for at, line in enumerate(quote) if line[0] == ">"}
        if len(found) != 1:
            untrue.append(f"{SOURCES}/{name} has {len(found)} times:\n" + "\n".join(quote))
        elif not marked or not reason:
            untrue.append(f"{SOURCES}/{name}: no line is marked, or no reason given:\n" + "\n".join(quote))
        untrue += [located(place, "runs, or has no code") for place in sorted(marked) if lines.get(place) != 0]
        places |= marked
    return places, untrue


def located(place, what):
    name, number = place
    return f"{SOURCES}/{name}:{number}: {what}: {TEXTS[name][number - 1]}"


def share(part, whole, what):
    return f"{part:,} of {whole:,} {what} ({100 * part / whole:.1f} %)"


def main():
    subprocess.run(REACH, cwd=TOP, check=True)
    lines, branches = counts()
    places, untrue = excepted(lines)
    idle = {place for place in lines if lines[place] == 0}
    untaken = [place for place, which in sorted(branches) if branches[place, which] == 0]
    for place in sorted(idle):
        print(located(place, "never runs, as excepted" if place in places else "never runs"))
    for place, count in collections.Counter(untaken).items():
        print(located(place, f"{count} of {sum(each == place for each, _ in branches)} branches never taken"))
    for complaint in untrue:
        print(f"{EXCEPTIONS}: {complaint}")
    print(f"coverage: {share(len(lines) - len(idle), len(lines), 'lines')}, "
          f"{share(len(branches) - len(untaken), len(branches), 'branches')}; "
          f"{len(idle & places)} lines excepted, {len(idle - places)} unexpected, {len(untrue)} untrue")
    return 1 if idle - places or untrue else 0


if __name__ == "__main__":
    sys.exit(main())
