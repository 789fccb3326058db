#!/usr/bin/env python3
"""Whether crates.txt, the README, docs/ARCHITECTURE.md and docs/PROOF.md list the same crates under the same floors.

    tests/floors.py     fails where a list differs, or a crate stands on a later one, and says how

The order counts, of the floors and of the crates in each. A floor is, in crates.txt, the comment `# Ground` and the
lines after it; in the README an item `- **Ground** (`number_theory`, ..)`; in the documents a heading `### Ground` of
the section `## The crates` and the rows of the table below it, whose first cell is the crate.
"""
import re
import sys
from pathlib import Path

TOP = Path(__file__).resolve().parent.parent
FLOORS = "Ground Residues Channels Machine Language Commands".split()


def of_crates_txt(lines):
    """The floors in order, each with its crates."""
    floors = []
    for line in lines:
        if line.startswith("#") and line[1:].strip() in FLOORS:
            floors.append((line[1:].strip(), []))
        crate = re.match(r"(\w+)[^#:]*:", line)
        if crate:
            if not floors:
                floors.append(("no floor", []))
            floors[-1][1].append(crate[1])
    return floors


def of_readme(lines):
    items = [re.match(r"- \*\*(\w+)\*\* \(([^)]*)\)", line) for line in lines]
    return [(it[1], re.findall(r"`(\w+)`", it[2])) for it in items if it and it[1] in FLOORS]


def of_document(lines):
    floors, is_inside = [], False
    for line in lines:
        if line.startswith("## "):
            is_inside = line == "## The crates"
        elif is_inside and line.startswith("### "):
            floors.append((line[4:], []))
        elif is_inside and floors and (crate := re.match(r"\| `(\w+)` \|", line)):
            floors[-1][1].append(crate[1])
    return floors


def upside_down(lines):
    """The crates that stand on a crate of a later line, a line each."""
    stands_on = dict(re.findall(r"^(\w+)[^#:\n]*:(.*)$", "\n".join(lines), re.M))
    order = list(stands_on)
    return [
        f"crates.txt, {crate}: it stands on {low}, which comes later"
        for place, crate in enumerate(order) for low in stands_on[crate].split() if low in order[place:]
    ]


LISTS = {
    "README.md": of_readme,
    "docs/ARCHITECTURE.md": of_document,
    "docs/PROOF.md": of_document,
}


def lines_of(name):
    return (TOP / name).read_text(encoding="utf-8").split("\n")


def difference(name, found, wanted):
    """What a list has otherwise than crates.txt, a line each."""
    if [floor for floor, _ in found] != FLOORS:
        return [f"{name} has the floors {', '.join(floor for floor, _ in found) or 'none'}"]
    pairs = zip(found, wanted)
    return [
        f"{name}, {floor}: {' '.join(crates) or 'none'}; crates.txt has {' '.join(others) or 'none'}"
        for (floor, crates), (_, others) in pairs if crates != others
    ]


def main():
    wanted = of_crates_txt(lines_of("crates.txt"))
    wrong = difference("crates.txt", wanted, wanted) + upside_down(lines_of("crates.txt"))
    if not wrong:
        wrong = [line for name, reads in LISTS.items() for line in difference(name, reads(lines_of(name)), wanted)]
    for line in wrong:
        print(f"FAILS the lists of crates: {line}")
    return 1 if wrong else 0


sys.exit(main())
