#!/usr/bin/env python3
"""tests/answers.py [--second]

Runs the sources of tests/answers by `rnm mean` and compares what is written, and the status, with what stands beside
each: worked out by hand. With `--second` it asks the second evaluator of tests/second in place of the program. A file has
entries of these lines, parted by empty ones:

    # ..            what it shows
    SET [LIMIT]     the set and the limit of visits, where there is one
    | ..            a line of the source; `{N TEXT}` stands for TEXT N times, with 0, 1 and so on in place of each `@`
    < ..            a line of the input, where there is one
    > ..            a line of what is written
    = N             the status
"""
import re
import sys
from pathlib import Path

sys.dont_write_bytecode = True

from asking import asked, difference, report

FOLDER = Path(__file__).resolve().parent / "answers"
SETS = ("pocket", "desk", "hall")


class Entry:
    def __init__(self, lines):
        self.shows = lines[0][2:]
        self.words = []
        self.texts = {"|": [], "<": [], ">": []}
        self.status = None
        for line in lines[1:]:
            mark, _, rest = line.partition(" ")
            if mark in self.texts:
                self.texts[mark].append(rest)
            elif mark == "=":
                self.status = int(rest)
            elif mark in SETS:
                self.words = [f"--set={mark}"] + ([f"--steps={int(rest)}"] if rest else [])
            else:
                raise SystemExit(f"{line!r} is no line of an answer")
        if not (lines[0].startswith("# ") and self.words and self.status is not None and self.texts[">"]):
            raise SystemExit(f"{lines[0]!r}: an answer shows something, and has a set, what is written and a status")

    def text(self, mark):
        return "".join(f"{line}\n" for line in self.texts[mark]).encode()

    def source(self):
        def again(found):
            return "".join(found[2].replace("@", str(turn)) for turn in range(int(found[1])))

        return re.sub(r"\{(\d+) ([^{}]*)\}", again, self.text("|").decode()).encode()

    def wrong(self, ask):
        files = {"a.src": self.source(), "b.txt": self.text("<")}
        given = "b.txt" if self.texts["<"] else "-"
        return difference(ask(["mean", "a.src", given, *self.words], files), (self.text(">"), self.status))


def entries():
    for path in sorted(FOLDER.glob("*.txt")):
        for block in path.read_text(encoding="utf-8").split("\n\n"):
            if block.strip():
                yield path.name, Entry(block.strip("\n").split("\n"))


def main(given):
    ask = asked(given)
    count = failed = 0
    for name, entry in entries():
        count += 1
        failed += report(f"tests/answers/{name}: {entry.shows}", entry.wrong(ask))
    print(f"{count} sources worked out by hand")
    return 1 if failed else 0


sys.exit(main(sys.argv[1:]))
