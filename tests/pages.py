#!/usr/bin/env python3
"""tests/pages.py [--second] [PAGE..]

Runs the examples of the pages that a user reads, from the pages themselves, and compares what is written. On a page each
fenced block without a word behind its fence, or with the word `hex`, is one of these:

- A session, which begins with `$ `. `$ echo WORDS > FILE` makes a file, and `$ echo WORDS >> FILE` puts a line at its end.
  `$ rnm WORDS` or `$ ./rnm WORDS` runs the program, and what it writes stands below; its status is 0, or it is shown by
  `; echo $?` behind the words and is the last line. `$ rnm WORDS > FILE` puts what it writes in a file for later runs.
- A file, for the next session: the one that is its first operand. With `hex` it is bytes in hexadecimal; `#` and what is
  behind it in a line is a comment.

Besides, the files of a page's own folder are there, where that is a folder of examples; a block with the name of one of
them must have its bytes. Blocks with another word behind the fence are of another kind (`ebnf`, `text`) and aren't run.
With `--second` it asks the second evaluator, machines and assembler of tests/second, which know `mean`, `exec`, `asm` and
`list` alone.
"""
import re
import sys
from pathlib import Path

sys.dont_write_bytecode = True

from asking import TOP, asked, difference, report

PAGES = [TOP / "README.md", *(TOP / "docs" / name for name in ("FORMATS.md", "LANGUAGE.md", "MACHINE.md", "TOUR.md"))]
EXAMPLES = TOP / "examples"
FENCE = "```"
HEX = "hex"
SHOWS_STATUS = "; echo $?"


class Run:
    """A run of the program on a page: its line, its words, the files that are there, the file that it makes, or None,
    and the lines below it. A file that an earlier run makes is that run."""

    def __init__(self, line, words):
        self.line = line
        self.shows_status = words.endswith(SHOWS_STATUS)
        words, _, made = words.removesuffix(SHOWS_STATUS).partition(" > ")
        self.words = words.split()
        self.made = made or None
        self.files = {}
        self.lines = []
        self.written = None

    def first_operand(self):
        return next((word for word in self.words[1:] if not word.startswith("--")), None)

    def wanted(self):
        lines, status = self.lines, 0
        if self.shows_status:
            lines, status = lines[:-1], int(lines[-1])
        return "".join(f"{line}\n" for line in lines).encode(), status

    def wrong(self, ask):
        """How what is written, or the status, differs from what is wanted; None where there is no answer."""
        told = ask(self.words, {name: content_in(file) for name, file in self.files.items()})
        if told is None:
            return None
        if self.made is not None:
            self.written, told = told[0], (b"", told[1])
        return difference(told, self.wanted())


def content_in(file):
    return file.written if isinstance(file, Run) else file


def blocks_of(text):
    """The blocks that are run: the line of the fence, the word behind it, and the lines inside."""
    found, inside, word = [], None, ""
    for number, line in enumerate(text.split("\n"), 1):
        if not line.startswith(FENCE):
            if inside is not None:
                inside.append(line)
        elif inside is None:
            inside, word, begin = [], line.removeprefix(FENCE), number
        else:
            if word in ("", HEX):
                found.append((begin, word, inside))
            inside = None
    return found


def content_of(word, lines):
    """The bytes of a block that is a file."""
    if word == HEX:
        return bytes.fromhex("".join(line.partition("#")[0] for line in lines))
    return "".join(f"{line}\n" for line in lines).encode()


def runs_of_session(begin, lines, files, source):
    """The runs of a session, whose files are put among the others; a source has the name of the first run's operand."""
    runs = []
    for number, line in enumerate(lines, begin + 1):
        made = re.fullmatch(r"\$ echo (.*) (>>?) (\S+)", line)
        run = re.fullmatch(r"\$ (?:\./)?rnm (.*)", line)
        if made:
            before = files.get(made[3], b"") if made[2] == ">>" else b""
            files[made[3]] = before + made[1].encode() + b"\n"
        elif run:
            runs.append(Run(number, run[1]))
            if source is not None and len(runs) == 1:
                files[runs[0].first_operand()] = source
            runs[-1].files = dict(files)
            if runs[-1].made is not None:
                files[runs[-1].made] = runs[-1]
        elif not runs or line.startswith("$ "):
            raise SystemExit(f"line {number}: {line!r} is no line of a session")
        else:
            runs[-1].lines.append(line)
    return runs


def runs_of(page):
    """Each run of a page."""
    own = {}
    if EXAMPLES in page.parents:
        own = {path.name: path.read_bytes() for path in page.parent.iterdir() if path != page}
    files, source, runs = dict(own), None, []
    for begin, word, lines in blocks_of(page.read_text(encoding="utf-8")):
        if lines and lines[0].startswith("$ "):
            runs += runs_of_session(begin, lines, files, source)
            source = None
            if any(files[name] != content for name, content in own.items()):
                raise SystemExit(f"{page}:{begin}: a file before this block isn't that of the folder")
        elif source is None:
            source = content_of(word, lines)
        else:
            raise SystemExit(f"{page}:{begin}: no session uses the file before this block")
    if source is not None:
        raise SystemExit(f"{page}: no session uses the last file")
    return runs


def main(given):
    ask = asked(given)
    named = [Path(it).resolve() for it in given if not it.startswith("--")]
    count = failed = 0
    for page in named or [*PAGES, *sorted(EXAMPLES.glob("*/README.md"))]:
        for run in runs_of(page):
            wrong = run.wrong(ask)
            if wrong is None:
                continue
            count += 1
            failed += report(f"{page.relative_to(TOP)}:{run.line}: {' '.join(run.words)}", wrong)
    print(f"{count} examples of the pages")
    return 1 if failed else 0


sys.exit(main(sys.argv[1:]))
