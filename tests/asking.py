"""Who is asked what `rnm` writes: the built program, or the second evaluator, machines and assembler, which know
`mean`, `exec`, `asm` and `list` alone."""
import os
import subprocess
import sys
import tempfile
from pathlib import Path

from second.assembly import asm_answer, list_answer
from second.evaluation import answer
from second.machine import exec_answer
from second.shown import shown_answer

TOP = Path(__file__).resolve().parent.parent
PROGRAM = os.environ.get("RNM_PROGRAM", str(TOP / "crates" / "rnm" / "out" / "rnm"))
SECOND = "--second"
LIMIT = 4_194_304
OF_ONE_FILE = {"asm": asm_answer, "list": list_answer}


def ask_program(words, files):
    """What the program writes with these words in a folder with these files, and its status."""
    with tempfile.TemporaryDirectory(prefix="rnm_asked_") as folder:
        for name, content in files.items():
            (Path(folder) / name).write_bytes(content)
        done = subprocess.run(
            [PROGRAM, *words], cwd=folder, stdin=subprocess.DEVNULL, stdout=subprocess.PIPE, stderr=subprocess.PIPE,
            timeout=60)
        return done.stdout + done.stderr, done.returncode


def ask_second(words, files):
    """The same by the second evaluator, machine or assembler, of words that are a job; None of a command that they
    don't know."""
    if words[0] in OF_ONE_FILE:
        return ask_of_one_file(words, files)
    if words[0] not in ("mean", "exec"):
        return None
    options = {name: value for name, _, value in (word[2:].partition("=") for word in words[1:] if word.startswith("--"))}
    first, given = [word for word in words[1:] if not word.startswith("--")]
    for name in (first, given, options.get("faults", "-"), options.get("schedule", "-")):
        if name != "-" and name not in files:
            return f"unread {name}\n".encode(), 3
    text, steps = b"" if given == "-" else files[given], int(options.get("steps", 1_000_000))
    if words[0] == "exec":
        return ask_machine(files[first], text, options, files, steps)
    written, status, _ = answer(files[first], text, options.get("set", "desk"), steps)
    return written, status


def ask_of_one_file(words, files):
    """By the assembler or the listing, whose one operand is a file."""
    command, name = words
    if name not in files:
        return f"unread {name}\n".encode(), 3
    if len(files[name]) > LIMIT:
        return f"too long {name}\n".encode(), 13
    return OF_ONE_FILE[command](files[name])


def ask_machine(content, text, options, files, steps):
    """By the machine over plain integers; with faults, with a schedule or a journal, and where integers leave the range,
    by the one on residues."""
    faults, schedule = (files[options[name]] if name in options else b"" for name in ("faults", "schedule"))
    is_plain = not options.keys() & {"faults", "schedule", "journal"}
    plain = exec_answer(content, text, steps) if is_plain else None
    return plain or shown_answer(content, text, faults, steps, schedule, "journal" in options)


def asked(arguments):
    """Whom the arguments of a script ask: the second evaluator where they have `--second`, and else the program."""
    sys.dont_write_bytecode = True
    return ask_second if SECOND in arguments else ask_program


def difference(told, wanted):
    """How an answer differs from what is wanted, a line each."""
    (written, status), (wanted_text, wanted_status) = told, wanted
    wrong = []
    if written != wanted_text:
        wrong += [f"wrote  {written[:400]!r}", f"wanted {wanted_text[:400]!r}"]
    if status != wanted_status:
        wrong.append(f"status {status}, wanted {wanted_status}")
    return wrong


def report(where, wrong):
    """Prints what is wrong at a place, a line each, and returns whether something is."""
    if wrong:
        print(f"FAILS {where}")
    for line in wrong:
        print(f"      {line}")
    return bool(wrong)


def kept(words, files, begin):
    """A new folder with the files of a job; its name begins so."""
    folder = tempfile.mkdtemp(prefix=begin)
    for name, content in files.items():
        (Path(folder) / name).write_bytes(content)
    (Path(folder) / "words").write_text(" ".join(words) + "\n")
    return folder
