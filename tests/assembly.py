#!/usr/bin/env python3
"""tests/assembly.py [--second] [SEED] [COUNT]

Compares what `rnm list` writes of random sound objects and what `rnm asm` writes of random texts, and their statuses,
with the assembler and the listing in Python, tests/second/assembly.py, which share nothing with the program. Of each
object it asks for its listing, for the object of the listing and for that of another text that spells it, with labels,
comments and blanks; both must be the object's bytes. Then come as many texts with faults, of which each must have the
second's answer, the bytes or the line of the refusal. Last come the largest texts and objects, with what is known of
them by their form, and objects that are refused. The seed is printed; without one it is 17, and there are 2,000 objects
and 2,000 texts. Where an answer differs, the job stands in the folder that is named. With `--second` it asks the second
assembler in place of the program, so that its listings are held to the objects; with `--shown` it also prints how the
answers are spread.
"""
import random
import sys
from collections import Counter
from concurrent.futures import ProcessPoolExecutor
from itertools import repeat

sys.dont_write_bytecode = True

from asking import asked, difference, kept, report
from rows import refusals
from second.assembly import asm_answer, list_answer, listing
from second.objects import BOUND, MOST, Instr, written
from second.texts import a_faulty_text, a_text, an_object

SEED = 17
COUNT = 2_000
AT_ONCE = 4
LIMIT = 4_194_304
MOST_TOLD = 5
SHOWN = "--shown"

ASM = ["asm", "a.asm"]
LIST = ["list", "a.obj"]


def jobs_of(seed, number):
    """What is asked of an object and of a text: the words, the files, and the answer."""
    chance = random.Random(f"{seed} assembly {number}")
    program = an_object(chance)
    content, text = written(*program), listing(program)
    faulty = a_faulty_text(chance, an_object(chance))
    return [
        (LIST, {"a.obj": content}, (text, 0)),
        (ASM, {"a.asm": text}, (content, 0)),
        (ASM, {"a.asm": a_text(chance, program)}, (content, 0)),
        (ASM, {"a.asm": faulty}, asm_answer(faulty)),
    ]


def largest_texts():
    """Texts at the limits, each with its answer: as many instructions, data words, labels and bytes as can be."""
    halts, data = b"HALT\n" * MOST, b"data 0\n" * MOST
    yield b"set pocket\n" + halts, (written("pocket", [Instr("HALT")] * MOST), 0)
    yield b"set pocket\n" + halts + b"\nHALT\n", refused(f"unsound code {MOST + 3}")
    yield b"set hall\n" + data + b"HALT\n", (written("hall", [Instr("HALT")], [0] * MOST), 0)
    yield b"set hall\nHALT\n" + data + b"data 0", refused(f"unsound data {MOST + 3}")
    # Too many instructions come before too many data words and before every fault of one of them.
    yield b"set hall\nLDI r16 0\n" + data + b"data 0\n" + halts, refused(f"unsound code {2 * MOST + 3}")
    yield b"set hall\n" + halts + b"HALT\nJMP a\n", refused(f"unknown-name {MOST + 3}")
    yield b"set hall\n" + halts + b"HALT\na\n", refused(f"line {MOST + 3}")
    targets = [f"l{place}: JMP l{MOST - 1 - place}\n" for place in range(MOST)]
    jumps = [Instr("JMP", p=MOST - 1 - place) for place in range(MOST)]
    yield "".join(["set desk\n", *targets]).encode(), (written("desk", jumps), 0)
    yield "".join(["set desk\n", *targets, "l0:"]).encode(), refused(f"twice-named {MOST + 2}")
    yield "".join(["set desk\n", *targets, "JMP away"]).encode(), refused(f"unknown-name {MOST + 2}")
    labels = [f"l{number}:\n" for number in range(MOST + 1)]
    yield "".join(["set desk\n", *labels, "JMP l65536\n"]).encode(), (written("desk", [Instr("JMP")]), 0)
    yield b"set desk\nHALT\n".ljust(LIMIT, b"#"), (written("desk", [Instr("HALT")]), 0)
    yield b"set desk\nHALT".ljust(LIMIT, b"\t"), (written("desk", [Instr("HALT")]), 0)
    yield b"set desk\nHALT\n".ljust(LIMIT, b"\n"), (written("desk", [Instr("HALT")]), 0)
    yield b"set desk\nLDI r1 ".ljust(LIMIT - 1, b"0") + b"7", (written("desk", [Instr("LDI", 1, p=7)]), 0)
    yield b"set desk\nLDI r1 ".ljust(LIMIT, b"7"), refused("line 2")
    yield b"set desk\nJMP ".ljust(LIMIT, b"a"), refused("unknown-name 2")
    yield b"#" * LIMIT, refused("line 1")
    yield b"\n" * LIMIT, refused("line 1")
    yield b"\n" * (LIMIT - 1) + b"a", refused(f"line {LIMIT}")
    yield b"#" * (LIMIT + 1), (b"too long a.asm\n", 13)


def refused(words):
    return f"refused assembly {words}\n".encode(), 11


def large_jobs():
    for text, wanted in largest_texts():
        yield ASM, {"a.asm": text}, wanted
    # The listing of the last is longer than a file may be.
    bound = BOUND["hall"]
    for code in [Instr("HALT")] * MOST, [Instr("CHK", 15, L=2**32 - 1, p=-bound, q=bound)] * MOST:
        content = written("hall", code, [bound] * MOST)
        text = list_answer(content)
        yield LIST, {"a.obj": content}, text
        yield ASM, {"a.asm": text[0]}, (content, 0) if len(text[0]) <= LIMIT else (b"too long a.asm\n", 13)


def refused_objects(seed):
    """The objects of the rows that are refused."""
    for row in refusals.rows(seed):
        wanted = list_answer(row.content)
        if wanted[1]:
            yield LIST, {"a.obj": row.content}, wanted


def judged(job, arguments):
    """A job, and how the answer of whom the arguments ask differs from what it has to be."""
    words, files, wanted = job
    return words, files, wanted, difference(asked(arguments)(words, files), wanted)


def judged_of(seed, number, arguments):
    return [judged(job, arguments) for job in jobs_of(seed, number)]


def show(found):
    spread = Counter()
    for _, _, (answer, status), _ in found:
        spread["an object or a listing" if status == 0 else b" ".join(answer.split()[:-1]).decode()] += 1
    for kind, count in spread.most_common():
        print(f"{count:6} {kind}")


def main(given):
    numbers = [int(it) for it in given if it.isdigit()]
    seed, count = (numbers + [SEED, COUNT][len(numbers) :])[:2]
    print(f"{count} random objects and as many texts with faults, from the seed {seed} on", flush=True)
    jobs = [*large_jobs(), *refused_objects(seed)]
    with ProcessPoolExecutor(AT_ONCE) as pool:
        of_objects = pool.map(judged_of, repeat(seed), range(count), repeat(given), chunksize=20)
        found = [it for part in of_objects for it in part]
        found += pool.map(judged, jobs, repeat(given), chunksize=4)
    if SHOWN in given:
        show(found)
    wrong = [it for it in found if it[-1]]
    for words, files, _, lines in wrong[:MOST_TOLD]:
        report(f"{' '.join(words)}, in {kept(words, files, 'rnm_assembly_')}", lines)
    if wrong:
        print(f"      {len(wrong)} of {len(found)} answers are wrong")
    print(f"{len(found)} answers of `asm` and `list`")
    return 1 if wrong else 0


if __name__ == "__main__":
    sys.exit(main(sys.argv[1:]))
