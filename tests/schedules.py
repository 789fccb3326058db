#!/usr/bin/env python3
"""tests/schedules.py [--second] [SEED] [COUNT]

Compares what `rnm exec --journal` writes of random sound objects with random faults of no channel, one, two and three and
with random schedules, and its status, with the second machine in Python, tests/second/turns.py: it has a list for each
channel's queue, and shares nothing with the program. By itself it holds what stands before the journal to what is written
without a schedule, and the journal to its channels, each of which performs its operations in their order. First it compares
the second machine's journals with those that are worked out by hand, and with those by counts alone. The seed is printed;
without one it is 15, and there are 2,000 objects. Where an answer differs, the job stands in the folder that is named.
With `--second` it asks the second machine in place of the program; with `--shown` it asks nobody, and prints how the
answers of the second machine are spread.
"""
import random
import sys
from collections import Counter
from concurrent.futures import ProcessPoolExecutor
from itertools import repeat

sys.dont_write_bytecode = True

from asking import ask_second, asked, difference, kept, report
from second.fault_lists import random_faults
from second.objects import CHANNELS, Refused, read
from second.programs import random_run
from second.schedule_lists import random_schedule
from second.schedules import CONTROL, schedule_of
from second.turns import MOST_KEPT, Operation, journal, journal_by_counts

SEED = 15
COUNT = 2_000
COUNTED = 500
MOST_TOLD = 5
SHOWN = "--shown"

# The operations of a run, S for a Show; a schedule; and the channel and the operation of each entry, of five channels.
IN_ROUNDS = [(channel, number) for number in range(2) for channel in range(5)]
OF_TEN = [
    *((0, number) for number in range(8)), (1, 0), (2, 0), (3, 0), (4, 0), (0, 8), (1, 1), (2, 1), (3, 1), (4, 1),
    (0, 9), (1, 2), (2, 2), (3, 2), (4, 2), *((channel, number) for number in range(3, 10) for channel in (1, 2, 3, 4)),
]
WORKED_OUT = [
    ("", b"", []),
    ("", b"C 0 C 4", []),
    ("PS", b"", IN_ROUNDS),
    ("PS", b"C C 4 4 4 0", [(4, 0), (4, 1), (0, 0), (0, 1), (1, 0), (2, 0), (3, 0), (1, 1), (2, 1), (3, 1)]),
    ("PS", b"C C 4 3 2 1 0", [(4, 0), (3, 0), (2, 0), (1, 0), (0, 0), (0, 1), (1, 1), (2, 1), (3, 1), (4, 1)]),
    # nothing is issued while a Show is open, whoever performs
    ("SP", b"C C C 0 1 C 0 1", [(0, 0), (1, 0), (2, 0), (3, 0), (4, 0), *IN_ROUNDS[5:]]),
    # the ninth C and the ninth 0 do nothing, nor does the first C after them
    ("PPPPPPPPPS", b"C " * 9 + b"0 " * 9, OF_TEN),
]


def operations_of(chance, kinds, channels):
    """Operations with any answers; S is a Show."""
    return [
        Operation(number, kind == "S", [chance.randrange(9) for _ in range(channels)]) for number, kind in enumerate(kinds)]


def runs_of(chance, channels):
    """A few turns, each again and again."""
    times = [chance.choice([1, 2, 9]) for _ in range(chance.randrange(40))]
    return [turn for count in times for turn in [chance.choice([CONTROL, *range(channels)])] * count]


def wrong_worked_out():
    """The journals that aren't as they are worked out, a line each."""
    wrong = []
    for kinds, text, wanted in WORKED_OUT:
        operations = operations_of(random.Random(SEED), kinds, 5)
        entries = [(channel, number, operations[number].answers[channel]) for channel, number in wanted]
        for told in (journal, journal_by_counts):
            found = told(operations, schedule_of(text, 5), 5)
            if found != entries:
                wrong.append(f"{told.__name__} of {kinds} by {text}: {found}")
    return wrong


def wrong_by_counts(seed):
    """The random runs of which queues and counts give other journals, a line each."""
    chance, wrong = random.Random(f"{seed} journals"), []
    for number in range(COUNTED):
        channels = chance.choice(sorted(set(CHANNELS.values())))
        kinds = chance.choices("PS", [chance.choice([1, 5, 30]), 1], k=chance.choice([1, 8, 9, 30, 100]))
        operations = operations_of(chance, kinds, channels)
        schedule = runs_of(chance, channels)
        if journal(operations, schedule, channels) != journal_by_counts(operations, schedule, channels):
            wrong.append(f"journal {number} of {''.join(kinds)} by {schedule}")
    return wrong


def run_of(seed, number):
    """A job, with a schedule and a journal most often."""
    chance = random.Random(f"{seed} schedules {number}")
    words, files, plain = random_run(chance)
    content, given = files["a.obj"], files["b.txt"]
    try:
        channels = CHANNELS[read(content).set]
    except Refused:
        channels = 5
    if chance.random() < 0.75 and plain[1] != 6:
        faults, _ = random_faults(chance, content, given, int(words[-1].partition("=")[2]))
        words, files = [*words, "--faults=c.txt"], files | {"c.txt": faults}
    if chance.random() < 0.95:
        words, files = [*words, "--schedule=d.txt"], files | {"d.txt": random_schedule(chance, channels)}
    if chance.random() < 0.95:
        words.insert(chance.randint(1, len(words)), "--journal")
    return words, files


def parts_of(answer):
    """The lines of an answer before its journal, and the entries of the journal."""
    lines = answer[0].decode().splitlines()
    entries = [tuple(map(int, it.split()[1:])) for it in lines if it.startswith("j ")]
    return lines[: len(lines) - len(entries)], entries


def wrong_parts(words, files, told):
    """How an answer isn't what it has to be beside the one without a schedule, a line each."""
    plain_words = [it for it in words if it != "--journal" and not it.startswith("--schedule=")]
    plain = ask_second(plain_words, files)
    lines, entries = parts_of(told)
    if lines[0].startswith("refused schedule"):
        return []
    wrong = difference(("".join(f"{it}\n" for it in lines).encode(), told[1]), plain)
    numbers = {}
    for channel, number, _ in entries:
        if number != numbers.get(channel, 0):
            wrong.append(f"channel {channel} performs {number} in place of {numbers.get(channel, 0)}")
            break
        numbers[channel] = number + 1
    if 0 < len(entries) < MOST_KEPT and len(entries) != CHANNELS[read(files["a.obj"]).set] * max(numbers.values()):
        wrong.append("the channels perform no equal numbers of operations")
    return wrong


def judged(seed, number, arguments):
    """A job, what the second machine answers, and what is wrong with the answer of whom the arguments ask."""
    words, files = run_of(seed, number)
    wanted = ask_second(words, files)
    told = wanted if SHOWN in arguments else asked(arguments)(words, files)
    return words, files, wanted, difference(told, wanted) or wrong_parts(words, files, told)


def show(found):
    spread = Counter()
    for words, files, wanted, _ in found:
        lines, entries = parts_of(wanted)
        ending = " ".join(lines[0].split()[:2]) if lines[0].startswith("refused") else lines[-2].split()[0]
        length = next((it for it in (0, 10, 100, 1_000, 10_000, MOST_KEPT - 1) if len(entries) <= it), MOST_KEPT)
        spread["--journal" in words, ending, length] += 1
    for (has_journal, ending, length), count in sorted(spread.items()):
        print(f"{count:6} {'with' if has_journal else 'without'} a journal, of up to {length} entries: {ending}")


def main(given):
    numbers = [int(it) for it in given if it.isdigit()]
    seed, count = (numbers + [SEED, COUNT][len(numbers) :])[:2]
    print(f"{count} random objects with schedules, from the seed {seed} on", flush=True)
    doubtful = wrong_worked_out() + wrong_by_counts(seed)
    report("the second machine", doubtful[:MOST_TOLD])
    with ProcessPoolExecutor() as pool:
        found = list(pool.map(judged, repeat(seed), range(count), repeat(given), chunksize=20))
    if SHOWN in given:
        show(found)
    wrong = [it for it in found if it[-1]]
    for words, files, _, lines in wrong[:MOST_TOLD]:
        report(f"the run of a random object: {' '.join(words)}, in {kept(words, files, 'rnm_schedules_')}", lines)
    if wrong:
        print(f"      {len(wrong)} of {count} answers are wrong")
    return 1 if wrong or doubtful else 0


if __name__ == "__main__":
    sys.exit(main(sys.argv[1:]))
