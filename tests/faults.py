#!/usr/bin/env python3
"""tests/faults.py [--second] [SEED] [COUNT]

Compares what `rnm exec` writes of random sound objects with random faults of one, two and three channels, and its status,
with the second machine in Python, tests/second/shown.py: it has a list of residues for each channel, finds the nearest
integer by trying, and shares nothing with the program. By itself it holds each answer to the machine over plain integers:
with faults in one channel at most the prints and the ending are those of the plain run, with faults in two they are, or
the prints are a prefix of them and the run ends with damage. First it compares its own ways to find the nearest integer.
The seed is printed; without one it is 15, and there are 2,000 objects. Where an answer differs, the job stands in the
folder that is named. With `--second` it asks the second machine in place of the program; with `--shown` it asks nobody,
and prints how the answers of the second machine are spread.
"""
import random
import sys
from collections import Counter
from concurrent.futures import ProcessPoolExecutor
from itertools import repeat

sys.dont_write_bytecode = True

from asking import ask_second, asked, difference, kept, report
from second.fault_lists import random_faults
from second.faults import BadFaults, faults_of
from second.objects import BOUND, CHANNELS, SETS, Refused, read
from second.programs import random_run
from second.residues import MODULI, nearest, nearest_of_all_errors, nearest_of_all_integers, vector_of

SEED = 15
COUNT = 2_000
COLUMNS = {"pocket": 500, "desk": 200, "hall": 5}
MOST_TOLD = 5
SHOWN = "--shown"


def a_column(chance, name):
    """The vector of an integer with up to four other residues."""
    moduli = MODULI[name]
    column = vector_of(name, chance.choice([BOUND[name], -BOUND[name], chance.randint(-BOUND[name], BOUND[name])]))
    for channel in chance.sample(range(len(moduli)), chance.choice([0, 1, 1, 2, 3, 4])):
        column[channel] = chance.randrange(moduli[channel])
    return column


def wrong_nearest(seed):
    """The columns of which two ways to find the nearest integer differ, a line each."""
    chance, wrong = random.Random(f"{seed} nearest"), []
    for name in SETS:
        for _ in range(COLUMNS[name]):
            column = a_column(chance, name)
            answers = {nearest(name, column), nearest_of_all_errors(name, column)}
            if name == "pocket":
                answers.add(nearest_of_all_integers(name, column))
            if len(answers) > 1:
                wrong.append(f"the nearest integer of {column} on {name}: {answers}")
    return wrong


def run_of(seed, number):
    """A job, what the machine over plain integers answers of it without its faults, and whether all faults are right."""
    chance = random.Random(f"{seed} faults {number}")
    words, files, plain = random_run(chance)
    if plain[1] == 6:
        return [*words, "--faults=c.txt"], files | {"c.txt": b"x\n"}, plain, False
    faults, is_right = random_faults(chance, files["a.obj"], files["b.txt"], int(words[-1].partition("=")[2]))
    return [*words, "--faults=c.txt"], files | {"c.txt": faults}, plain, is_right


def named(files):
    """The channels that the faults name; None where the object or the faults are refused."""
    try:
        return {channel for channel, _ in faults_of(files["c.txt"], CHANNELS[read(files["a.obj"]).set])}
    except (BadFaults, Refused):
        return None


def parts_of(answer):
    """The prints of an answer, its ending, and the numbers of its corrections."""
    *prints, ending, corrected = answer[0].decode().splitlines()
    return prints, ending, [int(it) for it in corrected.split()[1:]]


def unlike_plain(told, plain, channels):
    """How an answer with faults in so many channels isn't what it has to be beside the plain one, a line each."""
    prints, ending, corrected = parts_of(told)
    plain_prints, plain_ending, _ = parts_of(plain)
    is_whole = (prints, ending, told[1]) == (plain_prints, plain_ending, plain[1])
    is_prefix = prints == plain_prints[: len(prints)] and ending.startswith("damage ") and told[1] == 9
    wrong = []
    if not (is_whole or len(channels) == 2 and is_prefix):
        wrong.append(f"with faults in {len(channels)} channels it wrote {told[0][:400]!r}, without {plain[0][:400]!r}")
    if any(count for channel, count in enumerate(corrected) if channel not in channels):
        wrong.append(f"corrected {corrected} in channels without faults, of {sorted(channels)}")
    return wrong


def wrong_of(told, wanted, plain, channels, is_right):
    wrong = difference(told, wanted)
    if channels is None or wrong or plain[1] == 6:
        return wrong
    if is_right:
        return difference(told, plain)
    return unlike_plain(told, plain, channels) if len(channels) <= 2 else []


def judged(seed, number, arguments):
    """A job, what the second machine answers, and what is wrong with the answer of whom the arguments ask."""
    words, files, plain, is_right = run_of(seed, number)
    wanted = ask_second(words, files)
    told = wanted if SHOWN in arguments else asked(arguments)(words, files)
    channels = named(files)
    return words, files, wanted, channels, wrong_of(told, wanted, plain, channels, is_right)


def show(found):
    spread = Counter()
    for _, _, wanted, channels, _ in found:
        lines = wanted[0].decode().splitlines()
        ending = lines[-2 if len(lines) > 1 else 0].split()[0]
        corrections = "corrected" if wanted[1] not in (6, 7) and any(parts_of(wanted)[2]) else ""
        spread[len(channels or ()), ending, corrections] += 1
    for (channels, ending, corrections), count in sorted(spread.items()):
        print(f"{count:6} with faults in {channels} channels: {ending} {corrections}")


def main(given):
    numbers = [int(it) for it in given if it.isdigit()]
    seed, count = (numbers + [SEED, COUNT][len(numbers) :])[:2]
    print(f"{count} random objects with faults, from the seed {seed} on", flush=True)
    doubtful = wrong_nearest(seed)
    report("the second machine", doubtful)
    with ProcessPoolExecutor() as pool:
        found = list(pool.map(judged, repeat(seed), range(count), repeat(given), chunksize=20))
    if SHOWN in given:
        show(found)
    wrong = [it for it in found if it[-1]]
    for words, files, _, _, lines in wrong[:MOST_TOLD]:
        report(f"the run of a random object: {' '.join(words)}, in {kept(words, files, 'rnm_faults_')}", lines)
    if wrong:
        print(f"      {len(wrong)} of {count} answers are wrong")
    return 1 if wrong or doubtful else 0


if __name__ == "__main__":
    sys.exit(main(sys.argv[1:]))
