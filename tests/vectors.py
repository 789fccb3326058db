#!/usr/bin/env python3
"""tests/vectors.py

Runs the program every_vector, which decodes each vector of `pocket` by projection and by the table of syndromes, and
compares what it prints with what its crate says: no vector has two verdicts.

Then it counts, from the definitions alone, on how many of these vectors a table goes wrong whose entries are a channel
and an error, and not on which side the wrong integer lies: 5,070, of which 4 0 8 1 0 is one.
"""
import itertools
import subprocess
import sys

sys.dont_write_bytecode = True

from asking import TOP, difference, report
from second.objects import BOUND, INFORMATION, REDUNDANT, product
from second.residues import MODULI, vector_of

CRATE = TOP / "crates" / "every_vector"
SET = "pocket"
CHANNELS = range(len(INFORMATION[SET]))
WRONG_WITHOUT_SIDES = 5_070
DAMAGED = "damaged"


def nearest_of_all():
    """The integer in range and the channel that is wrong, of each vector that differs from that of an integer in range
    in one channel at most. All other vectors are damaged."""
    nearest = {}
    for number in range(-BOUND[SET], BOUND[SET] + 1):
        right = vector_of(SET, number)
        nearest[tuple(right)] = number, None
        for channel, modulus in enumerate(MODULI[SET]):
            for residue in set(range(modulus)) - {right[channel]}:
                nearest[tuple(right[:channel] + [residue] + right[channel + 1:])] = number, channel
    return nearest


def informed_of_all():
    """The integer from -B on that has these information residues, of each list of them."""
    return {tuple(number % modulus for modulus in INFORMATION[SET]): number
            for number in range(-BOUND[SET], product(INFORMATION[SET]) - BOUND[SET])}


def mended(informed, residues, channel, error):
    """The integer of these information residues, of which one is so much too high."""
    right = list(residues)
    right[channel] = (right[channel] - error) % INFORMATION[SET][channel]
    return informed[tuple(right)]


def table_without_sides(informed):
    """The channel and the error of each list of redundant residues of x less those of y, where x is in range and y has
    its information residues but for one, which is so much too high."""
    table = {}
    for residues, wrong in informed.items():
        for channel in CHANNELS:
            for error in range(1, INFORMATION[SET][channel]):
                right = mended(informed, residues, channel, error)
                if abs(right) <= BOUND[SET]:
                    key = tuple((right - wrong) % modulus for modulus in REDUNDANT[SET])
                    assert table.setdefault(key, (channel, error)) == (channel, error), "a syndrome of two errors"
    return table


def verdicts_without_sides():
    """Each vector with what the table of channels and errors makes of it: the residue is mended, and the integer is right
    where it is in range."""
    informed = informed_of_all()
    table = table_without_sides(informed)
    for residues, number in informed.items():
        for others in itertools.product(*map(range, REDUNDANT[SET])):
            apart = tuple((residue - number) % modulus for residue, modulus in zip(others, REDUNDANT[SET]))
            places = [place for place, it in enumerate(apart) if it]
            if len(places) < 2:
                found = number, len(residues) + places[0] if places else None
            elif apart in table:
                channel, error = table[apart]
                found = mended(informed, residues, channel, error), channel
            else:
                found = None
            yield residues + others, found if found and abs(found[0]) <= BOUND[SET] else DAMAGED


def wrong_without_sides():
    """What is wrong with the count of the vectors on which a table without sides goes wrong."""
    nearest = nearest_of_all()
    wrong = {vector for vector, verdict in verdicts_without_sides() if verdict != nearest.get(vector, DAMAGED)}
    faults = []
    if len(wrong) != WRONG_WITHOUT_SIDES:
        faults.append(f"a table without sides goes wrong on {len(wrong):,} vectors, and not on {WRONG_WITHOUT_SIDES:,}")
    if (4, 0, 8, 1, 0) not in wrong:
        faults.append("a table without sides is right on 4 0 8 1 0")
    return faults


def main():
    program = CRATE / "out" / "every_vector"
    if not program.exists():
        return report("tests/vectors.py", [f"{program} isn't there: rt ci builds it"])
    done = subprocess.run(
        [program], stdin=subprocess.DEVNULL, stdout=subprocess.PIPE, stderr=subprocess.STDOUT, timeout=120)
    wrong = difference((done.stdout, done.returncode), ((CRATE / "stdout").read_bytes(), 0))
    print("every vector of pocket, by two decoders, and by a table without sides")
    return report("every_vector", [*wrong, *wrong_without_sides()])


sys.exit(main())
