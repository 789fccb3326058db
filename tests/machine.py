#!/usr/bin/env python3
"""tests/machine.py [SEED] [COUNT]

Compares what `rnm exec` writes of random sound objects with random inputs, and its status, with the second machine in
Python, tests/second: it computes with plain integers, and shares nothing with the program. The seed is printed; without
one it is 15, and there are 1,000 objects. Where an answer differs, the job stands in the folder that is named. With
`--shown` it asks nobody, and prints how the answers of the second machine are spread, and how often each instruction
is performed.
"""
import random
import sys
from collections import Counter
from concurrent.futures import ProcessPoolExecutor
from itertools import repeat

sys.dont_write_bytecode = True

from asking import ask_program, difference, kept, report
from second.machine import Machine, numbers_of
from second.objects import read
from second.programs import random_run

SEED = 15
COUNT = 1_000
MOST_TOLD = 5
SHOWN = "--shown"


def run_of(seed, number):
    return random_run(random.Random(f"{seed} machine {number}"))


def judged(seed, number):
    """A job, and how the answer of the program differs from that of the second machine."""
    words, files, wanted = run_of(seed, number)
    return words, files, difference(ask_program(words, files), wanted)


class Counted(Machine):
    """A machine that counts what it performs."""

    def __init__(self, *given):
        super().__init__(*given)
        self.count = Counter()

    def step(self):
        self.count[self.code[self.counter].name if self.counter < len(self.code) else "past the end"] += 1
        return super().step()


def show(seed, count):
    endings, performed = Counter(), Counter()
    for number in range(count):
        words, files, wanted = run_of(seed, number)
        lines = wanted[0].decode().split("\n")
        endings[" ".join(lines[-3 if len(lines) > 2 else 0].split()[:2])] += 1
        if wanted[1] != 6:
            machine = Counted(read(files["a.obj"]), numbers_of(files["b.txt"]))
            machine.run(int(words[-1].partition("=")[2]))
            performed += machine.count
    for ending, number in [*endings.most_common(), *performed.most_common()]:
        print(f"{number:6} {ending}")


def main(given):
    numbers = [int(it) for it in given if it.isdigit()]
    seed, count = (numbers + [SEED, COUNT][len(numbers) :])[:2]
    print(f"{count} random objects, from the seed {seed} on", flush=True)
    if SHOWN in given:
        show(seed, count)
        return 0
    with ProcessPoolExecutor() as pool:
        found = list(pool.map(judged, repeat(seed), range(count), chunksize=20))
    wrong = [it for it in found if it[2]]
    for words, files, lines in wrong[:MOST_TOLD]:
        report(f"the run of a random object: {' '.join(words)}, in {kept(words, files, 'rnm_machine_')}", lines)
    if wrong:
        print(f"      {len(wrong)} of {count} answers differ")
    return 1 if wrong else 0


if __name__ == "__main__":
    sys.exit(main(sys.argv[1:]))
