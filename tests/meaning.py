#!/usr/bin/env python3
"""tests/meaning.py [SEED] [COUNT]

Compares what `rnm mean` writes of random sources, and its status, with a second evaluator in Python, tests/second: it has
its own tokens, parser, rules of names, intervals and evaluation, and shares nothing with the program. The seed is
printed; without one it is 15, and there are 5,000 sources. Where an answer differs, the job stands in the folder that is
named. With `--shown` it asks nobody, and prints how the answers of the second evaluator are spread.
"""
import random
import sys
from collections import Counter
from concurrent.futures import ProcessPoolExecutor
from itertools import repeat

sys.dont_write_bytecode = True

from asking import ask_program, ask_second, difference, kept, report
from second.sources import random_job

SEED = 15
COUNT = 5_000
MOST_TOLD = 5
SHOWN = "--shown"


def sort_of(written):
    """The last line, without its line or place."""
    return " ".join(word for word in written.decode().split("\n")[-2].split() if not word.isdigit())


def judged(seed, number, is_asked):
    """A job, what the second evaluator answers, and how the answer of the program differs, where it is asked."""
    words, files = random_job(random.Random(f"{seed} {number}"))
    wanted = ask_second(words, files)
    return words, files, wanted, difference(ask_program(words, files), wanted) if is_asked else []


def main(given):
    numbers = [int(it) for it in given if it.isdigit()]
    seed, count = (numbers + [SEED, COUNT][len(numbers) :])[:2]
    print(f"{count} random sources, from the seed {seed} on", flush=True)
    is_asked = SHOWN not in given
    with ProcessPoolExecutor() as pool:
        found = list(pool.map(judged, repeat(seed), range(count), repeat(is_asked), chunksize=50))
    if not is_asked:
        for sort, number in Counter(sort_of(wanted[0]) for _, _, wanted, _ in found).most_common():
            print(f"{number:6} {sort}")
        return 0
    wrong = [(words, files, lines) for words, files, _, lines in found if lines]
    for words, files, lines in wrong[:MOST_TOLD]:
        report(f"the meaning of a random source: {' '.join(words)}, in {kept(words, files, 'rnm_meaning_')}", lines)
    if wrong:
        print(f"      {len(wrong)} of {count} answers differ")
    return 1 if wrong else 0


if __name__ == "__main__":
    sys.exit(main(sys.argv[1:]))
