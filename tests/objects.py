#!/usr/bin/env python3
"""tests/objects.py [--second] [SEED]

Runs the objects of tests/rows by `rnm exec` and compares what is written, and the status, with what stands beside each:
worked out by hand in tests/rows/hand.py, and else what the second machine of tests/second says, which shares nothing with
the program. With `--second` it asks the second machine in place of the program, so that it is held to what is worked out
by hand. The seed, by which some bytes are random, is printed; without one it is 15. A row of which the integers leave the
range isn't asked, since nothing is said of it.
"""
import sys

sys.dont_write_bytecode = True

from asking import asked, difference, report
from rows import division, ends, hand, refusals
from second.machine import DEFAULT_STEPS, exec_answer

SEED = 15
MOST_TOLD = 20


def all_rows(seed):
    yield from hand.rows()
    yield from ends.rows()
    yield from division.rows()
    yield from refusals.rows(seed)


def main(given):
    ask = asked(given)
    seed = next((int(it) for it in given if it.isdigit()), SEED)
    print(f"objects, with random bytes from the seed {seed} on", flush=True)
    count = failed = worked_out = 0
    for row in all_rows(seed):
        wanted = row.wanted or exec_answer(row.content, row.given or b"", row.steps or DEFAULT_STEPS)
        if wanted is None:
            raise SystemExit(f"{row.shows}: the integers leave the range, so that this is no row")
        count += 1
        worked_out += row.wanted is not None
        words = ["exec", "a.obj", "-" if row.given is None else "b.txt"]
        if row.steps is not None:
            words.append(f"--steps={row.steps}")
        files = {"a.obj": row.content} if row.given is None else {"a.obj": row.content, "b.txt": row.given}
        wrong = difference(ask(words, files), wanted)
        failed += bool(wrong)
        if failed <= MOST_TOLD:
            report(f"tests/rows: {row.shows}", wrong)
    if failed > MOST_TOLD:
        print(f"      {failed} rows fail")
    print(f"{count} objects, {worked_out} of them worked out by hand")
    return 1 if failed else 0


sys.exit(main(sys.argv[1:]))
