#!/usr/bin/env python3
"""Makes random documents, pairs and words, and compares the answers of the built program and of second_program.py.

Documents have all commands, mostly on grids of two to five columns. Some are plain and some have spaces, blank lines
and comments wherever they are allowed; some have no fault and some have one or more. Lines that are not determined are
compared by what must hold of them, and certificates by the tests of check_certificate.py. Prints each disagreement, and
how much was compared.

    tools/random_documents.py [PROGRAM] [--count N] [--seed S]     N random calls, 1000 by default, from a seed
    tools/random_documents.py [PROGRAM] --every SIZE               no random ones: all grids of this size, and for each
                                                                   all that may be asked of it and, to four columns, of
                                                                   its states
    tools/random_documents.py [PROGRAM] --every SIZE --some N      N random grids of this size, in place of all

PROGRAM is the built program, crates/grid_cli/out/grid_cli by default.
"""
import argparse
import collections
import pathlib
import random
import subprocess
import sys

sys.dont_write_bytecode = True

import check_certificate
import second_program
from second import every_text, homology
from second.grids import Grid
from second.random_texts import random_call, random_grid

TOP = pathlib.Path(__file__).resolve().parent.parent


def run(program, words, text):
    done = subprocess.run([program, *words], input=text, capture_output=True)
    return done.returncode, done.stdout


def certifies(lines, grid):
    """Whether the lines are a certificate of this grid that passes, and its table is that of linear algebra."""
    of, cells = check_certificate.read(lines)
    if Grid(tuple(of.o), tuple(of.x)) != grid or not all(passed for _, _, passed in check_certificate.tests(of, cells)):
        return False
    table = [(m, a, len(cycles)) for (m, a), cycles, _ in cells if cycles]
    return grid.size > 5 or table == homology.ranks(grid)


def agrees(line, expected):
    return line == expected if isinstance(expected, str) else expected.allows(line)


def is_answer(status, written, expected):
    """Whether a call that ended so has answered as the second program expects."""
    lines = written.decode("latin-1").split("\n")
    if status != expected.status or lines.pop():
        return False
    if expected.lines and isinstance(expected.lines[0], second_program.CertificateOf):
        return certifies(lines, expected.lines[0].grid)
    return len(lines) == len(expected.lines) and all(map(agrees, lines, expected.lines))


def tell(words, text, status, written, expected):
    print(f"DISAGREEMENT on {words}, input {text!r}")
    print(f"  the program: status {status}, {written!r}")
    print(f"  the second:  status {expected.status}, {expected.lines!r}", flush=True)


def kind_of(words, expected):
    """What is counted of a call: its mode with the fault, if it is refused, or its status."""
    if expected.status == second_program.REFUSED:
        return f"refused {expected.lines[0].split()[1]}"
    return f"{words[0]} done" if expected.status == second_program.DONE else "usage"


def asked():
    parser = argparse.ArgumentParser(description=__doc__.split("\n")[0])
    parser.add_argument("program", nargs="?", default=str(TOP / "crates/grid_cli/out/grid_cli"))
    parser.add_argument("--count", type=int, default=1000)
    parser.add_argument("--seed", type=int, default=1)
    parser.add_argument("--every", type=int, metavar="SIZE")
    parser.add_argument("--some", type=int, metavar="N")
    return parser.parse_args()


def calls(given):
    chance = random.Random(given.seed)
    if given.some:
        yield from every_text.calls(random_grid(chance, given.every) for _ in range(given.some))
    elif given.every:
        yield from every_text.calls(every_text.grids(given.every))
    else:
        yield from (random_call(chance) for _ in range(given.count))


def main():
    given = asked()
    kinds, first_words, lines, wrong = collections.Counter(), collections.Counter(), 0, 0
    for words, text in calls(given):
        expected = second_program.outcome(words, text)
        status, written = run(given.program, words, text)
        if not is_answer(status, written, expected):
            wrong += 1
            tell(words, text, status, written, expected)
        kinds[kind_of(words, expected)] += 1
        lines += written.count(b"\n")
        if expected.status == second_program.DONE and words == ["run"]:
            first_words.update(line.split()[0] for line in written.decode().splitlines())
    for name, counted in (("calls", kinds), ("lines of reports", first_words)):
        print(f"{name}: " + ", ".join(f"{kind} {times}" for kind, times in sorted(counted.items())))
    print(f"{sum(kinds.values())} calls, {lines} lines compared, {wrong} disagreements")
    sys.exit(1 if wrong else 0)


if __name__ == "__main__":
    main()
