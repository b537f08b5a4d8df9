#!/usr/bin/env python3
"""Runs the built program with each of its growths of memory refused in turn, one growth a run.

Each run must end with the row's status and all of its bytes, or with status 5 (out of memory) and a prefix of them, or
with status 7 and nothing (the list of arguments was refused). Prints how many runs of each kind there were.

    tools/refused_memory.py [PROGRAM]        PROGRAM: the built program, crates/grid_cli/out/grid_cli by default
"""
import collections
import os
import pathlib
import subprocess
import sys
import tempfile

TOP = pathlib.Path(__file__).resolve().parent.parent

A = b"grid 2\nO 1 0\nX 0 1\n"
C = b"grid 3\nO 2 1 0\nX 1 0 2\n"
E = b"grid 4\nO 0 2 1 3\nX 1 3 2 0\n"

# The only certificate of A that passes.
CERTIFICATE = (
    b"gridcert 1\n" + A + b"cell 0 0\ncycle 01\ncocycle 01\ncell -1 -1\ncycle 10\ncocycle 10\nend\n"
)

# Words and input.
ROWS = [
    ("run", A + b"ranks\nhat\nend\n"),
    ("run", C + b"ranks\nclass -\nclass +\nend\n"),
    ("run", E + b"chain 1203\ncols 1 over\ncols 1 over\nshow\nranks\nend\n"),
    ("run", E + b"chain 0312\ninvert cols 1 over\nshow\nend\n"),
    ("run", C + b"stab 1 ne\nfront\nclass +\ndestab 1 0 ne\nhat\nend\n"),
    ("run", C + b"chain 012 120\nflip\nhalf\nmarks\nshow\nmirror\nranks\nend\n"),
    ("run", C + b"coranks\neuler\nend\n"),
    ("run", b"grid2 4\nO 0 1 2 3\nX 2 3 0 1\nranks\nhat\nend\n"),
    ("compare", C + b"end\nnext\n" + C + b"turn up\nend\n"),
    ("check", CERTIFICATE),
    ("make --seed 1 --size 5", b""),
]

REFUSED, NO_ARGUMENTS = 5, 7


def run(program, words, text, **environment):
    done = subprocess.run(
        [program, *words.split()], input=text, stdout=subprocess.PIPE, env={**os.environ, **environment}
    )
    return done.returncode, done.stdout


def kind_of(ended, whole):
    """What a run with a refused growth came to, or None if it is none of the three."""
    status, written = ended
    if ended == whole:
        return "the whole answer"
    if status == REFUSED and whole[1].startswith(written):
        return "out of memory and a prefix"
    if status == NO_ARGUMENTS and not written:
        return "the arguments refused and nothing"
    return None


def try_row(program, folder, words, text):
    """Counts the kinds of the runs of this row, one for each of its growths."""
    counted = folder / "count"
    preload = {"LD_PRELOAD": str(folder / "refuse.so")}
    whole = run(program, words, text, COUNT_TO=str(counted), **preload)
    kinds = collections.Counter()
    for number in range(1, int(counted.read_text()) + 1):
        ended = run(program, words, text, REFUSE_AT=str(number), **preload)
        kind = kind_of(ended, whole)
        if kind is None:
            sys.exit(f"{words}: growth {number} refused: status {ended[0]}, {len(ended[1])} bytes written")
        kinds[kind] += 1
    return kinds


def name_of(words, text):
    """The words of a call, and the first words of the commands of its input."""
    first = [line.split()[0].decode() for line in text.splitlines()]
    commands = [word for word in first if word not in ("O", "X", "end", "gridcert")]
    return " ".join([words, "<", *commands]) if words in ("run", "compare") else words


def told(kinds):
    return "; ".join(f"{count} {kind}" for kind, count in sorted(kinds.items()))


def main():
    program = sys.argv[1] if len(sys.argv) > 1 else str(TOP / "crates/grid_cli/out/grid_cli")
    total = collections.Counter()
    with tempfile.TemporaryDirectory() as name:
        folder = pathlib.Path(name)
        subprocess.run(
            ["cc", "-O1", "-shared", "-fPIC", "-o", folder / "refuse.so", TOP / "tools/refuse.c"], check=True
        )
        for words, text in ROWS:
            kinds = try_row(program, folder, words, text)
            total += kinds
            print(f"{name_of(words, text)}: {sum(kinds.values())} runs: {told(kinds)}", flush=True)
    print(f"in all {sum(total.values())} runs: {told(total)}")


main()
