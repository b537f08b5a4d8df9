#!/usr/bin/env python3
"""Runs the built program on texts at the limits, and compares status and output with what the formats ask.

Prints the time and the greatest memory of each run. The answers are those of docs/FORMATS.md, worked out by hand and not
by the program.

    tools/hostile_texts.py [PROGRAM]         PROGRAM: the built program, crates/grid_cli/out/grid_cli by default
"""
import itertools
import pathlib
import subprocess
import sys
import tempfile

TOP = pathlib.Path(__file__).resolve().parent.parent

DOCUMENT = 65_536
CERTIFICATE = 16_777_216

SMALL = b"grid 2\nO 1 0\nX 0 1\n"
SIX = b"grid 6\nO 0 1 2 3 4 5\nX 2 3 4 5 0 1\n"
TEN = b"grid 10\nO 0 1 2 3 4 5 6 7 8 9\nX 3 4 5 6 7 8 9 0 1 2\n"
NINE = b"grid 9\nO 0 1 2 3 4 5 6 7 8\nX 4 5 6 7 8 0 1 2 3\n"


def refused(fault, line):
    return 2, f"refused {fault} line {line}\n".encode()


def filled(front, unit, length, back=b""):
    """A text of this length: the front, as many units as fit, units cut off at the end, and the back."""
    room = length - len(front) - len(back)
    return front + (unit * (room // len(unit) + 1))[:room] + back


def empty_cells(length):
    """A certificate of the small grid with cells without pairs, each at another bidegree."""
    head, lines, size = b"gridcert 1\n" + SMALL, [], 0
    for a in range(1000, -1001, -1):
        for m in range(1000, -1001, -1):
            line = b"cell %d %d\n" % (m, a)
            size += len(line)
            if len(head) + size + len(b"end\n") > length:
                return head + b"".join(lines) + b"end\n"
            lines.append(line)
    return head + b"".join(lines) + b"end\n"


def documents():
    yield "a line of letters", b"a" * DOCUMENT, refused("BadWord", 1)
    yield "a line of letters, a byte too long", b"a" * (DOCUMENT + 1), refused("TooLong", 0)
    yield "empty lines", b"\n" * DOCUMENT, refused("NoEnd", DOCUMENT + 1)
    yield "one word a line", b"a\n" * (DOCUMENT // 2), refused("BadWord", 1)
    yield "one comment a line", b"#\n" * (DOCUMENT // 2), refused("NoEnd", DOCUMENT // 2 + 1)
    yield "digits", b"1" * DOCUMENT, refused("BadWord", 1)
    yield "a size of many digits", filled(b"grid ", b"1", DOCUMENT), refused("BadNumber", 1)
    yield "a row of many words", filled(b"grid 2\nO ", b"1 ", DOCUMENT), refused("BadCount", 2)
    yield "bytes 0", b"\0" * DOCUMENT, refused("BadWord", 1)
    yield "bytes 255", b"\xff" * DOCUMENT, refused("BadWord", 1)
    yield "carriage returns", b"\r" * DOCUMENT, refused("BadWord", 1)
    yield "a chain of one state again and again", filled(SMALL + b"chain", b" 01", DOCUMENT), refused("RepeatedState", 4)
    yield "blank lines after end", filled(SMALL + b"end\n", b"\n", DOCUMENT), (0, b"")


def states(size):
    """The words of the states of a size, ascending."""
    return (bytes(48 + row for row in state) for state in itertools.permutations(range(size)))


def of_size_ten():
    """Documents at the limits of size ten."""
    yield "a grid of eleven columns", filled(b"grid 11\n", b"#", DOCUMENT), refused("BadNumber", 1)
    yield "a picture of eleven columns", b"picture 11\n", refused("BadNumber", 1)
    yield "a grid of eleven columns in version 2", b"grid2 11\n", refused("BadNumber", 1)
    yield "a picture in version 2", b"picture2 10\n", refused("BadWord", 1)
    yield "a row number 10 in ten columns", b"grid 10\nO 10 0 1 2 3 4 5 6 7 8\n", refused("BadNumber", 2)
    yield "a stabilisation of ten columns", TEN + b"stab 9 nw\nend\n", refused("SizeLimit", 4)
    yield "a stabilisation of column 10", TEN + b"stab 10 nw\nend\n", refused("BadNumber", 4)
    yield "two stabilisations of nine columns", NINE + b"stab 8 se\nstab 9 se\nend\n", refused("SizeLimit", 5)
    yield "a block in the last column", TEN + b"destab 9 0 nw\nend\n", refused("BadNumber", 4)
    yield "a state of nine digits", TEN + b"border 012345678\nend\n", refused("BadState", 4)
    yield "a state of eleven digits", TEN + b"border 01234567899\nend\n", refused("BadState", 4)
    there_and_back = b"stab 8 se\ndestab 8 3 se\n" * 128
    yield "nine and ten columns in turn", NINE + there_and_back + b"end\n", (0, b"")
    yield "the same, a command too many", NINE + there_and_back + b"stab 8 se\nend\n", refused("TooMany", 260)
    some = list(itertools.islice(states(10), (DOCUMENT - len(TEN) - len(b"chain\nshow\nend\n")) // len(b" 0123456789")))
    chain = b" ".join([b"chain", *some]) + b"\n"
    backwards = b" ".join([b"chain", *some[::-1]]) + b"\n"
    yield "a chain of as many states as there is room", TEN + backwards + b"show\nend\n", (0, chain)
    shorter = b" ".join([b"chain", *some[:5700]]) + b"\n"
    turns = b"turn up\n" * 250
    yield "a chain of 5,700 states turned 250 times", TEN + shorter + turns + b"show\nend\n", (0, shorter)


def pairs():
    """Pairs of documents at the limits. A fault of the second one has its line in the whole text."""
    done = SMALL + b"end\n"
    same = b"tb -1 -1 same\nrot 0 0 same\ntable same\nhat same\nclass + alive alive same\nclass - alive alive same\n"
    lines = lambda text: text.count(b"\n")
    yield "lines next alone", b"next\n" * (DOCUMENT // 5), refused("NoEnd", 1)
    yield "empty lines", b"\n" * DOCUMENT, refused("NoEnd", DOCUMENT + 1)
    alone = filled(done, b"\n", DOCUMENT)
    yield "one document and empty lines", alone, refused("NoNext", lines(alone) + 1)
    half = filled(done + b"next\n", b"\n", DOCUMENT)
    yield "nothing after next but empty lines", half, refused("NoEnd", lines(half) + 1)
    yield "a pair at the limit", filled(done, b"#\n", DOCUMENT, b"\n\t next \r\n" + done), (0, same)
    yield "a pair a byte too long", filled(done, b"#\n", DOCUMENT + 1, b"\nnext\n" + done), refused("TooLong", 0)
    again = filled(done + b"next\n" + done, b"next\n", DOCUMENT)
    yield "lines next after the second document", again, refused("AfterEnd", 10)
    many = SMALL + b"ranks\n" * 256 + b"end\n"
    yield "as many commands as there may be, twice", many + b"next\n" + many, (0, same)
    more = SMALL + b"ranks\n" * 257 + b"end\n"
    yield "a command too many in the second", many + b"next\n" + more, refused("TooMany", lines(many) + 1 + 260)
    yield "a command too many in each", more + b"next\n" + more, refused("TooMany", 260)
    yield "bytes 0 after next", filled(done + b"next\n", b"\0", DOCUMENT), refused("BadWord", 6)
    yield "a picture with a row next", b"picture 4\nnext\nnext\n", refused("NoEnd", 2)


def certificates():
    yield "a line of letters", b"a" * CERTIFICATE, refused("BadLine", 1)
    yield "a line of letters, a byte too long", b"a" * (CERTIFICATE + 1), refused("TooLong", 0)
    yield "empty lines", b"\n" * CERTIFICATE, refused("BadLine", 1)
    yield "bytes 0", b"\0" * CERTIFICATE, refused("BadLine", 1)
    yield "a certificate of version 2", filled(b"gridcert 1\ngrid2 2\n", b"\n", CERTIFICATE), refused("BadLine", 2)
    yield "cells without pairs", empty_cells(CERTIFICATE), (6, b"no 1 count\n")
    head = b"gridcert 1\n" + SIX + b"cell 0 0\n"
    yield "a set of one state again and again", filled(head + b"cycle", b" 012345", CERTIFICATE), refused("BadLine", 6)
    pair = b"cycle\ncocycle\n"
    pairs = head + pair * ((CERTIFICATE - len(head) - 4) // len(pair)) + b"end\n"
    yield "pairs of empty sets", pairs, (6, b"no 1 count\n")


# One run, in a process of its own that is small, so that the greatest memory is that of the program: the status, the
# seconds and the megabytes, and then what was written.
MEASURED = """
import resource, subprocess, sys, time
before = time.perf_counter()
with open(sys.argv[3], "rb") as text:
    done = subprocess.run(sys.argv[1:3], stdin=text, stdout=subprocess.PIPE)
seconds = time.perf_counter() - before
peak = resource.getrusage(resource.RUSAGE_CHILDREN).ru_maxrss / 1024
sys.stdout.buffer.write(b"%d %f %d\\n" % (done.returncode, seconds, peak) + done.stdout)
"""


def run(program, word, text):
    with tempfile.NamedTemporaryFile() as file:
        file.write(text)
        file.flush()
        command = [sys.executable, "-c", MEASURED, program, word, file.name]
        head, written = subprocess.run(command, stdout=subprocess.PIPE, check=True).stdout.split(b"\n", 1)
    status, seconds, peak = head.split()
    return (int(status), written), float(seconds), int(peak)


def try_text(program, word, name, text, asked):
    ended, seconds, peak = run(program, word, text)
    right = ended == asked
    print(f"{word:7}  {len(text):>10}  {seconds:6.3f} s  {peak:5} MB  {'' if right else 'WRONG '}{name}")
    if not right:
        print(f"       status {ended[0]}, {ended[1][:80]!r}")
    return right


def main():
    program = sys.argv[1] if len(sys.argv) > 1 else str(TOP / "crates/grid_cli/out/grid_cli")
    one = run(program, "run", SIX + b"ranks\nend\n")[0][1]
    tables = ("a table asked for 256 times", SIX + b"ranks\n" * 256 + b"end\n", (0, one * 256))
    results = [try_text(program, "run", *text) for text in [*documents(), *of_size_ten(), tables]]
    results += [try_text(program, "compare", *text) for text in pairs()]
    results += [try_text(program, "check", *text) for text in certificates()]
    print(f"{sum(results)} of {len(results)} texts answered as the formats ask")
    sys.exit(0 if all(results) else 1)


main()
