#!/usr/bin/env python3
"""A second gridhom, written from docs/FORMATS.md and docs/DEFINITIONS.md alone. It is slow, and not proved.

    tools/second_program.py run < DOCUMENT
    tools/second_program.py compare < PAIR
    tools/second_program.py make --size N --seed K
    tools/second_program.py cert < DOCUMENT        what is refused, alone: it makes no certificate

Ranks are taken by linear algebra on the whole complex, so grids should have at most six columns. Certificates are
checked by check_certificate.py. What is not determined, the states of a line `bound` or `cocycle`, is its own choice;
random_documents.py compares by what must hold of them. The status is that of gridhom.
"""
import sys
from typing import NamedTuple

sys.dont_write_bytecode = True

from second import documents, reports
from second.grids import Grid

DONE, USAGE, REFUSED = 0, 1, 2


class CertificateOf(NamedTuple):
    """What `cert` answers: any certificate of this grid that passes."""

    grid: Grid


class Outcome(NamedTuple):
    status: int
    lines: list


def made_options(words):
    """The size and the seed of the words after `make`, or None."""
    given = {}
    rest = list(words)
    while rest:
        name, equals, value = rest.pop(0).partition("=")
        if not equals and rest:
            value = rest.pop(0)
        elif not equals:
            return None
        if name not in ("--size", "--seed") or name in given:
            return None
        given[name] = value
    size = documents.number_of(given.get("--size", ""), documents.SIZES)
    seed = documents.number_of(given.get("--seed", ""), range(2**31))
    return None if size is None or seed is None else (size, seed)


def certified(text):
    script = documents.judged(text)
    if script.last_grid.size > documents.MAX_CERTIFIED:
        raise documents.Refused("TooLarge", script.head_line)
    return [CertificateOf(script.last_grid)]


def compared(text):
    first, second = documents.judged_pair(text)
    return reports.comparison(first.last_grid, second.last_grid)


MODES = {"run": lambda text: reports.report(documents.judged(text)), "cert": certified, "compare": compared}


def outcome(words, text):
    """What gridhom answers to words, but for `check`, and to an input."""
    if words[:1] == ["make"]:
        options = made_options(words[1:])
        return Outcome(DONE, reports.made(*options)) if options else Outcome(USAGE, [])
    if len(words) != 1 or words[0] not in MODES:
        return Outcome(USAGE, [])
    try:
        return Outcome(DONE, MODES[words[0]](text))
    except documents.Refused as it:
        return Outcome(REFUSED, [f"refused {it.fault} line {it.line}"])


def main():
    words = sys.argv[1:]
    text = sys.stdin.buffer.read() if words and words[0] in MODES else b""
    status, lines = outcome(words, text)
    for line in lines:
        if isinstance(line, CertificateOf):
            sys.exit("second_program.py makes no certificates")
        print(line if isinstance(line, str) else line.line())
    if status == USAGE:
        print(__doc__, file=sys.stderr)
    sys.exit(status)


if __name__ == "__main__":
    main()
