#!/usr/bin/env python3
"""Writes crates/grid_rows/src/knots.rt to standard output: the grids of this folder with the hats of the literature.

    python3 examples/knots/rows.py > crates/grid_rows/src/knots.rt

So the hats of knots.tsv, and they alone, are what the tests of that crate want. Nothing is run.
"""
import os
import sys

sys.dont_write_bytecode = True
sys.path.insert(0, os.path.dirname(os.path.abspath(__file__)))
from table import document, literature

HEAD = """//! The hats of knots and links, as the literature has them.
//!
//! No line of this file is written by hand: examples/knots/rows.py makes it of the documents there and of knots.tsv."""

# So many grids of the greatest size are tried by one test.
AT_ONCE = 2


def components(grid):
    """The number of components of the link of a grid."""
    o, x = (list(map(int, line.split()[1:])) for line in grid[1:])
    left, count = set(range(len(o))), 0
    while left:
        count, column = count + 1, min(left)
        while column in left:
            left.remove(column)
            column = o.index(x[column])
    return count


def row_of(knot):
    """The size of the grid of a knot, and its row."""
    grid = [line for line in document(knot["file"]).splitlines() if line[0] in "gOX"]
    size, hat = int(grid[0].split()[1]), knot["hat"].split("; ")
    lines = [f"# {knot['name']}", "$ run", *(f"< {line}" for line in grid), "< hat", "< end"]
    lines.append(f"> hat exponent {size - components(grid)} rows {len(hat)}")
    return size, "\n".join([*lines, *(f"> rank {it}" for it in hat)])


def main():
    rows = list(map(row_of, literature()))
    small = [row for size, row in rows if size < 9]
    large = [row for size, row in rows if size == 9]
    tables = [("KNOTS", "Grids of less than nine columns.", small)]
    for number, first in enumerate(range(0, len(large), AT_ONCE), 1):
        tables.append((f"KNOTS_OF_NINE_{number}", "Grids of nine columns.", large[first : first + AT_ONCE]))
    print(HEAD)
    for name, doc, some in tables:
        text = "\n\n".join(some)
        print(f'\n/// {doc}\npub(crate) const {name}: &str = "\n{text}\n";')


if __name__ == "__main__":
    main()
