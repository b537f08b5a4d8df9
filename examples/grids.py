#!/usr/bin/env python3
"""Writes the document of a grid for an arc presentation or a closed braid, to standard output.

    python3 examples/grids.py arcs 0,3 1,4 2,0 3,1 4,2   for each page, from the left, the levels that its arc joins
    python3 examples/grids.py braid 1,-2,1,-2            letters: i, or -i for the inverse, by its lower strand

Brackets and spaces may stand anywhere, as in '[[4,1],[5,2],[1,3],[2,4],[3,5]]' or '{1, -2, 1, -2}'. Levels count from 0,
or from 1 if no arc joins level 0.

The grid of an arc presentation with n pages has n columns. That of a braid is made smaller by destabilisations and
commutations, chosen at random from a fixed seed. In the braid 1 the lower strand passes over the upper one as both run
to the right, so that 1,1,1 is the left-handed trefoil. What makes no grid, or one with more columns than the program
takes, is refused in one line, with status 1.
"""
import random
import re
import sys

COMMANDS = ["front", "hat", "class +", "class -"]
MAX_COLUMNS = 10


def refuse(why):
    sys.exit(f"grids.py: {why}")


def of_arcs(numbers):
    """The rows of O and X: each component is walked from an arc's first level to its second."""
    if not numbers or len(numbers) % 2:
        refuse("an arc joins two levels")
    base, size = min(1, *numbers), len(numbers) // 2
    arcs = [(a - base, b - base) for a, b in zip(numbers[::2], numbers[1::2])]
    if sorted(level for arc in arcs for level in arc) != sorted([*range(size)] * 2):
        refuse(f"each of the {size} levels, counted from 0 or from 1, is to be joined by two arcs")
    if any(a == b for a, b in arcs):
        refuse("an arc joins a level to itself")
    o, x = [None] * size, [None] * size
    for start in range(size):
        column, level = start, arcs[start][0]
        while o[column] is None:
            first, second = arcs[column]
            x[column], o[column] = level, second if level == first else first
            level = o[column]
            column = next(c for c in range(size) if level in arcs[c] and c != column)
    return o, x


def of_braid(letters):
    """The rows of O and X, one column for each letter and two for each strand."""
    if not letters:
        refuse("the braid has no letters")
    if 0 in letters:
        refuse("0 is no letter of a braid")
    if len(letters) + 2 * max(map(abs, letters)) > 200:
        refuse("the braid has too many letters or strands")
    strands = max(map(abs, letters)) + 1
    rows = [*range(strands)]  # all rows so far, from the bottom
    at = [*range(strands)]  # the rows of the strands, from the bottom
    new, columns = strands, []
    for letter in letters:
        i = abs(letter) - 1
        over, under = (i, i + 1) if letter > 0 else (i + 1, i)
        place = rows.index(at[under])
        rows.insert(place + 1 if letter > 0 else place, new)
        columns.append((at[over], new))  # the strand comes at an X, and leaves at an O
        at[over], at[under] = at[under], new
        new += 1
    back = [new + strands - 1 - p for p in range(strands)]
    rows += sorted(back)
    left = [(back[p], p) for p in range(strands)]
    right = [(at[p], back[p]) for p in reversed(range(strands))]
    columns = left + columns + right
    return [rows.index(o) for _, o in columns], [rows.index(x) for x, _ in columns]


def transposed(o, x):
    return [o.index(r) for r in range(len(o))], [x.index(r) for r in range(len(x))]


def shortened(o, x):
    """The grid without a column whose marks stand in neighbouring rows, or None."""
    for c in range(len(o)):
        if abs(o[c] - x[c]) == 1 and len(o) > 2:
            low = min(o[c], x[c])
            drop = lambda marks: [r - (r > low) for k, r in enumerate(marks) if k != c]
            if all(a != b for a, b in zip(drop(o), drop(x))):
                return drop(o), drop(x)
    return None


def exchanged(o, x, c):
    """The grid with columns c - 1 and c exchanged, or None if they do not commute."""
    first, second = {o[c - 1], x[c - 1]}, {o[c], x[c]}
    low, high = sorted(first)
    if first & second or len([r for r in second if low < r < high]) == 1:
        return None
    o, x = o[:], x[:]
    o[c - 1], o[c], x[c - 1], x[c] = o[c], o[c - 1], x[c], x[c - 1]
    return o, x


def smaller(o, x, steps=20000):
    """A grid of the same link, with fewer columns if that is found."""
    chance = random.Random(1)
    for _ in range(steps):
        turned = chance.random() < 0.5
        grid = transposed(o, x) if turned else (o, x)
        found = shortened(*grid) or exchanged(*grid, chance.randrange(len(o)))
        if found:
            o, x = transposed(*found) if turned else found
    return o, x


def document(o, x, comment):
    words = lambda marks: " ".join(map(str, marks))
    return "\n".join([f"# {comment}", f"grid {len(o)}", f"O {words(o)}", f"X {words(x)}", *COMMANDS, "end"])


def main():
    if len(sys.argv) < 3 or sys.argv[1] not in ("arcs", "braid"):
        sys.exit(__doc__)
    words = " ".join(" ".join(sys.argv[2:]).split())
    if re.sub(r"[-+]?[0-9]+", "", words).strip(" ,;()[]{}"):
        refuse(f"there is more than whole numbers, commas and brackets in {words}")
    numbers = [int(it) for it in re.findall(r"[-+]?[0-9]+", words)]
    o, x = of_arcs(numbers) if sys.argv[1] == "arcs" else smaller(*of_braid(numbers))
    if len(o) > MAX_COLUMNS:
        refuse(f"the grid has {len(o)} columns, and the program takes at most {MAX_COLUMNS}")
    print(document(o, x, f"{sys.argv[1]} {words}"))


if __name__ == "__main__":
    main()
