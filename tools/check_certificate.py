#!/usr/bin/env python3
"""A second checker of certificates, written from docs/FORMATS.md alone: `yes`, or `no E T` with the first test that fails.

It is neither proved nor part of the program. It takes the text to be that of a certificate.

    tools/check_certificate.py < CERTIFICATE
"""
import itertools
import sys


class Grid:
    def __init__(self, o, x):
        self.o, self.x, self.n = o, x, len(o)
        self.states = list(itertools.permutations(range(self.n)))
        self.borders = {s: self.border_of_state(s) for s in self.states}
        self.degrees = {s: self.degree(s) for s in self.states}

    def is_in(self, a, b, i):
        """Whether i is in the range from a to b."""
        return (i - a) % self.n < (b - a) % self.n

    def counts(self, s, a, b):
        """Whether the rectangle of the circles a and b is empty and has no mark."""
        columns = [c for c in range(self.n) if self.is_in(a, b, c)]
        rows = [r for r in range(self.n) if self.is_in(s[a], s[b], r)]
        marks = [m[c] for m in (self.o, self.x) for c in columns]
        points = [s[c] for c in columns if c != a]
        return not set(rows) & set(marks + points)

    def border_of_state(self, s):
        border = set()
        for a, b in itertools.permutations(range(self.n), 2):
            if self.counts(s, a, b):
                t = list(s)
                t[a], t[b] = s[b], s[a]
                border ^= {tuple(t)}
        return border

    def border(self, chain):
        border = set()
        for s in chain:
            border ^= self.borders[s]
        return border

    def components(self):
        left, count = set(range(self.n)), 0
        while left:
            count += 1
            c = min(left)
            while c in left:
                left.remove(c)
                c = self.o.index(self.x[c])
        return count

    def degree(self, s):
        """The Maslov and the Alexander degree, with all coordinates doubled."""

        def below(p, q):
            return sum(a < c and b < d for a, b in p for c, d in q)

        def maslov(marks):
            points = [(2 * c, 2 * s[c]) for c in range(self.n)]
            middle = [(2 * c + 1, 2 * r + 1) for c, r in enumerate(marks)]
            return below(points, points) - below(points, middle) - below(middle, points) + below(middle, middle) + 1

        return maslov(self.o), (maslov(self.o) - maslov(self.x) - (self.n - self.components())) // 2


def read(lines):
    """The grid, and the cells: a bidegree, the cycle pairs and the step pairs."""
    words = [line.split() for line in lines]
    grid = Grid([int(w) for w in words[2][1:]], [int(w) for w in words[3][1:]])
    cells = []
    for first, *rest in words[4:-1]:
        if first == "cell":
            cells.append(((int(rest[0]), int(rest[1])), [], []))
            continue
        pairs = cells[-1][1 if first in ("cycle", "cocycle") else 2]
        states = {tuple(map(int, word)) for word in rest}
        if first in ("cycle", "step"):
            pairs.append((states,))
        else:
            pairs[-1] += (states,)
    return grid, cells


def is_odd(z, f):
    return len(z & f) % 2 == 1


def tests(grid, cells):
    """The tests in order: the number of the entry, the word, and whether it is passed."""
    steps_of = {degree: len(steps) for degree, _, steps in cells}
    degrees = list(grid.degrees.values())
    entry = 0
    for (m, a), cycles, steps in cells:
        entry += 1
        asked = len(cycles) + len(steps) + steps_of.get((m + 1, a), 0)
        yield entry, "count", degrees.count((m, a)) == asked > 0
        for cycle, cocycle in cycles:
            entry += 1
            yield entry, "degree", all(grid.degrees[s] == (m, a) for s in cycle | cocycle)
            yield entry, "cycle", not grid.border(cycle)
            yield entry, "cocycle", not any(is_odd(grid.borders[s], cocycle) for s in grid.states)
            yield entry, "pairing", [is_odd(pair[0], cocycle) for pair in cycles].count(True) == 1 and is_odd(cycle, cocycle)
        borders = [grid.border(step) for step, _ in steps]
        for k, (step, probe) in enumerate(steps):
            entry += 1
            of_step = all(grid.degrees[s] == (m, a) for s in step)
            yield entry, "degree", of_step and all(grid.degrees[s] == (m - 1, a) for s in probe)
            yield entry, "probe", is_odd(borders[k], probe) and not any(is_odd(z, probe) for z in borders[k + 1 :])
    yield entry + 1, "missing", set(degrees) <= {degree for degree, _, _ in cells}


def main():
    for entry, word, passed in tests(*read(sys.stdin.read().splitlines())):
        if not passed:
            print("no", entry, word)
            return
    print("yes")


if __name__ == "__main__":
    main()
