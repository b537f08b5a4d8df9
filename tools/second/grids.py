"""Grids and states by their definitions: components, degrees, borders, fronts, the states x+ and x-.

A grid has two tuples, the rows of the O and of the X of each column. A state is a tuple, the row of its point on each
circle, and a chain a frozenset of states.
"""
import functools
import itertools
from typing import NamedTuple


class Grid(NamedTuple):
    o: tuple
    x: tuple

    @property
    def size(self):
        return len(self.o)


class Rectangle(NamedTuple):
    left: int
    right: int
    low: int
    high: int


@functools.lru_cache(maxsize=None)
def range_of(n, a, b):
    """The range from a to b, mod n, in the order in which it is met."""
    return tuple((a + k) % n for k in range((b - a) % n))


def inverse(rows):
    return tuple(rows.index(r) for r in range(len(rows)))


def transposed(grid):
    return Grid(inverse(grid.o), inverse(grid.x))


def states(n):
    """All states, ascending."""
    return itertools.permutations(range(n))


@functools.lru_cache(maxsize=4096)
def components(grid):
    """The columns of each component, in the order of their least columns."""
    found, left = [], set(range(grid.size))
    while left:
        cycle, column = [], min(left)
        while column in left:
            left.remove(column)
            cycle.append(column)
            column = grid.o.index(grid.x[column])
        found.append(tuple(cycle))
    return tuple(found)


# Degrees. A point of a state is at (2 c, 2 r), a mark at (2 c + 1, 2 r + 1).


def points(state):
    return [(2 * c, 2 * r) for c, r in enumerate(state)]


def marks(rows, columns=None):
    return [(2 * c + 1, 2 * rows[c] + 1) for c in (range(len(rows)) if columns is None else columns)]


def lower_left_pairs(p, q):
    """How many pairs of a point of p and a point of q have the first strictly left of and strictly below the second."""
    return sum(a < c and b < d for a, b in p for c, d in q)


def pairs_either_way(p, q):
    return lower_left_pairs(p, q) + lower_left_pairs(q, p)


@functools.lru_cache(maxsize=8192)
def pairs_with_marks(rows, columns):
    """For each place of a point, by circle and row: its pairs, either way, with the marks of these columns."""
    n, some = len(rows), marks(rows, columns)
    return [[pairs_either_way([(2 * c, 2 * r)], some) for r in range(n)] for c in range(n)]


def of_points(table, state):
    return sum(table[c][r] for c, r in enumerate(state))


@functools.lru_cache(maxsize=1 << 16)
def pairs_within(state):
    return lower_left_pairs(points(state), points(state))


@functools.lru_cache(maxsize=4096)
def maslov_constant(rows):
    return lower_left_pairs(marks(rows), marks(rows)) + 1


def maslov_by(rows, state):
    table = pairs_with_marks(rows, tuple(range(len(rows))))
    return pairs_within(state) - of_points(table, state) + maslov_constant(rows)


def half(number):
    if number % 2:
        raise ValueError(f"a degree is half of {number}")
    return number // 2


def degree(grid, state):
    """The Maslov and the Alexander degree."""
    m = maslov_by(grid.o, state)
    return m, half(m - maslov_by(grid.x, state) - (grid.size - len(components(grid))))


@functools.lru_cache(maxsize=64)
def degrees(grid):
    """The degrees of all states."""
    return {s: degree(grid, s) for s in states(grid.size)}


@functools.lru_cache(maxsize=4096)
def component_constant(grid, columns):
    """What the marks of the grid, and the number of columns, give to twice the degree at a component."""
    x, o = marks(grid.x, columns), marks(grid.o, columns)
    balance = lambda p: pairs_either_way(p, x) - pairs_either_way(p, o)
    return -balance(marks(grid.x)) - balance(marks(grid.o)) - 2 * (len(columns) - 1)


def component_degrees(grid, state):
    """The doubled degrees of a state at the components."""
    found = []
    for columns in components(grid):
        x, o = pairs_with_marks(grid.x, columns), pairs_with_marks(grid.o, columns)
        found.append(half(2 * (of_points(x, state) - of_points(o, state)) + component_constant(grid, columns)))
    return tuple(found)


# Borders.


def swapped_points(state, a, b):
    other = list(state)
    other[a], other[b] = state[b], state[a]
    return tuple(other)


def empty_rectangles(state):
    """The empty rectangles that lead on from a state, each with the state to which it leads."""
    n = len(state)
    for a, b in itertools.permutations(range(n), 2):
        rows = range_of(n, state[a], state[b])
        if not any(state[c] in rows for c in range_of(n, a, b)[1:]):
            yield Rectangle(a, b, state[a], state[b]), swapped_points(state, a, b)


def has_mark(grid, columns, rows):
    return any(grid.o[c] in rows or grid.x[c] in rows for c in columns)


@functools.lru_cache(maxsize=1 << 18)
def is_unmarked(grid, r):
    n = grid.size
    return not has_mark(grid, range_of(n, r.left, r.right), range_of(n, r.low, r.high))


def reached(chain, counts):
    """The states to which an odd number of empty rectangles that count lead from the states of a chain."""
    found = set()
    for state in chain:
        for rectangle, other in empty_rectangles(state):
            if counts(rectangle):
                found ^= {other}
    return frozenset(found)


@functools.lru_cache(maxsize=1 << 18)
def border_of_state(grid, state):
    return reached([state], lambda r: is_unmarked(grid, r))


def border(grid, chain):
    found = frozenset()
    for state in chain:
        found ^= border_of_state(grid, state)
    return found


# Fronts.


class Front(NamedTuple):
    tb: int
    rot: int
    components: int


def sign_between(a, b):
    return (b > a) - (b < a)


def crossing_sign(grid, column, row):
    """The sign of the crossing of a column and a row, 0 if they do not cross."""
    o, x = grid.o[column], grid.x[column]
    o_of_row, x_of_row = grid.o.index(row), grid.x.index(row)
    if not (min(o, x) < row < max(o, x) and min(o_of_row, x_of_row) < column < max(o_of_row, x_of_row)):
        return 0
    return -sign_between(x, o) * sign_between(o_of_row, x_of_row)


def corners(rows, others):
    """How many of the marks of these rows are NE corners, and how many SW corners."""
    ne = sw = 0
    for column, row in enumerate(rows):
        vertical = sign_between(row, others[column])
        horizontal = sign_between(column, others.index(row))
        ne += vertical < 0 and horizontal < 0
        sw += vertical > 0 and horizontal > 0
    return ne, sw


def front(grid):
    ne_o, sw_o = corners(grid.o, grid.x)
    ne_x, sw_x = corners(grid.x, grid.o)
    signs = sum(crossing_sign(grid, c, r) for c in range(grid.size) for r in range(grid.size))
    return Front(-signs - ne_o - ne_x, half(ne_x + sw_o - ne_o - sw_x), len(components(grid)))


def plus_state(grid):
    n = grid.size
    return tuple((grid.x[c - 1] + 1) % n for c in range(n))


def minus_state(grid):
    return grid.x
