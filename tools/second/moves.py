"""What moves do to grids, and what becomes of chains: turns, commutations, stabilisations, symmetries.

Functions of columns are used for rows too, on the transposed grid.
"""
from second.grids import (
    Grid,
    has_mark,
    inverse,
    range_of,
    reached,
    transposed,
)

SIDES = {"left": (1, 0), "right": (-1, 0), "up": (0, 1), "down": (0, -1)}

# Of each square of a block, its column and its row in it.
SQUARES = {"nw": (0, 1), "ne": (1, 1), "sw": (0, 0), "se": (1, 0)}

MAX_SIZE = 10


def turned_rows(rows, side):
    """Rows of marks or of points after a turn to a side."""
    n, (next_column, up) = len(rows), SIDES[side]
    return tuple((rows[(c + next_column) % n] + up) % n for c in range(n))


def turned(grid, side):
    return Grid(turned_rows(grid.o, side), turned_rows(grid.x, side))


# Symmetries, by the word of their command. No chain is followed across the mirror image.


def half_turned(rows):
    n = len(rows)
    return tuple(n - 1 - rows[n - 1 - c] for c in range(n))


def half_turned_state(state):
    n = len(state)
    return tuple(-state[-c % n] % n for c in range(n))


SYMMETRIES = {
    "flip": transposed,
    "half": lambda grid: Grid(half_turned(grid.o), half_turned(grid.x)),
    "mirror": lambda grid: Grid(grid.o[::-1], grid.x[::-1]),
    "marks": lambda grid: Grid(grid.x, grid.o),
}

SYMMETRIC_STATES = {"flip": inverse, "half": half_turned_state, "marks": lambda state: state}


def carried(chain, of_state):
    return frozenset(of_state(state) for state in chain)


# Commutations.


def columns_commute(grid, c):
    """Whether columns c - 1 and c commute."""
    rows = range_of(grid.size, grid.o[c - 1], grid.x[c - 1])
    four = {grid.o[c - 1], grid.x[c - 1], grid.o[c], grid.x[c]}
    return len(four) == 4 and (grid.o[c] in rows) == (grid.x[c] in rows)


def exchanged_columns(grid, c):
    o, x = list(grid.o), list(grid.x)
    o[c - 1], o[c], x[c - 1], x[c] = o[c], o[c - 1], x[c], x[c - 1]
    return Grid(tuple(o), tuple(x))


def by_axis(axis, of_columns, grid, *others):
    """The grid that a function of columns gives, on columns or on rows."""
    if axis == "cols":
        return of_columns(grid, *others)
    return transposed(of_columns(transposed(grid), *others))


def commute(axis, grid, c):
    return columns_commute(grid if axis == "cols" else transposed(grid), c)


def exchanged(axis, grid, c):
    return by_axis(axis, exchanged_columns, grid, c)


def crossing_row(grid, c, corner):
    """The row in which the old and the new circle c cross, for this corner."""
    n = grid.size
    of_l, of_r = {grid.o[c - 1], grid.x[c - 1]}, {grid.o[c], grid.x[c]}
    upwards = lambda row: [(row + k) % n for k in range(n)]
    if corner == "over":
        return next(row for row in upwards(min(of_l)) if row in of_r)
    return [row for row in upwards(min(of_r)) if row in of_l][-1]


def is_unmarked_beside(grid, c, r):
    """Whether no column of the rectangle but c - 1 and c has a mark in its rows."""
    n = grid.size
    columns = [d for d in range_of(n, r.left, r.right) if d not in ((c - 1) % n, c)]
    return not has_mark(grid, columns, range_of(n, r.low, r.high))


def is_pentagonal(grid, c, w, r):
    n = grid.size
    return (
        c in (r.left, r.right)
        and w in range_of(n, r.low, r.high)
        and is_unmarked_beside(grid, c, r)
        and not has_mark(grid, [c], range_of(n, r.low, w))
        and not has_mark(grid, [c - 1], range_of(n, (w + 1) % n, r.high))
    )


def is_hexagonal(grid, c, w, v, r):
    rows = range_of(grid.size, r.low, r.high)
    if v not in rows or w not in rows or not is_unmarked_beside(grid, c, r):
        return False
    return (r.right if rows.index(v) < rows.index(w) else r.left) == c


def column_image(grid, c, corner, chain):
    w = crossing_row(grid, c, corner)
    return reached(chain, lambda r: is_pentagonal(grid, c, w, r))


def column_homotopy(grid, c, corner, chain):
    w, v = crossing_row(grid, c, corner), crossing_row(exchanged_columns(grid, c), c, corner)
    return reached(chain, lambda r: is_hexagonal(grid, c, w, v, r))


def of_chain(axis, of_columns, grid, c, corner, chain):
    """The chain that a function of columns gives, on columns or on rows."""
    if axis == "cols":
        return of_columns(grid, c, corner, chain)
    return carried(of_columns(transposed(grid), c, corner, carried(chain, inverse)), inverse)


def image(axis, grid, c, corner, chain):
    return of_chain(axis, column_image, grid, c, corner, chain)


def homotopy(axis, grid, c, corner, chain):
    return of_chain(axis, column_homotopy, grid, c, corner, chain)


def image_there_and_back(axis, grid, c, corner, chain):
    return image(axis, exchanged(axis, grid, c), c, corner, image(axis, grid, c, corner, chain))


# Stabilisations. A grid is taken as its squares with marks: the place, a column and a row, of each.


def placed(squares):
    """The grid of its squares, a set of (column, row) for O and one for X."""
    return Grid(*(tuple(row for _, row in sorted(some)) for some in squares))


def stabilised(grid, c, square):
    """The grid after a stabilisation at the X of column c, with this square empty."""
    row = grid.x[c]
    east, north = SQUARES[square]
    of_column = lambda d: d + (d > c) if d != c else c + east
    of_row = lambda r: r + (r > row) if r != row else row + north
    o = [(of_column(d), of_row(r)) for d, r in enumerate(grid.o)] + [(c + 1 - east, row + 1 - north)]
    x = [(of_column(d), of_row(r)) for d, r in enumerate(grid.x) if d != c]
    return placed((o, x + [(c + 1 - east, row + north), (c + east, row + 1 - north)]))


def has_block(grid, c, row, square):
    """Whether the block of a stabilisation with this square empty is in columns c, c + 1 and these rows."""
    if c + 1 >= grid.size or row + 1 >= grid.size:
        return False
    east, north = SQUARES[square]
    column, other = c + east, c + 1 - east
    is_empty = row + north not in (grid.o[column], grid.x[column])
    return is_empty and grid.o[other] == row + 1 - north == grid.x[column] and grid.x[other] == row + north


def destabilised(grid, c, row, square):
    """The grid of which this one is the stabilisation."""
    east, north = SQUARES[square]
    block = {(d, r) for d in (c, c + 1) for r in (row, row + 1)}
    shrunk = lambda place: (place[0] - (place[0] > c), place[1] - (place[1] > row))
    o, x = ([shrunk(it) for it in enumerate(rows) if it not in block] for rows in (grid.o, grid.x))
    return placed((o, x + [(c, row)]))
