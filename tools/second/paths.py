"""Paths of moves from one grid to another: turns, commutations, stabilisations and their undoing."""
from second import moves
from second.documents import CHOICES, Command, grid_after

BACK = {"left": "right", "right": "left", "up": "down", "down": "up"}


def commutations(grid):
    """The axis and the number of each commutation that the grid allows."""
    return [(axis, c) for axis in CHOICES["axis"] for c in range(grid.size) if moves.commute(axis, grid, c)]


def blocks(grid):
    """The column, the row and the square of each `destab` that the grid allows."""
    places = range(grid.size - 1)
    found = [(c, r, square) for c in places for r in places for square in CHOICES["square"]]
    return [it for it in found if moves.has_block(grid, *it)]


def steps(grid, greatest):
    """The moves that lead from a grid to grids of at most the greatest size."""
    found = [Command("turn", (side,)) for side in BACK]
    found += [Command(axis, (c, "over")) for axis, c in commutations(grid)]
    found += [Command("destab", place) for place in blocks(grid)]
    if grid.size < greatest:
        found += [Command("stab", (c, square)) for c in range(grid.size) for square in CHOICES["square"]]
    return found


def undone(step, grid):
    """The move that undoes a step from the grid."""
    word, arguments = step
    if word == "turn":
        return Command(word, (BACK[arguments[0]],))
    if word == "stab":
        return Command("destab", (arguments[0], grid.x[arguments[0]], arguments[1]))
    if word == "destab":
        return Command("stab", (arguments[0], arguments[2]))
    return step


def widened(reached, fringe, greatest, is_end):
    """The next fringe of a search, whose grids have been put into `reached`: each with the grid and the step before it.

    A search from the end goes against its steps.
    """
    found = []
    for grid in fringe:
        for step in steps(grid, greatest):
            other = grid_after(step, grid)
            if other not in reached:
                reached[other] = grid, undone(step, grid) if is_end else step
                found.append(other)
    return found


def way(reached, grid):
    """The steps of a search that lead to a grid, the last one first."""
    found = []
    while reached[grid]:
        grid, step = reached[grid]
        found.append(step)
    return found


def path(first, last, greatest, most=400_000):
    """A shortest path between two grids, through grids of at most the greatest size; None if the search is given up."""
    forwards, backwards = {first: None}, {last: None}
    fringes = [first], [last]
    while not (meeting := forwards.keys() & backwards.keys()):
        if len(forwards) + len(backwards) > most:
            return None
        if len(fringes[0]) <= len(fringes[1]):
            fringes = widened(forwards, fringes[0], greatest, False), fringes[1]
        else:
            fringes = fringes[0], widened(backwards, fringes[1], greatest, True)
        if not all(fringes):
            return None
    middle = min(meeting)
    return way(forwards, middle)[::-1] + way(backwards, middle)
