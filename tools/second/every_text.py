"""All grids of a size, and for each of them documents that ask for all that may be asked of it and of its states."""
from second import moves
from second.documents import CHOICES, MAX_COMMANDS, Command
from second.grids import Grid, states
from second.paths import blocks, commutations
from second.random_texts import words_of_command

# Each state of grids of at most this size is asked for.
FOLLOWED = 4


def grids(n):
    for o in states(n):
        for x in states(n):
            if all(a != b for a, b in zip(o, x)):
                yield Grid(o, x)


def alone(word, *arguments):
    return [Command(word, arguments)]


def across(grid, state):
    """Groups of commands that follow a state across each commutation, and there and back."""
    for axis, c in commutations(grid):
        for corner in CHOICES["corner"]:
            chain, move = alone("chain", state), alone(axis, c, corner)
            yield chain + alone("invert", axis, c, corner) + move + alone("show") + move


def of_symmetries(state):
    for word in moves.SYMMETRIES:
        yield alone("chain", state) + alone(word) + alone("show") + alone("front") + alone(word)


def groups(grid):
    """Groups of commands after each of which the grid is in force again."""
    for word in ("front", "ranks", "hat", "coranks", "euler"):
        yield alone(word)
    for sign in CHOICES["sign"]:
        yield alone("class", sign)
    for state in states(grid.size) if grid.size <= FOLLOWED else ():
        yield alone("border", state)
        yield alone("chain", state) + alone("bounds")
        yield from across(grid, state)
        yield from of_symmetries(state)
    for c in range(grid.size):
        for square in CHOICES["square"]:
            yield alone("stab", c, square) + alone("front") + alone("destab", c, grid.x[c], square)
    for c, row, square in blocks(grid):
        yield alone("destab", c, row, square) + alone("front") + alone("stab", c, square)


def document(head, grid, commands):
    lines = [[head, grid.size], ["O", *grid.o], ["X", *grid.x], *map(words_of_command, commands), ["end"]]
    return "".join(" ".join(map(str, words)) + "\n" for words in lines).encode()


def texts(grid):
    """Documents of the grid, with as many commands as there may be, and one of version 2."""
    commands = []
    for group in groups(grid):
        if len(commands) + len(group) > MAX_COMMANDS:
            yield document("grid", grid, commands)
            commands = []
        commands += group
    yield document("grid", grid, commands)
    yield document("grid2", grid, alone("ranks") + alone("hat"))


def calls(some):
    """The calls for these grids: words and input."""
    for grid in some:
        for text in texts(grid):
            yield ["run"], text
