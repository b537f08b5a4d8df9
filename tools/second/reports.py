"""What answers a script, a pair or the words of `make`: the lines, and of evidence what must hold of it.

An expected line is a text, or an `Evidence`: a word and states that are not determined.
"""
from typing import NamedTuple

from second import homology, moves
from second.documents import Command, Script, grid_after, state_of
from second.grids import Grid, border, degree, front, minus_state, plus_state

SHOWS = {"bound": homology.is_bound, "cocycle": homology.is_cocycle}


def state_word(state):
    return "".join(map(str, state))


def set_line(word, chain):
    return " ".join([word, *map(state_word, sorted(chain))])


class Evidence(NamedTuple):
    """A line `bound` or `cocycle` for a chain, with one that would do."""

    word: str
    grid: Grid
    chain: frozenset
    example: frozenset

    def line(self):
        return set_line(self.word, self.example)

    def allows(self, line):
        """Whether a line shows what is to be shown: its states ascend, and the definition holds of them."""
        word, *rest = line.split(" ")
        found = [state_of(it, self.grid.size) for it in rest]
        if word != self.word or None in found or any(a >= b for a, b in zip(found, found[1:])):
            return False
        return SHOWS[word](self.grid, self.chain, frozenset(found))


def rows_lines(head, rows):
    return [head, *(" ".join(map(str, ["rank", *row])) for row in rows)]


def hat_lines(grid, version):
    rows = homology.hat(grid) if version == 1 else homology.component_hat(grid)
    if rows is None:
        return ["hat none"]
    if version == 1:
        return rows_lines(f"hat exponent {homology.exponent(grid)} rows {len(rows)}", rows)
    exponents = " ".join(map(str, homology.component_exponents(grid)))
    return rows_lines(f"hat exponents {exponents} rows {len(rows)}", rows)


def ranks_lines(grid, version):
    rows = homology.ranks(grid) if version == 1 else homology.component_ranks(grid)
    return rows_lines(f"ranks {len(rows)}", rows)


def coranks_lines(grid):
    rows = homology.coranks(grid)
    return rows_lines(f"coranks {len(rows)}", rows)


def euler_lines(grid):
    rows = homology.euler(grid)
    return [f"euler {len(rows)}", *(f"at {a} {number}" for a, number in rows)]


def front_line(grid):
    of = front(grid)
    return f"front tb {of.tb} rot {of.rot} components {of.components}"


def evidence_of(grid, chain, verdict):
    word, evidence = verdict
    return Evidence("bound" if word == homology.NULL else "cocycle", grid, chain, evidence)


def class_lines(grid, sign):
    state = plus_state(grid) if sign == "+" else minus_state(grid)
    chain = frozenset([state])
    verdict = homology.verdict(grid, chain)
    m, a = degree(grid, state)
    return [f"class {sign} {state_word(state)} at {m} {a} {verdict[0]}", evidence_of(grid, chain, verdict)]


def bounds_lines(grid, chain):
    verdict = homology.verdict(grid, chain)
    if verdict[0] == homology.NOT_CYCLE:
        return [f"bounds notcycle {state_word(verdict[1])}"]
    return [f"bounds {verdict[0]}", evidence_of(grid, chain, verdict)]


def invert_lines(grid, chain, axis, number, corner):
    there_and_back = moves.image_there_and_back(axis, grid, number, corner, chain)
    of_homotopy = moves.homotopy(axis, grid, number, corner, chain)
    return [set_line("return", there_and_back), set_line("homotopy", of_homotopy)]


def answer(command, version, grid, chain):
    """The lines that answer a command for the grid and the chain in force."""
    word, arguments = command
    answers = {
        "front": lambda: [front_line(grid)],
        "ranks": lambda: ranks_lines(grid, version),
        "hat": lambda: hat_lines(grid, version),
        "coranks": lambda: coranks_lines(grid),
        "euler": lambda: euler_lines(grid),
        "border": lambda: [set_line("border", border(grid, frozenset(arguments)))],
        "show": lambda: [set_line("chain", chain)],
        "class": lambda: class_lines(grid, *arguments),
        "bounds": lambda: bounds_lines(grid, chain),
        "invert": lambda: invert_lines(grid, chain, *arguments),
    }
    return answers[word]() if word in answers else []


def chain_after(command, grid, chain):
    """The chain in force after a command, for the grid and the chain in force before it."""
    word, arguments = command
    if word == "chain":
        return frozenset(arguments)
    if word == "turn":
        return moves.carried(chain, lambda state: moves.turned_rows(state, *arguments))
    if word in ("cols", "rows"):
        return moves.image(word, grid, *arguments, chain)
    if word in moves.SYMMETRIC_STATES:
        return moves.carried(chain, moves.SYMMETRIC_STATES[word])
    return frozenset() if word in ("stab", "destab", "mirror") else chain


def report(script):
    """The expected lines of a report."""
    grid, chain, lines = script.grid, frozenset(), []
    for command in script.commands:
        lines += answer(command, script.version, grid, chain)
        grid, chain = grid_after(command, grid), chain_after(command, grid, chain)
    return lines


# Comparisons.


def same(first, second):
    return "same" if first == second else "different"


def comparison(first, second):
    """The six lines for two grids."""
    lines = []
    for name in ("tb", "rot"):
        values = [getattr(front(grid), name) for grid in (first, second)]
        lines.append(f"{name} {values[0]} {values[1]} {same(*values)}")
    lines.append(f"table {same(homology.ranks(first), homology.ranks(second))}")
    hats = homology.hat(first), homology.hat(second)
    lines.append("hat none" if None in hats else f"hat {same(*hats)}")
    for sign, state in (("+", plus_state), ("-", minus_state)):
        values = [homology.class_verdict(grid, state(grid)) for grid in (first, second)]
        lines.append(f"class {sign} {values[0]} {values[1]} {same(*values)}")
    return lines


# The generator.


def drawn(seed):
    """Draws below the numbers that are sent."""
    number = seed
    below = yield
    while True:
        number = (1103515245 * number + 12345) % 2**31
        below = yield number // 65536 % below


def shuffled(size, draws):
    rows = list(range(size))
    for i in range(size - 1, 0, -1):
        j = draws.send(i + 1)
        rows[i], rows[j] = rows[j], rows[i]
    return rows


def made_grid(size, seed):
    draws = drawn(seed)
    next(draws)
    columns, rows = shuffled(size, draws), shuffled(size, draws)
    o, x = [None] * size, [None] * size
    for i in range(size):
        x[columns[i]] = rows[i]
        o[columns[(i + 1) % size]] = rows[i]
    return Grid(tuple(o), tuple(x))


def plain_form(script):
    """The lines of the plain form of a script of version 1."""
    words = [["grid", script.grid.size], ["O", *script.grid.o], ["X", *script.grid.x]]
    words += [[command.word, *command.arguments] for command in script.commands]
    return [" ".join(map(str, it)) for it in [*words, ["end"]]]


def made(size, seed):
    """The lines that `make` writes."""
    grid = made_grid(size, seed)
    commands = [Command("front", ()), Command("hat", ()), Command("class", ("+",)), Command("class", ("-",))]
    of, rank = front(grid), sum(row[-1] for row in homology.ranks(grid))
    plus, minus = (homology.class_verdict(grid, state(grid)) for state in (plus_state, minus_state))
    summary = f"# tb {of.tb} rot {of.rot} rank {rank} plus {plus} minus {minus}"
    return [*plain_form(Script(1, grid, commands, grid, 1)), summary]
