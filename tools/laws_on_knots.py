#!/usr/bin/env python3
"""Asks the built program for tables, fronts and classes of the grids of examples/knots, and tries the laws on them.

Prints one line for each law, with the number of cases, and each case that fails.

    tools/laws_on_knots.py [PROGRAM] [--columns N] [--only WORD]
                     PROGRAM: the built program, crates/grid_cli/out/grid_cli by default; N: grids of at most so many
                     columns, 9 by default; WORD: laws whose line has this word, by default all
"""
import argparse
import collections
import pathlib
import subprocess
import sys
from typing import NamedTuple

sys.dont_write_bytecode = True

from second import moves
from second.documents import judged, state_of
from second.grids import Grid, components
from second.paths import BACK, commutations, path
from second.random_texts import words_of_command
from second.reports import SHOWS

TOP = pathlib.Path(__file__).resolve().parent.parent

# Steps of a path may lead through grids of so many more columns.
MORE_COLUMNS = 1


class Link(NamedTuple):
    name: str
    grid: Grid

    @property
    def exponent(self):
        return self.grid.size - len(components(self.grid))


class Program:
    def __init__(self, path):
        self.path = path

    def report(self, text, word="run"):
        """The lines that answer a text, each a list of words."""
        done = subprocess.run([self.path, word], input=text, capture_output=True, text=True)
        if done.returncode:
            sys.exit(f"status {done.returncode}, {done.stdout.strip()!r} on:\n{text}")
        return [line.split(" ") for line in done.stdout.splitlines()]

    def knows(self, head):
        text = f"{head} 2\nO 1 0\nX 0 1\nend\n"
        return subprocess.run([self.path, "run"], input=text, capture_output=True, text=True).returncode == 0

    def ask(self, grid, commands, head="grid"):
        return self.report(document(grid, commands, head))

    def tables(self, grid, commands, head="grid", word="rank"):
        """The tables that answer the commands: of each, its rows with the rank by the degrees."""
        return tables_of(self.ask(grid, commands, head), word)


def document(grid, commands, head="grid"):
    marks = [f"{name} {' '.join(map(str, rows))}" for name, rows in zip("OX", grid)]
    return "\n".join([f"{head} {grid.size}", *marks, *commands, "end", ""])


def tables_of(lines, word="rank"):
    """Each run of lines with this word, as the last number of each line by the numbers before it."""
    found = []
    for first, *rest in lines:
        if first != word:
            found.append({})
        else:
            *at, number = map(int, rest)
            found[-1][tuple(at)] = number
    return found


def line_of(command):
    return " ".join(words_of_command(command))


def added(rows, key):
    """The numbers of the rows with one key, added up."""
    found = collections.Counter()
    for at, number in rows.items():
        found[key(at)] += number
    return {at: number for at, number in found.items() if number}


# Laws: each yields, for a link, whether it holds in one case after another.


def keeps_table(symmetry):
    def law(program, link):
        first, second = program.tables(link.grid, ["ranks", symmetry, "ranks"])
        yield first == second

    return law


def mirror_ranks(program, link):
    first, second = program.tables(link.grid, ["ranks", "mirror", "ranks"])
    n, k = link.grid.size, link.exponent
    yield first == added(second, lambda at: (1 - n - at[0], -k - at[1]))


def marks_ranks(program, link):
    first, second = program.tables(link.grid, ["ranks", "marks", "ranks"])
    k = link.exponent
    yield second == added(first, lambda at: (at[0] - 2 * at[1] - k, -at[1] - k))


def coranks_are_ranks(program, link):
    ranks, coranks = program.ask(link.grid, ["ranks"]), program.ask(link.grid, ["coranks"])
    yield ranks[0][1:] == coranks[0][1:] and ranks[1:] == coranks[1:]


def euler_is_alternating(program, link):
    (ranks,) = program.tables(link.grid, ["ranks"])
    (euler,) = program.tables(link.grid, ["euler"], word="at")
    signed = {at: -number if at[0] % 2 else number for at, number in ranks.items()}
    yield euler == added(signed, lambda at: (at[1],))


def each_way(grid):
    """The commands of each turn and each commutation that the grid allows, with those that lead back."""
    turns = [(f"turn {side}", f"turn {back}") for side, back in BACK.items()]
    return turns + [(f"{axis} {c} over", f"{axis} {c} over") for axis, c in commutations(grid)]


def table_after_moves(program, link):
    ways = [it for there, back in each_way(link.grid) for it in (there, "ranks", back)]
    first, *others = program.tables(link.grid, ["ranks", *ways])
    for table in others:
        yield table == first


def table_after_stab_and_moves(program, link):
    """The same for each stabilised grid, which allows more commutations."""
    if link.grid.size > 7:
        return
    for c in range(link.grid.size):
        for square in CHANGES:
            yield from table_after_moves(program, Link(link.name, moves.stabilised(link.grid, c, square)))


def verdicts_after_moves(program, link):
    asked = ["front", "class +", "class -"]
    ways = [it for there, back in each_way(link.grid) for it in (there, *asked, back)]
    lines = program.ask(link.grid, [*asked, *ways])
    told = [it[1:] if it[0] == "front" else it[-1] for it in lines if it[0] in ("front", "class")]
    for k in range(3, len(told), 3):
        yield told[k : k + 3] == told[:3]


def fronts_and_verdicts(program, link, symmetry):
    """tb and rot, and whether x+ and x- are null, before a symmetry and after it."""
    asked = ["front", "class +", "class -"]
    lines = [it for it in program.ask(link.grid, [*asked, symmetry, *asked]) if it[0] in ("front", "class")]
    numbers = [(int(it[2]), int(it[4])) for it in lines if it[0] == "front"]
    verdicts = [it[-1] for it in lines if it[0] == "class"]
    return (numbers[0], verdicts[:2]), (numbers[1], verdicts[2:])


def flip_keeps_front_and_classes(program, link):
    first, second = fronts_and_verdicts(program, link, "flip")
    yield first == second


def half_exchanges_classes(program, link):
    ((tb, rot), verdicts), second = fronts_and_verdicts(program, link, "half")
    yield second == ((tb, -rot), verdicts[::-1])


def marks_turn_front(program, link):
    ((tb, rot), _), (second, _) = fronts_and_verdicts(program, link, "marks")
    yield second == (tb, -rot)


def evidence_shows(program, link):
    """The bound or the cocycle of each class, by the definition."""
    chain_of = lambda words: frozenset(state_of(word, link.grid.size) for word in words)
    lines = program.ask(link.grid, ["class +", "class -"])
    for first, (word, *words) in zip(lines[::2], lines[1::2]):
        yield SHOWS[word](link.grid, chain_of(first[2:3]), chain_of(words))


# What a stabilisation, by its empty square, does to tb and rot.
CHANGES = {"nw": (0, 0), "se": (0, 0), "ne": (-1, 1), "sw": (-1, -1)}

# The class that is null after it.
NULL_AFTER = {"ne": 0, "sw": 1}


def stabilisations(program, link):
    """tb, rot and the verdicts after each stabilisation: those of nw and se are as before."""
    if link.grid.size > 8:
        return
    for c in range(link.grid.size):
        for square, (tb, rot) in CHANGES.items():
            first, second = fronts_and_verdicts(program, link, f"stab {c} {square}")
            verdicts = list(first[1])
            if square in NULL_AFTER:
                verdicts[NULL_AFTER[square]] = "null"
            yield second == ((first[0][0] + tb, first[0][1] + rot), verdicts)


def hat_after_stabilisations(program, link):
    if link.grid.size > 6:
        return
    (first,) = program.tables(link.grid, ["hat"])
    for c in range(link.grid.size):
        for square in CHANGES:
            yield program.tables(link.grid, [f"stab {c} {square}", "hat"]) == [first]


# Paths.


def steps_hold(program, grid, steps):
    """Of each step of a path: whether hat, tb, rot and the classes after it are what the step asks."""
    asked = ["front", "hat", "class +", "class -"]
    lines = program.ask(grid, asked + [it for step in steps for it in (line_of(step), *asked)])
    fronts = [(int(it[2]), int(it[4])) for it in lines if it[0] == "front"]
    hats = tables_of([it for it in lines if it[0] in ("hat", "rank")])
    verdicts = [it[-1] for it in lines if it[0] == "class"]
    pairs = list(zip(verdicts[::2], verdicts[1::2]))
    for k, step in enumerate(steps):
        square = step.arguments[-1] if step.word in ("stab", "destab") else "nw"
        tb, rot = CHANGES[square]
        small, large = (k + 1, k) if step.word == "destab" else (k, k + 1)
        right = hats[k] == hats[k + 1] and fronts[large] == (fronts[small][0] + tb, fronts[small][1] + rot)
        if square in NULL_AFTER:
            null = NULL_AFTER[square]
            yield right and pairs[large][null] == "null" and pairs[k][1 - null] == pairs[k + 1][1 - null]
        else:
            yield right and pairs[k] == pairs[k + 1]


def path_to_symmetric(program, link, symmetry):
    """A path to the grid that a symmetry gives, found by a search: each of its steps, and that it ends there."""
    last = moves.SYMMETRIES[symmetry](link.grid)
    steps = path(link.grid, last, link.grid.size + MORE_COLUMNS)
    yield steps is not None
    yield from steps_hold(program, link.grid, steps)
    lines = program.report(document(link.grid, map(line_of, steps)), "cert")
    yield Grid(*(tuple(map(int, line[1:])) for line in lines[2:4])) == last


def paths_of_trefoil(program, link):
    if link.name == "3_1":
        yield from path_to_symmetric(program, link, "flip")


def paths_of_figure_eight(program, link):
    if link.name == "4_1":
        yield from path_to_symmetric(program, link, "mirror")


def transverse_path(program, link):
    """The path of examples/transverse, which begins and ends at the grids of the other two documents."""
    if link.name != "10_132":
        return
    read = lambda name: judged((TOP / f"examples/transverse/10_132-{name}.txt").read_bytes())
    script = read("path")
    yield script.grid == read("first").grid and script.last_grid == read("second").grid
    steps = [it for it in script.commands if it.word in ("turn", "cols", "rows", "stab", "destab")]
    yield from steps_hold(program, script.grid, steps)


# Laws of tables by component, of documents of version 2.


def components_add_up(program, link):
    """With all variables one the tables of version 2 are those of version 1."""
    for word in ("ranks", "hat"):
        (first,), (second,) = (program.tables(link.grid, [word], head) for head in ("grid", "grid2"))
        yield first == added(second, lambda at: (at[0], sum(at[1:]) // 2))


def one_component(program, link):
    if len(components(link.grid)) == 1:
        for word in ("ranks", "hat"):
            (first,), (second,) = (program.tables(link.grid, [word], head) for head in ("grid", "grid2"))
            yield second == added(first, lambda at: (at[0], 2 * at[1]))


def order_after_turn(grid, k):
    """Of each component, in its order after k turns to the left: its place in the order before them."""
    places = {column: place for place, columns in enumerate(components(grid)) for column in columns}
    turned = grid
    for _ in range(k):
        turned = moves.turned(turned, "left")
    return [places[(columns[0] + k) % grid.size] for columns in components(turned)]


def components_exchanged(program, link):
    """Turns that change the order of the components exchange the degrees in each row."""
    for k in range(1, link.grid.size):
        order = order_after_turn(link.grid, k)
        if order != sorted(order):
            for word in ("ranks", "hat"):
                first, second = program.tables(link.grid, [word, *["turn left"] * k, word], "grid2")
                yield second == added(first, lambda at: (at[0], *(at[1:][place] for place in order)))


LAWS = {
    "flip: the table stays": keeps_table("flip"),
    "half: the table stays": keeps_table("half"),
    "mirror: the rank at (m, a) is the one at (1 - n - m, - (n - l) - a)": mirror_ranks,
    "marks: the rank at (m, a) is the one at (m - 2a - (n - l), - a - (n - l))": marks_ranks,
    "coranks: the ranks": coranks_are_ranks,
    "euler: the alternating sums of the ranks": euler_is_alternating,
    "turns and commutations: the table stays": table_after_moves,
    "stab, then turns and commutations: the table stays (of at most seven columns)": table_after_stab_and_moves,
    "turns and commutations: tb, rot and the verdicts of x+ and x- stay": verdicts_after_moves,
    "class: the bound or the cocycle is one": evidence_shows,
    "flip: tb, rot and the verdicts of x+ and x- stay": flip_keeps_front_and_classes,
    "half: tb stays, rot changes its sign, x+ and x- change places": half_exchanges_classes,
    "marks: tb stays, rot changes its sign": marks_turn_front,
    "stab: tb, rot and the verdicts of x+ and x- (of at most eight columns)": stabilisations,
    "stab: the hat stays (of at most six columns)": hat_after_stabilisations,
    "a path from the trefoil to its transposed grid, step by step": paths_of_trefoil,
    "a path from the figure eight knot to its mirror image, step by step": paths_of_figure_eight,
    "the path of examples/transverse, step by step": transverse_path,
}

LAWS_OF_VERSION_2 = {
    "grid2: added up by the sums of degrees, the tables and hats of version 1": components_add_up,
    "grid2: of one component, the tables and hats with doubled degrees": one_component,
    "grid2: turns that exchange components exchange the columns of degrees": components_exchanged,
}


def links(greatest):
    """The links of examples/knots, each once."""
    found = {}
    for file in sorted((TOP / "examples/knots").glob("*.txt"), key=lambda file: file.stem):
        grid = judged(file.read_bytes()).grid
        if grid.size <= greatest:
            found.setdefault(grid, Link(file.stem, grid))
    return list(found.values())


def try_law(program, name, law, some):
    count = failed = 0
    for link in some:
        for holds in law(program, link):
            count += 1
            if not holds:
                failed += 1
                print(f"FAILED for {link.name}: {name}")
    print(f"{count:4} cases, {failed} failed  {name}", flush=True)
    return failed


def main():
    parser = argparse.ArgumentParser(description=__doc__.split("\n")[0])
    parser.add_argument("program", nargs="?", default=str(TOP / "crates/grid_cli/out/grid_cli"))
    parser.add_argument("--columns", type=int, default=9)
    parser.add_argument("--only", default="")
    given = parser.parse_args()
    program, some = Program(given.program), links(given.columns)
    laws = LAWS | (LAWS_OF_VERSION_2 if program.knows("grid2") else {})
    print(f"{len(some)} grids of knots and links")
    failed = sum(try_law(program, name, law, some) for name, law in laws.items() if given.only in name)
    if laws == LAWS:
        print("the program reads no documents of version 2")
    sys.exit(1 if failed else 0)


if __name__ == "__main__":
    main()
