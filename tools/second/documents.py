"""Documents: their lines and words, what is refused and why, and the script of one that is a document."""
import re
from typing import NamedTuple

from second import moves
from second.grids import Grid

MAX_BYTES, MAX_COMMANDS, MAX_CERTIFIED = 65_536, 256, 6
SIZES = range(2, moves.MAX_SIZE + 1)

CHOICES = {
    "sign": ("+", "-"),
    "side": ("left", "right", "up", "down"),
    "axis": ("cols", "rows"),
    "corner": ("over", "under"),
    "square": ("nw", "ne", "sw", "se"),
}

# The first word of each command, and what its other words stand for: a choice; a number of a column, of a row, or of
# the first of two; a state; or any number of states.
FORMS = {
    "front": [],
    "ranks": [],
    "hat": [],
    "border": ["state"],
    "chain": ["states"],
    "show": [],
    "class": ["sign"],
    "bounds": [],
    "turn": ["side"],
    "cols": ["number", "corner"],
    "rows": ["number", "corner"],
    "stab": ["number", "square"],
    "destab": ["first of two", "first of two", "square"],
    "invert": ["axis", "number", "corner"],
    "flip": [],
    "half": [],
    "mirror": [],
    "marks": [],
    "coranks": [],
    "euler": [],
}


class Refused(Exception):
    """A text that is no document: the fault, and the line."""

    def __init__(self, fault, line):
        super().__init__(fault, line)
        self.fault, self.line = fault, line


class Fault(Exception):
    """A line that is not allowed in its place."""


class Command(NamedTuple):
    word: str
    arguments: tuple


class Script(NamedTuple):
    version: int
    grid: Grid
    commands: list
    last_grid: Grid
    head_line: int


def refuse_if(condition, fault):
    if condition:
        raise Fault(fault)


# Bytes and words. A byte is one letter of the text, with the same number.


def lines_of(text):
    lines = text.decode("latin-1").split("\n")
    if not lines[-1]:
        lines.pop()
    return [line.removesuffix("\r") for line in lines]


def words_of(line):
    return re.findall("[^ \t]+", line)


def is_blank(words):
    return not words or words[0].startswith("#")


def number_of(word, bounds):
    """The number that a word stands for, or None if it is no numeral in these bounds."""
    if not re.fullmatch("0|[1-9][0-9]*", word) or len(word) > len(str(bounds[-1])):
        return None
    return int(word) if int(word) in bounds else None


def numbers_of(words, bounds):
    numbers = tuple(number_of(word, bounds) for word in words)
    refuse_if(None in numbers, "BadNumber")
    return numbers


def state_of(word, n):
    """The state that a word stands for, or None."""
    if len(word) != n or not re.fullmatch("[0-9]+", word):
        return None
    state = tuple(map(int, word))
    return state if sorted(state) == list(range(n)) else None


# Commands.


def kinds_of(form, words):
    """What each of the words after the first stands for; their number is that of the form, or BadCount."""
    if form == ["states"]:
        return ["state"] * len(words)
    refuse_if(len(words) != len(form), "BadCount")
    return form


def arguments_of(kinds, words, n):
    """What the words stand for in a grid of size n."""
    given = list(zip(kinds, words))
    refuse_if(any(word not in CHOICES[kind] for kind, word in given if kind in CHOICES), "BadChoice")
    bounds = {"number": range(n), "first of two": range(n - 1)}
    read = {
        "state": lambda word, _: state_of(word, n),
        **{kind: lambda word, kind: number_of(word, bounds[kind]) for kind in bounds},
        **{kind: lambda word, _: word for kind in CHOICES},
    }
    arguments = tuple(read[kind](word, kind) for kind, word in given)
    refuse_if(any(kind in bounds and it is None for kind, it in zip(kinds, arguments)), "BadNumber")
    refuse_if(any(kind == "state" and it is None for kind, it in zip(kinds, arguments)), "BadState")
    refuse_if(set(kinds) == {"state"} and len(set(arguments)) < len(arguments), "RepeatedState")
    return arguments


def commutation_of(command):
    """The axis and the number of a commutation, or None."""
    if command.word in ("cols", "rows"):
        return command.word, command.arguments[0]
    return command.arguments[:2] if command.word == "invert" else None


def command_of(words, grid):
    """The command of a line, for the grid in force."""
    refuse_if(words[0] not in FORMS, "BadWord")
    kinds = kinds_of(FORMS[words[0]], words[1:])
    command = Command(words[0], arguments_of(kinds, words[1:], grid.size))
    commutation = commutation_of(command)
    if commutation:
        axis, number = commutation
        refuse_if(not moves.commute(axis, grid, number), "NotCommuting")
    if command.word == "destab":
        refuse_if(not moves.has_block(grid, *command.arguments), "NotBlock")
    if command.word == "stab":
        refuse_if(grid.size == moves.MAX_SIZE, "SizeLimit")
    return command


def grid_after(command, grid):
    """The grid in force after a command."""
    word, arguments = command
    if word == "turn":
        return moves.turned(grid, *arguments)
    if word in ("cols", "rows"):
        return moves.exchanged(word, grid, arguments[0])
    if word == "stab":
        return moves.stabilised(grid, *arguments)
    if word == "destab":
        return moves.destabilised(grid, *arguments)
    return moves.SYMMETRIES[word](grid) if word in moves.SYMMETRIES else grid


# The lines of a document in their places.


class Reader:
    """Takes the lines of a document that are not blank, one after another; `place` is what takes the next one."""

    def __init__(self):
        self.place = self.take_head
        self.version, self.size, self.o, self.rows = 1, None, None, []
        self.head_line, self.grid, self.last_grid, self.commands = None, None, None, []

    def take_head(self, words, line):
        refuse_if(words[0] not in HEADS, "BadWord")
        refuse_if(len(words) != 2, "BadCount")
        (self.size,) = numbers_of(words[1:], SIZES)
        self.version, self.head_line = HEADS[words[0]], line
        self.place = self.take_row if words[0] == "picture" else self.take_o

    def take_marks(self, name, words):
        refuse_if(words[0] != name, "BadWord")
        refuse_if(len(words) != self.size + 1, "BadCount")
        rows = numbers_of(words[1:], range(self.size))
        refuse_if(len(set(rows)) < self.size, "NotPermutation")
        return rows

    def take_o(self, words, line):
        self.o = self.take_marks("O", words)
        self.place = self.take_x

    def take_x(self, words, line):
        x = self.take_marks("X", words)
        refuse_if(any(a == b for a, b in zip(self.o, x)), "SameSquare")
        self.begin_body(Grid(self.o, x))

    def take_row(self, words, line):
        symbols = "".join(words)
        refuse_if(len(symbols) != self.size, "BadCount")
        refuse_if(set(symbols) - set(".OX"), "BadChoice")
        refuse_if(symbols.count("O") != 1 or symbols.count("X") != 1, "NotPermutation")
        row = symbols.index("O"), symbols.index("X")
        refuse_if(any(old[k] == row[k] for old in self.rows for k in (0, 1)), "NotPermutation")
        self.rows.append(row)
        if len(self.rows) == self.size:
            upwards = self.rows[::-1]
            columns_of = lambda k: tuple([row[k] for row in upwards].index(c) for c in range(self.size))
            self.begin_body(Grid(columns_of(0), columns_of(1)))

    def begin_body(self, grid):
        self.grid = self.last_grid = grid
        self.place = self.take_command

    def take_command(self, words, line):
        if words[0] == "end":
            refuse_if(len(words) != 1, "BadCount")
            self.place = self.take_nothing
            return
        command = command_of(words, self.last_grid)
        refuse_if(len(self.commands) == MAX_COMMANDS, "TooMany")
        self.commands.append(command)
        self.last_grid = grid_after(command, self.last_grid)

    def take_nothing(self, words, line):
        raise Fault("AfterEnd")


# The first words of a head, each with the version of its documents.
HEADS = {"grid": 1, "grid2": 2, "picture": 1}


def script_of(lines, first=1):
    """The script of these lines, the first of which has this number."""
    reader = Reader()
    for number, line in enumerate(lines, first):
        words = words_of(line)
        if is_blank(words):
            continue
        try:
            reader.place(words, number)
        except Fault as fault:
            raise Refused(str(fault), number) from None
    if reader.place != reader.take_nothing:
        raise Refused("NoEnd", first + len(lines))
    return Script(reader.version, reader.grid, reader.commands, reader.last_grid, reader.head_line)


def refuse_long(text):
    if len(text) > MAX_BYTES:
        raise Refused("TooLong", 0)


def judged(text):
    """The script of a text, or what is raised if it is no document."""
    refuse_long(text)
    return script_of(lines_of(text))


def judged_pair(text):
    """The scripts of a pair of documents."""
    refuse_long(text)
    lines = lines_of(text)
    parting = next((k for k, line in enumerate(lines) if words_of(line) == ["next"]), None)
    first = script_of(lines[:parting])
    if parting is None:
        raise Refused("NoNext", 1 + len(lines))
    return first, script_of(lines[parting + 1 :], parting + 2)
