"""Random texts: documents and pairs, plain and lenient, without faults and with some; and random words of a call.

A text is made as a list of lines, each a list of words. Then faults are put in, and at last spaces and ends of lines.
"""
from second import homology, moves
from second.documents import CHOICES, FORMS, HEADS, MAX_BYTES, Command, Refused, grid_after, judged, judged_pair
from second.grids import Grid, border, minus_state, plus_state
from second.paths import blocks, commutations
from second.reports import state_word

# What a mistaken word may be.
STRANGE_WORDS = (
    *(word for word in FORMS),
    *(word for words in CHOICES.values() for word in words),
    *"grid grid2 grid3 picture picture2 O X . OX end next # #end FRONT Front fronts cols. + - ++".split(),
    *"0 1 2 3 5 9 10 11 00 01 -1 -0 +1 1.0 1e0 0x1 256 4294967297 99999999999999999999999".split(),
    *"012 0123 0132 3210 011 01234 0123456789".split(),
    *("\x00", "\xff", "\xc3\xa9", "\x0b", "\x0c", "\x85", "\xa0", "\r", "\rend", "a\rb", "\xb2"),
)

# Words of a call, most of which make none of its forms.
STRANGE_OPTIONS = (
    *"run cert compare make Run next now --size --seed --size=5 --seed=1 --size=05 --size= --seed= -1 -- 5 1".split(),
    *"--help -h --version --seed=2147483647 --seed=2147483648 --size=11 --size=1 --size=2 --size=4 --siz=5".split(),
    *("--size==5", "--seed=+1", "--size=5=5", "-size", "", " ", "run "),
)

# Commands that ask for all states of the grid in force, and the greatest size for which they are taken.
OF_ALL_STATES = {"ranks", "hat", "class", "bounds", "coranks", "euler"}
GREATEST_TABLE = 5


def random_state(chance, n):
    return tuple(chance.sample(range(n), n))


def random_grid(chance, n):
    while True:
        o, x = random_state(chance, n), random_state(chance, n)
        if all(a != b for a, b in zip(o, x)):
            return Grid(o, x)


# Commands that the grid in force allows.


def random_cycle(chance, grid):
    """A cycle: a random one of one degree; or x+, x-, both or none of them, and a border."""
    n = grid.size
    if n <= GREATEST_TABLE and chance.random() < 0.5:
        cycle = set()
        for other in homology.cycles(grid, chance.choice(sorted(homology.cells(grid)))):
            cycle ^= other if chance.random() < 0.5 else set()
        return cycle
    ends = [plus_state(grid), minus_state(grid)]
    cycle = set(chance.sample(ends, chance.randrange(3)))
    return cycle ^ border(grid, {random_state(chance, n) for _ in range(chance.randrange(4))})


def random_chain(chance, grid):
    if chance.random() < 0.6:
        chain = random_cycle(chance, grid)
    else:
        chain = {random_state(chance, grid.size) for _ in range(chance.randrange(6))}
    return tuple(chance.sample(sorted(chain), len(chain)))


def arguments_for(chance, word, grid, greatest):
    """Arguments of a command that the grid allows, and after which it has at most the greatest size; or None."""
    n = grid.size
    if word == "chain":
        return random_chain(chance, grid)
    if word == "border":
        return (random_state(chance, n),)
    if word == "stab":
        return None if n >= greatest else (chance.randrange(n), chance.choice(CHOICES["square"]))
    if word == "destab":
        allowed = blocks(grid)
        return chance.choice(allowed) if allowed else None
    if word in ("cols", "rows", "invert"):
        allowed = [it for it in commutations(grid) if word in (it[0], "invert")]
        if not allowed:
            return None
        place = chance.choice(allowed)
        return (*(place if word == "invert" else place[1:]), chance.choice(CHOICES["corner"]))
    return tuple(chance.choice(CHOICES[kind]) for kind in FORMS[word])


def random_command(chance, grid, greatest):
    while True:
        word = chance.choice(tuple(FORMS))
        if word in OF_ALL_STATES and grid.size > GREATEST_TABLE:
            continue
        arguments = arguments_for(chance, word, grid, greatest)
        if arguments is not None:
            return Command(word, arguments)


# Lines of documents.


def words_of_command(command):
    written = lambda it: state_word(it) if isinstance(it, tuple) else str(it)
    return [command.word, *map(written, command.arguments)]


def picture_lines(chance, grid):
    lines = [["picture", str(grid.size)]]
    for r in reversed(range(grid.size)):
        symbols = ["O" if o == r else "X" if x == r else "." for o, x in zip(grid.o, grid.x)]
        lines.append(symbols if chance.random() < 0.5 else ["".join(symbols)])
    return lines


def head_lines(chance, grid):
    head = chance.choice(tuple(HEADS))
    if head == "picture":
        return picture_lines(chance, grid)
    return [[head, str(grid.size)], ["O", *map(str, grid.o)], ["X", *map(str, grid.x)]]


def body_lines(chance, grid, count, greatest):
    """The lines of so many commands, and the grid after them."""
    lines = []
    for _ in range(count):
        command = random_command(chance, grid, greatest)
        lines.append(words_of_command(command))
        grid = grid_after(command, grid)
    return lines, grid


def random_size(chance):
    return chance.choice((2, 3, 3, 4, 4, 4, 5, 5, 5, 5))


def document_lines(chance, grid, greatest=moves.MAX_SIZE):
    """The lines of a document that begins with this grid, and the grid in force at its end."""
    body, last = body_lines(chance, grid, chance.randrange(10), greatest)
    if chance.random() < 0.01:
        # About as many commands as there may be.
        body = [[chance.choice(("show", "front"))] for _ in range(chance.randint(254, 257) - len(body))] + body
    return head_lines(chance, grid) + body + [["end"]], last


def any_document(chance):
    size = random_size(chance) if chance.random() < 0.95 else chance.choice((6, 7, 8, 9, 10, 10))
    return document_lines(chance, random_grid(chance, size))[0]


def any_pair(chance):
    """The lines of a pair of documents; the second grid is often one that moves have made of the first."""
    first, last = document_lines(chance, random_grid(chance, random_size(chance)), GREATEST_TABLE)
    other = last if chance.random() < 0.7 else random_grid(chance, random_size(chance))
    second, _ = document_lines(chance, other, GREATEST_TABLE)
    return first + [["next"]] + second


# Faults.


def without(items, k):
    return items[:k] + items[k + 1 :]


def mistaken_line(chance, words):
    """A line with one mistake."""
    k, strange = chance.randrange(len(words)), chance.choice(STRANGE_WORDS)
    letters = list(words[k])
    chance.shuffle(letters)
    digit = chance.choice("0123456789")
    return chance.choice(
        (
            [*words[:k], strange, *words[k + 1 :]],
            [*words[:k], chance.choice(words), *words[k + 1 :]],
            [*words[:k], "".join(letters), *words[k + 1 :]],
            [*words[:k], digit, *words[k + 1 :]],
            [*words[:k], digit + words[k], *words[k + 1 :]],
            [*words[:k], strange, *words[k:]],
            [words[0], *chance.sample(words[1:], len(words) - 1)],
            [*words, words[-1]],
            without(words, k),
        )
    )


def any_command(chance):
    """The words of a command of some size, which may not be allowed."""
    word = chance.choice(tuple(FORMS))
    n = random_size(chance)
    kinds = ["state"] * chance.randrange(5) if word == "chain" else FORMS[word]
    state = state_word(random_state(chance, n))
    other = lambda: state_word(random_state(chance, n)) if chance.random() < 0.7 else state
    of_kind = lambda kind: other() if kind == "state" else chance.choice(CHOICES.get(kind, "0123456789"))
    return [word, *map(of_kind, kinds)]


def mistaken(chance, lines):
    """The lines with one mistake."""
    if not lines:
        return [[chance.choice(STRANGE_WORDS)]]
    k, m = chance.randrange(len(lines)), chance.randrange(len(lines))
    if chance.random() < 0.5:
        k = max(k, len(lines) // 2)
        return lines[:k] + [any_command(chance)] + lines[k:]
    if chance.random() < 0.6:
        return [*lines[:k], mistaken_line(chance, lines[k]), *lines[k + 1 :]] if lines[k] else without(lines, k)
    exchanged = list(lines)
    exchanged[k], exchanged[m] = lines[m], lines[k]
    some = [chance.choice(STRANGE_WORDS) for _ in range(chance.randrange(1, 5))]
    return chance.choice(
        (exchanged, without(lines, k), lines[:k] + [lines[m]] + lines[k:], lines[:k] + [some] + lines[k:], lines[:k])
    )


def mistaken_text(chance, text):
    """The bytes with one of them out, in or changed, or cut off."""
    k = chance.randrange(len(text) + 1)
    byte = bytes([chance.choice((0, 9, 10, 13, 32, 35, 43, 45, 48, 49, 79, 88, 101, 128, 255, chance.randrange(256)))])
    return text[:k] + chance.choice((text[k + 1 :], byte + text[k:], byte + text[k + 1 :], b""))


# Bytes.


def plain_text(lines):
    return "".join(" ".join(words) + "\n" for words in lines).encode("latin-1")


def lenient_text(chance, lines):
    """The lines with any spaces, tabs, ends and blank lines that are allowed, and the last one maybe with no end."""
    gap = lambda: chance.choice((" ", " ", "  ", "\t", " \t "))
    margin = lambda: chance.choice(("", "", "", " ", "\t", "  "))
    end = lambda: chance.choice(("\n", "\n", "\n", "\r\n"))
    text = ""
    for words in lines:
        while chance.random() < 0.2:
            text += margin() + chance.choice(("", "", "#", "# end", "#end", "#\tgrid 3", "# \r #")) + end()
        text += margin() + "".join(word + gap() for word in words[:-1]) + "".join(words[-1:]) + margin() + end()
    text += chance.choice(("", "", "\n", "\r\n", " ", "# a", "\r"))
    return (text.rstrip("\n") if chance.random() < 0.2 else text).encode("latin-1")


def random_text(chance, lines):
    """A text of these lines: without a fault, or with one or more."""
    faults = chance.choice((0, 0, 0, 0, 1, 1, 1, 2, 3))
    for _ in range(faults):
        lines = mistaken(chance, lines)
    text = plain_text(lines) if chance.random() < 0.5 else lenient_text(chance, lines)
    if chance.random() < 0.005:
        text = b"#" * (MAX_BYTES + chance.randrange(2) - len(text) - 1) + b"\n" + text
    return mistaken_text(chance, text) if chance.random() < 0.1 else text


# Calls.


def made_words(chance):
    size, seed = str(random_size(chance)), str(chance.randrange(2**31))
    options = [["--size", size], ["--seed", seed]]
    options = [chance.choice((pair, ["=".join(pair)])) for pair in options]
    chance.shuffle(options)
    return ["make", *(word for pair in options for word in pair)]


def strange_words(chance):
    """Words of a call, but never those of `check` or of a table that takes long."""
    words = made_words(chance) if chance.random() < 0.7 else ["run"]
    for _ in range(chance.randrange(1, 4)):
        k = chance.randrange(len(words) + 1)
        new = chance.choice(([chance.choice(STRANGE_OPTIONS)], [chance.choice(words or [""])], []))
        words = words[:k] + new + words[k + chance.randrange(2) :]
    return words


def asks_much(script):
    """Whether a command asks for all states of a grid with many columns."""
    grid = script.grid
    for command in script.commands:
        if command.word in OF_ALL_STATES and grid.size > GREATEST_TABLE:
            return True
        grid = grid_after(command, grid)
    return False


def takes_long(words, text):
    """Whether the second program would take long to answer."""
    try:
        if words == ["compare"]:
            return any(script.last_grid.size > GREATEST_TABLE for script in judged_pair(text))
        return words == ["run"] and asks_much(judged(text))
    except Refused:
        return False


def call_of(chance, kind):
    if kind == "compare":
        lines = any_pair(chance) if chance.random() < 0.95 else any_document(chance)
        return ["compare"], random_text(chance, lines)
    words = {"make": made_words, "strange": strange_words}.get(kind, lambda _: [kind])(chance)
    return words, random_text(chance, any_document(chance))


def random_call(chance):
    """The words of a call, and its input."""
    while True:
        kind = chance.choices(("run", "compare", "cert", "make", "strange"), (78, 12, 5, 2, 3))[0]
        words, text = call_of(chance, kind)
        if not takes_long(words, text):
            return words, text
