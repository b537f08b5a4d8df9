"""Tables, hats and verdicts by linear algebra over the field of two elements, on the whole rectangle complex.

A vector is an int whose bit k says whether the k-th state of a cell is in a chain. A table is a list of rows in the
order in which they are printed: the degrees and the rank.
"""
import collections
import functools

from second.grids import border, border_of_state, component_degrees, components, degree, degrees, states

NOT_CYCLE, NULL, ALIVE = "notcycle", "null", "alive"


class Span:
    """The span of vectors, with a reduced basis: each of its pivots is a bit of one vector of the basis alone."""

    def __init__(self):
        self.basis = {}  # pivot: the vector, and the set of the vectors given of which it is the sum

    def reduced(self, vector):
        """What is left of a vector, and the set of the vectors given whose sum was taken away."""
        used = 0
        for pivot, (other, of) in self.basis.items():
            if vector >> pivot & 1:
                vector ^= other
                used ^= of
        return vector, used

    def add(self, vector, number):
        """Puts the vector with this number into the span; if it is there already, the set of vectors whose sum is 0."""
        vector, used = self.reduced(vector)
        used ^= 1 << number
        if not vector:
            return used
        pivot = vector.bit_length() - 1
        for old, (other, of) in self.basis.items():
            if other >> pivot & 1:
                self.basis[old] = other ^ vector, of ^ used
        self.basis[pivot] = vector, used
        return None

    @property
    def dimension(self):
        return len(self.basis)


def bits(vector):
    return [k for k in range(vector.bit_length()) if vector >> k & 1]


def vector_of(chain, cell):
    """A chain as a vector over the list of states of a cell."""
    index = {state: k for k, state in enumerate(cell)}
    return sum(1 << index[state] for state in chain)


def span_of(chains, cell):
    """The span of chains of states of a cell, and the sets of chains whose sum is 0: a basis of them."""
    index = {state: k for k, state in enumerate(cell)}
    span, none = Span(), []
    for number, chain in enumerate(chains):
        used = span.add(sum(1 << index[state] for state in chain), number)
        if used:
            none.append(used)
    return span, none


@functools.lru_cache(maxsize=64)
def cells(grid):
    """The states of each bidegree."""
    found = collections.defaultdict(list)
    for state, of in degrees(grid).items():
        found[of].append(state)
    return dict(found)


@functools.lru_cache(maxsize=64)
def coborders(grid):
    """The coborder of each state: the states whose border has it."""
    found = {state: set() for state in states(grid.size)}
    for state in found:
        for other in border_of_state(grid, state):
            found[other].add(state)
    return found


def table_of(of_degree, differential, step):
    """The rows of cycles modulo boundaries of a complex.

    Its cells are the lists of states by degree, the first of which the differential changes by the step.
    """
    rank = {}
    for (m, *rest), cell in of_degree.items():
        target = of_degree.get((m + step, *rest), [])
        rank[m, *rest] = span_of(map(differential, cell), target)[0].dimension
    rows = []
    for (m, *rest), cell in of_degree.items():
        left = len(cell) - rank[m, *rest] - rank.get((m - step, *rest), 0)
        if left:
            rows.append((m, *rest, left))
    return sorted(rows, key=lambda row: [*row[1:-1], row[0]], reverse=True)


@functools.lru_cache(maxsize=4096)
def ranks(grid):
    return table_of(cells(grid), lambda state: border_of_state(grid, state), -1)


@functools.lru_cache(maxsize=4096)
def coranks(grid):
    return table_of(cells(grid), coborders(grid).get, 1)


@functools.lru_cache(maxsize=4096)
def component_ranks(grid):
    """The table of the ranks by the degrees at the components."""
    found = collections.defaultdict(list)
    for state, (m, _) in degrees(grid).items():
        found[m, *component_degrees(grid, state)].append(state)
    return table_of(dict(found), lambda state: border_of_state(grid, state), -1)


def euler(grid):
    """The Euler numbers that are not 0, by descending Alexander degree."""
    numbers = collections.Counter()
    for m, a in degrees(grid).values():
        numbers[a] += -1 if m % 2 else 1
    return [(a, numbers[a]) for a in sorted(numbers, reverse=True) if numbers[a]]


# Hats.


def divided(numbers, step):
    """The quotient of numbers by degree and 1 + u, or None if there is none; u lowers a degree by the step."""
    quotient, left = {}, {at: number for at, number in numbers.items() if number}
    lower = lambda at: tuple(a - b for a, b in zip(at, step))
    for at in sorted(left, key=lambda at: at[1:], reverse=True):
        while left.get(at):
            number = left.pop(at)
            quotient[at] = number
            at = lower(at)
            if at not in left:
                return None
            left[at] -= number
    return quotient


def quotient(table, exponents, steps):
    """The table whose product with a power of 1 + u for each step is this one, or None."""
    numbers = {tuple(row[:-1]): row[-1] for row in table}
    for exponent, step in zip(exponents, steps):
        for _ in range(exponent):
            numbers = divided(numbers, step)
            if numbers is None:
                return None
    if any(number < 0 for number in numbers.values()):
        return None
    rows = [(*at, number) for at, number in numbers.items() if number]
    return sorted(rows, key=lambda row: [*row[1:-1], row[0]], reverse=True)


def exponent(grid):
    return grid.size - len(components(grid))


def hat(grid):
    """The rows of the hat, or None."""
    return quotient(ranks(grid), [exponent(grid)], [(1, 1)])


def component_exponents(grid):
    return [len(columns) - 1 for columns in components(grid)]


def component_hat(grid):
    """The rows of the hat by component, or None."""
    count = len(components(grid))
    steps = [(1, *(2 * (k == i) for k in range(count))) for i in range(count)]
    return quotient(component_ranks(grid), component_exponents(grid), steps)


# Verdicts.


def parts(grid, chain):
    """The states of a chain by their degrees."""
    found = collections.defaultdict(set)
    for state in chain:
        found[degree(grid, state)].add(state)
    return found


def cycles(grid, at):
    """A basis of the cycles of a degree."""
    (m, a), cell = at, cells(grid)[at]
    _, none = span_of((border_of_state(grid, state) for state in cell), cells(grid).get((m - 1, a), []))
    return [frozenset(cell[k] for k in bits(used)) for used in none]


def bound_or_cocycle(grid, at, part):
    """Of a cycle of one degree: the verdict, and a bound or a cocycle."""
    m, a = at
    cell, above = cells(grid)[at], cells(grid).get((m + 1, a), [])
    span, _ = span_of((border_of_state(grid, state) for state in above), cell)
    left, used = span.reduced(vector_of(part, cell))
    if not left:
        return NULL, frozenset(above[k] for k in bits(used))
    # A bit that no pivot is, and each pivot whose vector has it: every vector of the span has an even number of them.
    bit = left.bit_length() - 1
    chosen = [bit] + [pivot for pivot, (vector, _) in span.basis.items() if vector >> bit & 1]
    return ALIVE, frozenset(cell[k] for k in chosen)


def verdict(grid, chain):
    """The verdict of a chain: the word, and the least state of its border, a bound or a cocycle."""
    rest = border(grid, chain)
    if rest:
        return NOT_CYCLE, min(rest)
    bound = frozenset()
    for at, part in parts(grid, chain).items():
        word, evidence = bound_or_cocycle(grid, at, part)
        if word == ALIVE:
            return word, evidence
        bound |= evidence
    return NULL, bound


def class_verdict(grid, state):
    return verdict(grid, frozenset([state]))[0]


def is_odd(chain, cochain):
    return len(chain & cochain) % 2 == 1


def is_bound(grid, chain, bound):
    """Whether the chain is the border of the bound, each state of which is one degree above one of the chain."""
    allowed = {(m + 1, a) for m, a in (degree(grid, state) for state in chain)}
    return border(grid, bound) == chain and all(degree(grid, state) in allowed for state in bound)


def is_cocycle(grid, chain, cocycle):
    """Whether the cocycle pairs oddly with the chain and evenly with each border, in one degree of the chain."""
    found = {degree(grid, state) for state in cocycle}
    if len(found) != 1 or not found <= {degree(grid, state) for state in chain}:
        return False
    (m, a), = found
    above = cells(grid).get((m + 1, a), [])
    return is_odd(chain, cocycle) and not any(is_odd(border_of_state(grid, it), cocycle) for it in above)
