"""Tables of any shape as lattices: moves that keep sums, and the exchanges that keep the moves.

A cell has an index for each axis; cells are numbered row by row, the last index running fastest.
"""

from itertools import combinations, product
from math import prod


def number(shape, cell):
    """The number of a cell, from 0 on."""
    at = 0
    for size, index in zip(shape, cell):
        at = at * size + index
    return at


def vector(shape, entries):
    """The vector of a table with these (cell, entry) pairs; entries of one cell add up."""
    v = [0] * prod(shape)
    for cell, x in entries:
        v[number(shape, cell)] += x
    return tuple(v)


def one_of_each_sign(vectors):
    found = {max(v, tuple(-x for x in v)) for v in vectors if any(v)}
    return sorted(found, reverse=True)


def slice_moves(shape):
    """Moves that keep the sum of each slice: two cells and, with -1, the two with some of their indices traded."""
    moves = []
    for a, b in combinations(product(*map(range, shape)), 2):
        for trade in product((False, True), repeat=len(shape)):
            c, d = zip(*((y, x) if t else (x, y) for x, y, t in zip(a, b, trade)))
            moves.append(vector(shape, [(a, 1), (b, 1), (c, -1), (d, -1)]))
    return one_of_each_sign(moves)


def line_move(shape, pairs):
    """The move with 1 or -1 where two indices of each axis meet, in turn."""
    corners = product(*([(pair[0], 1), (pair[1], -1)] for pair in pairs))
    return vector(shape, [(tuple(i for i, _ in corner), prod(s for _, s in corner)) for corner in corners])


def line_moves(shape):
    """Moves that keep the sum of each line: two indices on each axis, and 1 or -1 where they meet, in turn."""
    return one_of_each_sign(line_move(shape, pairs)
                            for pairs in product(*(combinations(range(size), 2) for size in shape)))


def neighbour_moves(shape):
    """The line moves of neighbouring indices: a basis of all tables with zero lines."""
    return [line_move(shape, [(i, i + 1) for i in corner])
            for corner in product(*(range(size - 1) for size in shape))]


def exchanges(shape):
    """Swaps of neighbouring indices on each axis, and of neighbouring axes of one size; cells are counted from 1."""
    def sequence(source):
        return tuple(1 + number(shape, source(cell)) for cell in product(*map(range, shape)))

    def swapped(x, at):
        return {at: at + 1, at + 1: at}.get(x, x)

    made = [sequence(lambda cell: cell[:axis] + (swapped(cell[axis], at),) + cell[axis + 1:])
            for axis, size in enumerate(shape) for at in range(size - 1)]
    made += [sequence(lambda cell: tuple(cell[swapped(a, axis)] for a in range(len(shape))))
             for axis in range(len(shape) - 1) if shape[axis] == shape[axis + 1]]
    return made


def minimal_tables():
    """The minimal 3 by 3 tables with zero sums (2.4), each with its lexicographically greater sign, sorted (2.7).

    Searched are all tables with no entry past 3. That is enough: the matrix of row and column sums is totally
    unimodular, so no minimal one has an entry past 1. Weights ascend, so what is below a table comes before it.
    """
    def below(u, v):
        return all(x * y >= 0 and abs(x) <= abs(y) for x, y in zip(u, v))

    def weight(v):
        return sum(map(abs, v))

    def degree(v):
        return max(sum(x for x in v if x > 0), sum(-x for x in v if x < 0))

    made = ((a, b, -a - b, c, d, -c - d, -a - c, -b - d, a + b + c + d)
            for a, b, c, d in product(range(-3, 4), repeat=4))
    minimal = []
    for v in sorted((v for v in made if any(v) and max(map(abs, v)) <= 3), key=weight):
        if not any(below(u, v) for u in minimal):
            minimal.append(v)
    return sorted(one_of_each_sign(minimal), key=degree)
