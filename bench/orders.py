"""The orders that bench/run times, and the vectors and coefficients that Split and Check are sent with them."""

import random
from typing import NamedTuple

import tables
from outside import COEFFICIENT, group_table, past


class Order(NamedTuple):
    name: str
    n: int
    generators: list
    exchanges: list
    members: int  # of the group

    @property
    def lattice(self):
        return self.n, self.generators, self.exchanges


def table(name, shape, moves, members):
    """A table with all moves that keep its sums, and its exchanges."""
    vectors = moves(shape)
    return Order(name, len(vectors[0]), vectors, tables.exchanges(shape), members)


def lattice(seed, n, m, greatest):
    """A lattice of m random generators with entries from -greatest to greatest, without exchanges."""
    rng = random.Random(seed)
    vectors = [tuple(rng.randint(-greatest, greatest) for _ in range(n)) for _ in range(m)]
    return Order(f"random, {n} cells, ±{greatest}, seed {seed}", n, vectors, [], 1)


THREE_BY_FOUR = table("3 by 4", (3, 4), tables.slice_moves, 144)
FOUR_BY_FOUR = table("4 by 4", (4, 4), tables.slice_moves, 1152)

# Two kinds of 2 by 2 by 4 table: the sum of each slice is kept, or that of each line.
ORDERS = [
    table("3 by 3", (3, 3), tables.slice_moves, 72),
    THREE_BY_FOUR,
    FOUR_BY_FOUR,
    table("2 by 2 by 4, slices", (2, 2, 4), tables.slice_moves, 192),
    table("2 by 2 by 4, lines", (2, 2, 4), tables.line_moves, 192),
    lattice(6, 8, 4, 1),
    lattice(10, 6, 3, 3),
    lattice(10, 16, 4, 1),
]

# What the start of a process takes shows in the smallest of lattices.
SMALLEST = Order("smallest", 1, [(1,)], [], 1)


def with_part_of_group(order, sent):
    """The order with only the first of its exchanges."""
    part = order.exchanges[:sent]
    return order._replace(exchanges=part, members=len(group_table(order.n, part)))


# More and more of the exchanges of a table, but not all. With none of them, 4 by 4 has more rows than a list can have.
GROUPS = {order.name: [with_part_of_group(order, sent) for sent in range(least, len(order.exchanges))]
          for order, least in ((THREE_BY_FOUR, 0), (FOUR_BY_FOUR, 1))}

# Lattices of one kind with more and more rows stored.
STORED = [lattice(seed, 10, 4, 1) for seed in (176, 10, 345, 127, 139, 71, 99)]


# ---- what Split and Check are sent

def combination(factors, vectors):
    return tuple(sum(c * x for c, x in zip(factors, column)) for column in zip(*vectors))


def vector_of(order):
    """A vector to split: the first generator and twice the second and so on."""
    return combination(range(1, len(order.generators) + 1), order.generators)


def steps(generators):
    """Integer elimination: (cell, vector, factors) for each step.

    Each vector is zero in the cells of the steps before, and is the combination of the generators with its factors.
    The vectors generate the lattice.
    """
    m = len(generators)
    rest = [(list(v), [int(q == r) for r in range(m)]) for q, v in enumerate(generators)]
    made = []
    for cell in range(len(generators[0])):
        while True:
            live = [row for row in rest if row[0][cell]]
            if len(live) < 2:
                break
            least = min(live, key=lambda row: abs(row[0][cell]))
            for row in live:
                times = row[0][cell] // least[0][cell]
                if row is not least and times:
                    for part, by in zip(row, least):
                        part[:] = [x - times * y for x, y in zip(part, by)]
        if live:
            rest.remove(live[0])
            made.append((cell, *live[0]))
    return made


def coefficients(rows, generators):
    """For each row the factors with which the generators make it, or None where they are past their limit."""
    made, found = steps(generators), []
    for row in rows:
        rest, factors = list(row), [0] * len(generators)
        for cell, v, by in made:
            times, left = divmod(rest[cell], v[cell])
            assert left == 0, "the row is not in the lattice"
            rest = [x - times * y for x, y in zip(rest, v)]
            factors = [x + times * y for x, y in zip(factors, by)]
        assert combination(factors, generators) == row, "the row is not in the lattice"
        if past(factors, COEFFICIENT):
            return None
        found.append(factors)
    return found
