#!/usr/bin/env python3
"""Writes clause lists in the DIMACS format for the solver.

    clause_lists.py pigeons PIGEONS HOLES            so many pigeons do not fit into fewer holes
    clause_lists.py exclusive-or WIDTH               (x xor y) xor y differs from x, for two words of this width
    clause_lists.py random VARIABLES CLAUSES SEED    clauses of three literals, drawn by chance
    clause_lists.py commuting WIDTH                  x * y differs from y * x
    clause_lists.py adders WIDTH                     two adders, which make their carries in two ways, differ
    clause_lists.py population WIDTH                 the set bits of a word are more than its bits

All but some of the random ones have no solution.
"""
import random
import sys


class ClauseList:
    def __init__(self):
        self.variables = 0
        self.clauses = []

    def variable(self):
        self.variables += 1
        return self.variables

    def word(self, width):
        return [self.variable() for _ in range(width)]

    def add(self, *literals):
        self.clauses.append(literals)

    def exclusive_or(self, a, b):
        gate = self.variable()
        self.add(-gate, a, b)
        self.add(-gate, -a, -b)
        self.add(gate, -a, b)
        self.add(gate, a, -b)
        return gate

    def conjunction(self, a, b):
        gate = self.variable()
        self.add(-gate, a)
        self.add(-gate, b)
        self.add(gate, -a, -b)
        return gate

    def disjunction(self, a, b):
        return -self.conjunction(-a, -b)

    def majority(self, a, b, c):
        gate = self.variable()
        for one, other in ((a, b), (a, c), (b, c)):
            self.add(gate, -one, -other)
            self.add(-gate, one, other)
        return gate

    def full_adder(self, a, b, c):
        return self.exclusive_or(self.exclusive_or(a, b), c), self.majority(a, b, c)

    def half_adder(self, a, b):
        return self.exclusive_or(a, b), self.conjunction(a, b)

    def differ(self, one, other):
        """Some bit of the one word is not that of the other."""
        self.add(*[self.exclusive_or(a, b) for a, b in zip(one, other)])

    def write(self):
        print(f"p cnf {self.variables} {len(self.clauses)}")
        for clause in self.clauses:
            print(*clause, 0)


def pigeons(count, holes):
    clauses = ClauseList()
    sits = [clauses.word(holes) for _ in range(count)]
    for pigeon in range(count):
        clauses.add(*sits[pigeon])
    for hole in range(holes):
        for one in range(count):
            for other in range(one + 1, count):
                clauses.add(-sits[one][hole], -sits[other][hole])
    return clauses


def exclusive_or_swap(width):
    clauses = ClauseList()
    x = clauses.word(width)
    y = clauses.word(width)
    once = [clauses.exclusive_or(a, b) for a, b in zip(x, y)]
    twice = [clauses.exclusive_or(a, b) for a, b in zip(once, y)]
    differ = [clauses.exclusive_or(a, b) for a, b in zip(twice, x)]
    equal = -differ[0]
    for bit in differ[1:]:
        equal = clauses.conjunction(equal, -bit)
    clauses.add(-equal)
    return clauses


def chance(variables, count, seed):
    draw = random.Random(seed)
    clauses = ClauseList()
    clauses.word(variables)
    for _ in range(count):
        names = draw.sample(range(1, variables + 1), 3)
        clauses.add(*[name if draw.random() < 0.5 else -name for name in names])
    return clauses


def product(clauses, x, y):
    """The low bits of the product, by rows of adders."""
    width = len(x)
    total = [clauses.conjunction(bit, y[0]) for bit in x]
    bits = [total[0]]
    rest = total[1:]
    for row in range(1, width):
        part = [clauses.conjunction(bit, y[row]) for bit in x]
        carry = None
        added = []
        for place, bit in enumerate(part):
            if place < len(rest):
                other = rest[place]
                if carry is None:
                    one, carry = clauses.half_adder(bit, other)
                else:
                    one, carry = clauses.full_adder(bit, other, carry)
            else:
                one, carry = clauses.half_adder(bit, carry)
            added.append(one)
        bits.append(added[0])
        rest = added[1:] + [carry]
    return bits + rest


def commuting(width):
    clauses = ClauseList()
    x = clauses.word(width)
    y = clauses.word(width)
    clauses.differ(product(clauses, x, y), product(clauses, y, x))
    return clauses


def adders(width):
    clauses = ClauseList()
    x = clauses.word(width)
    y = clauses.word(width)
    one, other = [], []
    carry, rest = clauses.half_adder(x[0], y[0]), clauses.half_adder(y[0], x[0])
    one.append(carry[0])
    other.append(rest[0])
    carry, rest = carry[1], rest[1]
    for a, b in zip(x[1:], y[1:]):
        bit, carry = clauses.full_adder(a, b, carry)
        one.append(bit)
        half = clauses.exclusive_or(b, a)
        other.append(clauses.exclusive_or(half, rest))
        rest = clauses.disjunction(clauses.conjunction(b, a), clauses.conjunction(rest, half))
    clauses.differ(one + [carry], other + [rest])
    return clauses


def total_of(clauses, one, other):
    bits, carry = [], None
    for place in range(max(len(one), len(other))):
        here = [word[place] for word in (one, other) if place < len(word)]
        if carry is not None:
            here.append(carry)
        if len(here) == 1:
            bits.append(here[0])
            carry = None
        elif len(here) == 2:
            bit, carry = clauses.half_adder(*here)
            bits.append(bit)
        else:
            bit, carry = clauses.full_adder(*here)
            bits.append(bit)
    return bits + ([carry] if carry is not None else [])


def population(width):
    clauses = ClauseList()
    counts = [[bit] for bit in clauses.word(width)]
    while len(counts) > 1:
        pairs = list(zip(counts[0::2], counts[1::2]))
        counts = [total_of(clauses, *pair) for pair in pairs] + (counts[-1:] if len(counts) % 2 else [])
    count = counts[0]
    top = count[-1]
    clauses.add(top)
    clauses.add(*count[:-1])
    return clauses


MAKERS = {
    "pigeons": (pigeons, 2),
    "exclusive-or": (exclusive_or_swap, 1),
    "random": (chance, 3),
    "commuting": (commuting, 1),
    "adders": (adders, 1),
    "population": (population, 1),
}


def main(words):
    if not words or words[0] not in MAKERS or len(words) - 1 != MAKERS[words[0]][1]:
        sys.exit(__doc__)
    maker = MAKERS[words[0]][0]
    maker(*[int(word) for word in words[1:]]).write()


main(sys.argv[1:])
