#!/usr/bin/env python3
"""Makes the table of word arithmetic that crates/word_vectors/stdin holds.

Each line is: operation, signed (0 or 1), width, first value, second value, result. The results are Python's, by whole
numbers of any size: a signed word is read as a number, and a result is cut to the width.

    python3 crates/word_vectors/data/make_vectors.py > crates/word_vectors/stdin
"""
import random

WIDTHS = [1, 2, 3, 7, 8, 16, 31, 32, 33, 63, 64, 65, 127, 128]


def number(value, width, signed):
    return value - (1 << width) if signed and value >> (width - 1) else value


def cut(value, width):
    return value % (1 << width)


def outside(value, width, signed):
    low, high = (-(1 << (width - 1)), 1 << (width - 1)) if signed else (0, 1 << width)
    return int(not low <= value < high)


def towards_zero(a, b):
    quotient = abs(a) // abs(b)
    return quotient if (a < 0) == (b < 0) else -quotient


def lawful(a, b, width, signed):
    return b != 0 and not (signed and a == -(1 << (width - 1)) and b == -1)


def result(operation, signed, width, x, y):
    a, b = number(x, width, signed), number(y, width, signed)
    amount = y % width
    if operation == "div":
        return cut(towards_zero(a, b), width)
    if operation == "rem":
        return cut(a - b * towards_zero(a, b), width)
    return {
        "add": lambda: cut(a + b, width),
        "sub": lambda: cut(a - b, width),
        "mul": lambda: cut(a * b, width),
        "and": lambda: x & y,
        "or": lambda: x | y,
        "xor": lambda: x ^ y,
        "not": lambda: cut(~x, width),
        "neg": lambda: cut(-x, width),
        "shl": lambda: cut(x << amount, width),
        "shr": lambda: cut(a >> amount, width),
        "less": lambda: int(a < b),
        "add_overflows": lambda: outside(a + b, width, signed),
        "sub_overflows": lambda: outside(a - b, width, signed),
        "mul_overflows": lambda: outside(a * b, width, signed),
        "lawful_divisor": lambda: int(lawful(a, b, width, signed)),
        "cast": lambda: cut(a, y),
    }[operation]()


def corners(width):
    top = 1 << width
    return sorted({0, 1, top - 1, top >> 1, (top >> 1) - 1, top // 3, (top - 2) % top})


def main():
    chance = random.Random(20260401)
    unsigned_only = ["add", "sub", "mul", "and", "or", "xor", "not", "neg", "shl"]
    both = ["div", "rem", "shr", "less", "add_overflows", "sub_overflows", "mul_overflows", "lawful_divisor", "cast"]
    rows = []
    for width in WIDTHS:
        for operation in unsigned_only + both:
            for signed in [0] if operation in unsigned_only else [0, 1]:
                values = corners(width) + [chance.getrandbits(width) for _ in range(4)]
                for _ in range(2):
                    x, y = chance.choice(values), chance.choice(values)
                    if operation == "cast":
                        y = chance.choice(WIDTHS)
                    if operation in ("div", "rem") and not lawful(
                        number(x, width, signed), number(y, width, signed), width, signed
                    ):
                        y = 1
                        if width == 1 and signed:
                            x = 0
                    rows.append((operation, signed, width, x, y))
    # the edges that are easiest to get wrong
    for width in WIDTHS:
        least, most, ones = 1 << (width - 1), (1 << (width - 1)) - 1, (1 << width) - 1
        rows.append(("lawful_divisor", 1, width, least, ones))
        rows.append(("lawful_divisor", 0, width, least, ones))
        rows.append(("mul_overflows", 1, width, least, ones))
        rows.append(("mul_overflows", 1, width, most, most))
        rows.append(("add_overflows", 1, width, least, ones))
        rows.append(("sub_overflows", 1, width, 0, least))
        rows.append(("neg", 0, width, least, 0))
        rows.append(("shl", 0, width, ones, width & ones))
        rows.append(("shr", 1, width, least, (width + 1) & ones))
        rows.append(("cast", 1, width, least, 128))
        if width > 1:
            rows.append(("rem", 1, width, ones, most))
            rows.append(("div", 1, width, least, most))
    for row in rows:
        print(*row, result(*row))


main()
