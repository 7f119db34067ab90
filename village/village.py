#!/usr/bin/env python3
"""Makes a sample village, a table of shops for village/leaf_file.py:

    python3 village/village.py > village/shops.csv
    python3 village/village.py equal > village/equal.csv
    python3 village/village.py nearer > village/nearer.csv

A line of a table is one shop: its baskets of the season, then its sales direction.

Without a word: twenty shops in three quarters that sell six product lines (bread, milk, fruit, wine, bait, garden),
the share of each with the squares adding up to 1. The shops of a quarter have that quarter's mean shares, each share
moved up or down by at most a fifth. The last shop, a kiosk between the harbour and the hill, lies halfway between two
quarters. The random numbers are SplitMix64's from seed 7, so the table is the same wherever it is made.

`equal`: ten shops that sell mostly bread and ten that sell mostly wine, each the mirror of another, and a new shop of
one basket that sells as much of both: it is equally like two groups, to the last bit. `nearer`: the same village, and
the new shop's bread one bit more.
"""

import sys

LINES = ["bread", "milk", "fruit", "wine", "bait", "garden"]
QUARTERS = [
    ("harbour", 8, [4.0, 2.0, 1.0, 1.0, 6.0, 0.5]),
    ("hill", 6, [3.0, 2.0, 2.0, 7.0, 0.5, 1.0]),
    ("fields", 5, [3.0, 5.0, 1.0, 0.5, 0.5, 6.0]),
]


def generator(state):
    """SplitMix64: the top 53 bits of each output, over 2^53."""
    mask = (1 << 64) - 1
    while True:
        state = (state + 0x9E3779B97F4A7C15) & mask
        z = state
        z = ((z ^ (z >> 30)) * 0xBF58476D1CE4E5B9) & mask
        z = ((z ^ (z >> 27)) * 0x94D049BB133111EB) & mask
        yield ((z ^ (z >> 31)) >> 11) / (1 << 53)


def direction(shares):
    norm = sum(x * x for x in shares) ** 0.5
    return [x / norm for x in shares]


def shops():
    draw = generator(7)
    for _, count, means in QUARTERS:
        for _ in range(count):
            baskets = 100 + int(400 * next(draw))
            yield baskets, direction([x * (0.8 + 0.4 * next(draw)) for x in means])
    harbour, hill = (direction(q[2]) for q in QUARTERS[:2])
    yield 60, direction([a + b for a, b in zip(harbour, hill)])


def table():
    yield "# baskets, " + ", ".join(LINES)
    for baskets, shares in shops():
        yield ", ".join([str(baskets)] + ["%.4f" % x for x in shares])


def mirrored(bread):
    yield "# baskets, bread, wine"
    for i in range(10):
        less = [0.0, 0.125, 0.25][i % 3]
        yield "1000, 1.0, %s" % less
        yield "1000, %s, 1.0" % less
    yield "1, %s, 0.7" % bread


TABLES = {"shops": table, "equal": lambda: mirrored("0.7"), "nearer": lambda: mirrored("0.7000000000000001")}

if __name__ == "__main__":
    for line in TABLES[sys.argv[1] if len(sys.argv) > 1 else "shops"]():
        print(line)
