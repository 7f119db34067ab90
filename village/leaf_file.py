#!/usr/bin/env python3
"""Makes a leaf file of a plain table of numbers:

    python3 village/leaf_file.py < shops.csv > shops.leaf

A line is one shop: its weight, then its coordinates, with commas between. Empty lines and lines that begin with # are passed over. Sizes
first, m and d as u32, then the m weights and the m rows of d coordinates as f64, all little-endian. What the numbers may be is not checked
here: the listing program refuses what it must.
"""

import struct
import sys


def table(lines):
    for number, line in enumerate(lines, 1):
        line = line.strip()
        if line and not line.startswith("#"):
            try:
                yield [float(x) for x in line.split(",")]
            except ValueError:
                sys.exit("line %d is not a list of numbers: %s" % (number, line))


def leaf_file(rows):
    if len({len(row) for row in rows}) > 1:
        sys.exit("the shops have different numbers of coordinates")
    d = len(rows[0]) - 1 if rows else 0
    numbers = [row[0] for row in rows] + [x for row in rows for x in row[1:]]
    return struct.pack("<II%dd" % len(numbers), len(rows), d, *numbers)


if __name__ == "__main__":
    sys.stdout.buffer.write(leaf_file(list(table(sys.stdin))))
