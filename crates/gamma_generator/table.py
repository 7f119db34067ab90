#!/usr/bin/env python3
"""The source of the table of ln_gamma, from what the generator prints. From the repository's root:

    target/bin/gamma_generator | python3 crates/gamma_generator/table.py > crates/gamma_table/src/entries.rt

Standard input has 256 lines of 16 hexadecimal digits, an f64's bits each. An entry is the shortest decimal number that
reads back as these bits.
"""
import struct
import sys

words = sys.stdin.read().split()
assert len(words) == 256 and all(len(w) == 16 for w in words)
print("// ln_gamma(d / 2) for d = 1 to 256, with the bits. Made by crates/gamma_generator/table.py, not by hand.")
print("pub const LN_GAMMA: [f64; 256] = [")
for w in words:
    print("    %r, // %s" % (struct.unpack(">d", bytes.fromhex(w))[0], w))
print("];")
