#!/usr/bin/env python3
"""The program crcsum against Python's binascii.crc_hqx, an independent implementation of the same CRC.

test_crc.py                       run all inputs; stop at the first difference
test_crc.py PATTERN SEED LENGTH   write one input to standard output
"""
import binascii
import random
import sys

from programs import Program

LONGEST = 70_000
SPREAD = 430  # lengths from 65 to LONGEST, for each pattern
EDGES = [255, 256, 257, 4095, 4096, 4097, 32_767, 32_768, 65_531, 65_532, 65_535, 65_536, 65_537, LONGEST]
PATTERNS = {
    "random": lambda rng, n: rng.randbytes(n),
    "zeros": lambda rng, n: bytes(n),
    "ones": lambda rng, n: b"\xff" * n,
    "sync": lambda rng, n: (b"\x24\x40" * (n // 2 + 1))[:n],
}


def data_of(pattern, seed, length):
    return PATTERNS[pattern](random.Random(seed), length)


def cases():
    """(name, input, expected output); the seed is the case's number."""
    spread = [65 + i * (LONGEST - 65) // (SPREAD - 1) for i in range(SPREAD)]
    lengths = list(range(65)) + EDGES + spread
    for seed, (length, pattern) in enumerate((n, p) for n in lengths for p in PATTERNS):
        data = data_of(pattern, seed, length)
        yield f"test_crc: {pattern}, seed {seed}, length {length}", data, f"{binascii.crc_hqx(data, 0):04x}\n"


if __name__ == "__main__":
    if len(sys.argv) == 4:
        sys.stdout.buffer.write(data_of(sys.argv[1], int(sys.argv[2]), int(sys.argv[3])))
    else:
        sys.exit(Program("crcsum", "binascii.crc_hqx").compare(cases()))
