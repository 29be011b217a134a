#!/usr/bin/env python3
"""Compares `shapes mix` with the same hash in Python, over random seeds, lines, columns and lengths.

    python3 docs/compare_mix.py PROGRAM COUNT SEED
"""
import random
import subprocess
import sys

MODULUS = 2_147_483_647


def mix(seed, line, column, length, name=b"a"):
    found = 1
    for value in [seed, len(name), *name, line, column, length]:
        found = (found * 16_807 + value % MODULUS + 1) % MODULUS
    return found


def number(source, bits):
    """A number of so many bits: any, a short one, one of the greatest, or one beside the modulus."""
    kind = source.randrange(4)
    if kind == 0:
        return source.randrange(1 << bits)
    if kind == 1:
        return source.randrange(1 << source.randrange(1, bits + 1))
    if kind == 2:
        return (1 << bits) - 1 - source.randrange(3)
    near = source.choice([0, 1, MODULUS - 1, MODULUS, 2 * MODULUS, 2 * MODULUS + 1])
    return min((1 << bits) - 1, max(0, near + source.randrange(-2, 3)))


def main():
    program, count, seed = sys.argv[1], int(sys.argv[2]), int(sys.argv[3])
    source = random.Random(seed)
    differ = 0
    for _ in range(count):
        given = [number(source, bits) for bits in (64, 32, 32, 64)]
        words = [program, "mix", *map(str, given)]
        told = subprocess.run(words, stdout=subprocess.PIPE, check=True).stdout.decode()
        differ += told != f"{mix(*given)}\n"
    print(f"{count} inputs, {differ} differ")


main()
