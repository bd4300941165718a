#!/usr/bin/env python3
"""Writes the cases of crates/deviations and what document 01 says of each, from its sentence alone:
"|new - old| x 10^9 > alpha x |old|, exactly, over the full signed range". Python's integers have no width.

  python3 reference/deviations.py      from the repository's root
"""
import random
import struct

LEAST, MOST = -2**63, 2**63 - 1
BILLION = 10**9


def deviates(alpha, old, new):
    return abs(new - old) * BILLION > alpha * abs(old)


def cases():
    # document 01's own seven, and two that tell |old| from |new| on the right side
    yield from [(5000000, 20000, 20100), (5000000, 20000, 20101), (5000000, -200, -201), (5000000, -200, -202),
                (5000000, 0, 0), (5000000, 0, 1), (5000000, LEAST, MOST)]
    yield from [(BILLION, 1, 0), (BILLION, 100, 201)]
    edges = [LEAST, LEAST + 1, -2**32, -1, 0, 1, 2**32 - 1, 2**32, MOST - 1, MOST]
    for alpha in (0, 1, BILLION - 1, BILLION, 2**32 - 1):
        for old in edges:
            for new in edges:
                yield alpha, old, new
    # on both sides of the threshold, where a rounded division or a lost bit shows
    draw = random.Random(1)
    for _ in range(300):
        alpha = draw.randrange(BILLION + 1)
        old = draw.randrange(LEAST, MOST + 1) >> draw.randrange(0, 60)
        reach = alpha * abs(old) // BILLION
        for step in (reach, reach + 1):
            for new in (old - step, old + step):
                if LEAST <= new <= MOST:
                    yield alpha, old, new


def main():
    with open('crates/deviations/stdin', 'wb') as stdin, open('crates/deviations/stdout', 'w') as stdout:
        for alpha, old, new in cases():
            stdin.write(struct.pack('>Iqq', alpha, old, new))
            stdout.write('yes\n' if deviates(alpha, old, new) else 'no\n')


main()
