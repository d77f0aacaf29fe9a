#!/usr/bin/env python3
"""tests/lists.py PROGRAM [COUNT] [SEED]: the look-up of a list (request L4) through C, tests/callers/lists.c, beside the oracle: the cases worked out by hand and COUNT random ones.
tests/callers.sh runs it. The last line is 'N lists, K differ'; the status is 0 if none does."""
import os
import random
import struct
import subprocess
import sys

sys.path.insert(0, os.path.join(os.path.dirname(os.path.abspath(__file__)), "oracle"))
import lists
import oracle


def words(*numbers):
    return struct.pack("=%dI" % len(numbers), *numbers)


def main():
    program, count = sys.argv[1], int(sys.argv[2]) if len(sys.argv) > 2 else 20000
    rng = random.Random(int(sys.argv[3]) if len(sys.argv) > 3 else 1)
    cases = [(table, numbers, lent) for _, table, numbers, lent, _ in lists.HAND] + [lists.random_case(rng) for _ in range(count)]
    asked = b"".join(words(len(t), len(n), lent, *t, *n) for t, n, lent in cases)
    given = subprocess.run([program], input=asked, stdout=subprocess.PIPE, check=True).stdout
    at, differ = 0, 0
    for table, numbers, lent in cases:
        refusal, left = oracle.points_of(table, numbers, lent)
        expected = words(*((0,) + refusal if refusal else (1, 0, 0, 0, 0)), *left)
        if given[at:at + len(expected)] != expected:
            differ += 1
            print("differs:", table, numbers, lent)
        at += len(expected)
    differ += at != len(given)
    print("%d lists, %d differ" % (len(cases), differ))
    return differ != 0


if __name__ == "__main__":
    sys.exit(main())
