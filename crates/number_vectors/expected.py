#!/usr/bin/env python3
# What the vectors of `stdin` must give, worked out from document 01's sentences alone: python3 expected.py < stdin > stdout
import re
import sys

INTEGER = r"(0|[1-9][0-9]{0,4})"  # "1 to 5 digits, no leading zero but `0` itself"
# "optional `-`, 1 to 3 digits with no leading zero but a single `0`, a point, exactly six digits"
COORDINATE = r"(-?)(0|[1-9][0-9]{0,2})\.([0-9]{6})"


def integers(field, count):  # "integers joined by dots"
    m = re.fullmatch(r"\.".join([INTEGER] * count), field)
    if not m:
        return "refused 8"
    values = [int(g) for g in m.groups()]
    if any(v > 32768 for v in values):  # "at most 32,768"
        return "refused 9"
    return " ".join(str(v) for v in values)


def coordinate(field, limit):
    m = re.fullmatch(COORDINATE, field)
    if not m:
        return "refused 8"
    size = int(m[2]) * 1000000 + int(m[3])  # "a signed count of millionths of a degree"
    value = -size if m[1] else size  # "-0.000000 reads as 0"
    if not -limit <= value <= limit:
        return "refused 9"
    return str(value)


def name(field):  # "1 to 128 bytes"
    return str(len(field)) if 1 <= len(field) <= 128 else "refused 8"


KINDS = {
    "i": lambda f: integers(f, 1),
    "p": lambda f: integers(f, 2),
    "t": lambda f: integers(f, 3),
    "a": lambda f: coordinate(f, 90000000),
    "o": lambda f: coordinate(f, 180000000),
    "n": name,
}

for line in sys.stdin.read().split("\n")[:-1]:
    print(f"{line}: {KINDS[line[0]](line[2:])}")
