#!/usr/bin/env python3
# What the vectors must give, worked out from document 01's sentences alone: python3 expected.py > stdout
EDGES = [0, 1, 7, 8, 9, 16, 17, 255, 256, 32767, 32768, 32769, 65535, 65537]


def a_number(n):  # "Integer: .. at most 32,768", "Checkpoint numbers are > 0", "segments 1 to M; zones M+1 to M+N", "M + N ≤ 32,768"
    return 1 <= n <= 32768


def first_repeat(numbers):  # 13: "checkpoint number already declared"
    for row, n in enumerate(numbers):
        if a_number(n) and n in numbers[:row]:
            return f" r{row}"
    return " -"


def first_foreign(numbers, goals):  # 15: "goal not a checkpoint of the RNDF"
    for row, n in enumerate(goals):
        if not (a_number(n) and n in numbers):
            return f" f{row}"
    return " -"


def first_bad_limit(ids, parts):  # 16: "limit's id not in the RNDF"; 17: "limit's id already given"
    for row, n in enumerate(ids):
        if not (a_number(n) and n <= parts):
            return f" n{row}"
        if n in ids[:row]:
            return f" a{row}"
    return " -"


for a in EDGES:
    line = "".join(first_repeat([a, b]) for b in EDGES)
    line += "".join(first_foreign([a], [b]) for b in EDGES)
    line += "".join(first_bad_limit([a, b], 32768) for b in EDGES)
    print(line)
print("".join(" r32768" if a_number(n) else " -" for n in EDGES))  # every number 1 to 32,768 stands in rows 0 to 32,767, so row 32,768 repeats one if it is a number
