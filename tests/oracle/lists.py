"""L4: lists of checkpoint numbers, with the answers worked out by hand, and random ones.

A case is (label, table, numbers, lent length, answer): the table as flat numbers,
the answer the points in order, or None where the lists differ in length (20).
"""

NONE = 4_294_967_295
TABLE = [7, 1, 9, 5, 7, 3]      # the rows (7, 1), (9, 5), (7, 3)

HAND = [
    ("known, unknown, 0 and again", TABLE, [7, 9, 8, 0, 7], 5, [1, 5, NONE, NONE, 1]),
    ("no numbers", TABLE, [], 0, []),
    ("no numbers, no table", [], [], 0, []),
    ("the first row with that number", TABLE, [7, 7, 7], 3, [1, 1, 1]),
    ("one", TABLE, [9], 1, [5]),
    ("one, unknown", TABLE, [1], 1, [NONE]),
    ("an unknown number doesn't stop the rest", TABLE, [3, 9], 2, [NONE, 5]),
    ("lent one more", TABLE, [7], 2, None),
    ("lent one less", TABLE, [7, 9], 1, None),
    ("lent none", TABLE, [7], 0, None),
    ("lent one for no numbers", TABLE, [], 1, None),
    ("lent more, all unknown", TABLE, [0, 0], 3, None),
    ("a table of no rows", [], [7, 0], 2, [NONE, NONE]),
    ("a table of no rows, lent more", [], [7], 2, None),
    ("a table of no rows, lent less", [], [7, 7], 1, None),
    ("a table of no rows, lent none", [], [7], 0, None),
    ("half a row is no row", [7], [7], 1, [NONE]),
    ("half a row behind two", [7, 1, 9, 5, 8], [8, 9], 2, [NONE, 5]),
    ("number 0 in the table", [0, 4, 7, 1], [0, 7], 2, [NONE, 1]),
    ("the largest number, unknown", TABLE, [NONE], 1, [NONE]),
    ("the largest number, in the table", [NONE, 6, 7, 1], [7, NONE], 2, [1, 6]),
    ("the largest number as a point", [7, NONE, 9, 2], [7, 9, 8], 3, [NONE, 2, NONE]),
    ("the largest number as a point, then another row", [7, NONE, 7, 2], [7], 1, [NONE]),
    ("point 0", [7, 0, 9, 1], [9, 7], 2, [1, 0]),
    ("numbers that agree in their last 16 bits", [65543, 1, 7, 2], [7, 65543, 131079], 3, [2, 1, NONE]),
    ("numbers that look like points", TABLE, [1, 5, 3], 3, [NONE, NONE, NONE]),
    ("found in each of nine rows", [n for i in range(1, 10) for n in (i, 100 + i)], list(range(9, 0, -1)), 9,
     [100 + i for i in range(9, 0, -1)]),
    ("the table's numbers backwards, with 0 between", [3, 30, 2, 20, 1, 10], [1, 0, 2, 0, 3, 0], 6,
     [10, NONE, 20, NONE, 30, NONE]),
]


def naive(table, numbers, lent):
    """"The outcome equals the single question put for each number in turn",
    written again without the oracle: rows are gone through from the last to
    the first, so that the first one stays."""
    if len(numbers) != lent:
        return None
    first = {}
    for row in reversed(range(len(table) // 2)):
        first[table[2 * row]] = table[2 * row + 1]
    return [NONE if n == 0 or n not in first else first[n] for n in numbers]


def random_case(rng):
    """(table, numbers, lent length): any table, also an odd one, with numbers
    that come again; numbers mostly known; now and then another length."""
    pool = [0, 1, 2, 7, 32768, 65543, NONE] + [rng.randint(1, 32768) for _ in range(rng.randint(1, 12))]
    rows = rng.choice([0, 1, 2, 3, 4, 7, 8, 9, 16, 17, rng.randint(0, 60)])
    table = []
    for _ in range(rows):
        table += [rng.choice(pool), rng.choice([0, 1, NONE, rng.randint(0, 100)])]
    if rng.random() < 0.2:
        table.append(rng.choice(pool))
    numbers = [rng.choice(pool + [rng.randint(0, NONE)]) for _ in range(rng.choice([0, 1, 2, 3, 5, 50, rng.randint(0, 70)]))]
    lent = len(numbers)
    if rng.random() < 0.2:
        lent = max(0, lent + rng.choice([-1, 1, 1, 5, -lent]))
    return table, numbers, lent
