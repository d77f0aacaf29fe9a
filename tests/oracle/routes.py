"""L5: routes over pairs of texts: cases with answers worked out by hand, a
generator of routes that are good by construction and then damaged, and a naive
second judgement that tries everything out.

A case is (label, RNDF, MDF, start, route, answer); the answer is `ok` or file,
line (the place or the goal's row) and number.
"""

import itertools

import generate
import maps
import oracle
from yards import ROUND_1, YARD_A, cut, put, text

LARGEST = 4_294_967_295

# Moves of yard A: 0 to 1 (the lane), 1 to 0 (the exit); goal 7 is at row 1.

# Rows: lane 1.1 has 0 1 2, lane 1.2 has 3 4, lane 2.1 has 5 6; zone 3 has the
# perimeter 7 8 and the spot 9 10, zone 4 the perimeter 11 and the spot 12 13.
# Exits: 2 to 8, 0 to 6, 1 to 3, 2 to itself, 8 to 5, 7 to 0.
YARD_R = """\
RNDF_name>r
num_segments>2
num_zones>2
segment>1
num_lanes>2
lane>1.1
num_waypoints>3
checkpoint>1.1.3>1
checkpoint>1.1.1>4
checkpoint>1.1.3>5
exit>1.1.3>3.0.2
exit>1.1.1>2.1.2
exit>1.1.2>1.2.1
exit>1.1.3>1.1.3
1.1.1>1.000000>1.000000
1.1.2>2.000000>2.000000
1.1.3>3.000000>3.000000
end_lane
lane>1.2
num_waypoints>2
1.2.1>4.000000>4.000000
1.2.2>5.000000>5.000000
end_lane
end_segment
segment>2
num_lanes>1
lane>2.1
num_waypoints>2
checkpoint>2.1.2>9
2.1.1>6.000000>6.000000
2.1.2>6.000000>6.000000
end_lane
end_segment
zone>3
num_spots>1
perimeter>3.0
num_perimeterpoints>2
exit>3.0.2>2.1.1
exit>3.0.1>1.1.1
3.0.1>7.000000>7.000000
3.0.2>8.000000>8.000000
end_perimeter
spot>3.1
checkpoint>3.1.2>31
3.1.1>9.000000>9.000000
3.1.2>9.500000>9.500000
end_spot
end_zone
zone>4
num_spots>1
perimeter>4.0
num_perimeterpoints>1
4.0.1>7.000000>7.000000
end_perimeter
spot>4.1
checkpoint>4.1.2>41
4.1.1>9.000000>9.000000
4.1.2>9.500000>9.500000
end_spot
end_zone
end_file
""".splitlines()


def mission(name, ids, *goals):
    return text(["MDF_name>m", "RNDF>" + name, "checkpoints", "num_checkpoints>%d" % len(goals)]
                + ["%d" % g for g in goals] + ["end_checkpoints", "speed_limits", "num_speed_limits>%d" % ids]
                + ["%d>5>0" % i for i in range(1, ids + 1)] + ["end_speed_limits", "end_file"])


def yard_a(start, route, want, *goals):
    goals = goals or (7,)
    return ("yard A, goals %s: %d, %s" % (list(goals), start, route), text(YARD_A), mission("yard_a", 1, *goals), start, route, want)


def yard_r(start, route, want, *goals):
    return ("yard R, goals %s: %d, %s" % (list(goals), start, route), text(YARD_R), mission("r", 4, *goals), start, route, want)


ONE_WAY = text(cut(YARD_A, 9))      # yard A without its exit

HAND = [
    yard_a(0, [0, 1], "ok"),
    yard_a(0, [], "0 0 21"),
    yard_a(0, [1], "0 0 21"),
    yard_a(2, [2], "0 0 21"),
    yard_a(2, [0, 1], "0 0 21"),
    yard_a(2, [], "0 0 21"),
    yard_a(LARGEST, [LARGEST], "0 0 21"),
    yard_a(0, [LARGEST, 1], "0 0 21"),
    yard_a(0, [0, 0], "0 1 22"),
    yard_a(0, [0, 2], "0 1 22"),
    yard_a(0, [0, LARGEST], "0 1 22"),
    yard_a(0, [0], "0 0 23"),
    yard_a(0, [0, 1, 0], "0 0 24"),
    yard_a(0, [0, 1, 0, 1], "ok"),
    yard_a(0, [0, 1, 1], "0 2 22"),
    yard_a(0, [0, 1, 0, 0, 9], "0 3 22"),
    yard_a(1, [1], "ok"),
    yard_a(1, [1, 0], "0 0 24"),
    yard_a(1, [1], "0 1 23", 7, 7),
    yard_a(1, [1, 0, 1], "ok", 7, 7),
    yard_a(1, [1, 0], "0 1 23", 7, 7),
    yard_a(1, [1, 0, 1], "0 2 23", 7, 7, 7),
    yard_a(0, [0, 0, 1], "0 1 22", 7, 7),
    yard_a(0, [1, 1], "0 0 21", 7, 7),
    ("one way: forth", ONE_WAY, text(ROUND_1), 0, [0, 1], "ok"),
    ("one way: back", ONE_WAY, text(ROUND_1), 1, [1, 0, 1], "0 1 22"),
    ("the RNDF is refused", text(YARD_A[:-1]), text(ROUND_1), 0, [0, 1], "1 14 10"),
    ("the MDF is refused", text(YARD_A), text(put(ROUND_1, 5, "8")), 0, [], "2 5 15"),
    yard_r(0, [0, 1, 2, 8, 10, 8, 5, 6], "ok", 31, 9),
    yard_r(0, [0, 1, 2, 8, 10, 9, 7, 8, 5, 6], "ok", 31, 9),
    yard_r(0, [0, 1, 2, 8, 5, 6], "0 0 23", 31, 9),
    yard_r(0, [0, 1, 2, 8, 5, 6], "0 1 23", 9, 31),
    yard_r(0, [0, 6], "ok", 9),                             # exits of a lane out of order
    yard_r(0, [0, 1, 3, 4], "0 0 23", 9),
    yard_r(6, [6, 0], "0 1 22", 9),                         # an exit backwards
    yard_r(3, [3, 1], "0 1 22", 4),
    yard_r(1, [1, 0], "0 1 22", 4),                         # a lane backwards
    yard_r(0, [0, 2], "0 1 22", 1),                         # a waypoint left out
    yard_r(2, [2, 3], "0 1 22", 1),                         # into the next lane
    yard_r(4, [4, 5], "0 1 22", 1),                         # into the next segment
    yard_r(6, [6, 7], "0 1 22", 9),                         # into the zone behind
    yard_r(10, [10, 11], "0 1 22", 31),                     # into the next zone
    yard_r(7, [7, 11], "0 1 22", 31),                       # equal position, another zone
    yard_r(13, [13, 14], "0 1 22", 41),                     # behind the last point
    yard_r(10, [10, 10], "0 1 22", 31),
    yard_r(5, [5, 6, 6], "0 2 22", 9),                      # equal position, same point
    yard_r(5, [5, 6], "ok", 9),                             # equal position, different points
    yard_r(11, [11, 13, 12, 11, 13], "ok", 41, 41),
    yard_r(13, [13, 12, 13], "ok", 41, 41),
    yard_r(13, [13, 11, 12], "0 0 24", 41),
    yard_r(9, [9, 7, 0, 1, 2], "ok", 4, 1),
    yard_r(2, [2, 2], "ok", 1, 1),                          # an exit to itself
    yard_r(2, [2, 2], "ok", 1, 5),                          # two numbers on one point: two places
    yard_r(2, [2], "0 1 23", 1, 5),
    yard_r(2, [2, 2, 2, 8], "0 0 24", 5, 1),
    yard_r(0, [0, 1, 2, 8, 7, 0, 1, 2], "ok", 4, 4, 1),
    yard_r(0, [0, 1, 2, 8, 7, 0, 1, 2], "0 2 23", 4, 4, 4, 1),
    yard_r(0, [0, 1, 2, 8, 7, 0, 1, 2], "0 2 23", 4, 1, 41, 1),
    yard_r(0, [0, 1, 2, 8, 7, 0, 1, 2, 2, 9], "0 9 22", 4, 41),
]


# --------------------------------------------------- a naive second judgement

def all_moves(network):
    """Every move, by the points' identifiers."""
    ids = [tuple(map(int, name.split("."))) for name in maps.ids_of(network)[2]]
    segments, exits = len(network.segments), set(network.exits)
    return {(a, b) for a, (x, y, z) in enumerate(ids) for b, (u, v, w) in enumerate(ids)
            if (x == u <= segments and y == v and w == z + 1)       # "a waypoint to the next in its lane"
            or (a, b) in exits                                      # "along an exit"
            or (x == u > segments and a != b)}                      # "in one zone, between any two different points"


def naive(network, goals, start, route):
    """`ok` or (line, number), by trying every choice of places out."""
    moves = all_moves(network)
    points = [dict(network.checkpoints)[number] for number, in goals]

    def met(count):
        """Whether the first goals are met in order, each at a strictly later place."""
        return any(all(route[p] == point for p, point in zip(places, points))
                   for places in itertools.combinations(range(len(route)), count))
    if not route or start >= len(network.points) or route[0] != start:
        return 0, 21
    for place in range(1, len(route)):
        if (route[place - 1], route[place]) not in moves:
            return place, 22
    for row in range(len(points)):
        if not met(row + 1):
            return row, 23
    return "ok" if route[-1] == points[-1] else (0, 24)


# ------------------------------------------------------------- the generator

def onward_of(network):
    """A function from a point to the points that a move leads to."""
    lane_end, zone, exits = {}, {}, {}
    for first, points, *_ in network.lanes:
        lane_end.update((p, first + points) for p in range(first, first + points))
    for first, points, _, spots, _ in network.zones:
        span = range(first, first + points + 2 * spots)
        zone.update((p, span) for p in span)
    for a, b in network.exits:
        exits.setdefault(a, []).append(b)

    def onward(a):
        return ([a + 1] if a + 1 < lane_end.get(a, 0) else []) + exits.get(a, []) + [b for b in zone.get(a, ()) if b != a]
    return onward


def large_yard(rng):
    """A pair with up to 64 lanes and 8 zones, and exits in any order, many from one
    part; as generate.make has it."""
    segments = [[rng.randint(1, 6) for _ in range(rng.randint(1, 8))] for _ in range(rng.randint(1, 8))]
    zones = [(rng.randint(1, 5), rng.randint(0, 4)) for _ in range(rng.randint(0, 8))]
    m = len(segments)
    lane_points = [(s, n, p) for s, lanes in enumerate(segments, 1) for n, points in enumerate(lanes, 1) for p in range(1, points + 1)]
    entries = lane_points + [(z, 0, p) for z, (points, _) in enumerate(zones, m + 1) for p in range(1, points + 1)]
    numbers = iter(rng.sample(range(1, 32769), len(entries) + 40))

    def dotted(*parts):
        return ".".join(map(str, parts)).encode()

    def points(x, y, count):
        return [[dotted(x, y, p), generate.random_degrees(rng, 90_000_000)[0], generate.random_degrees(rng, 180_000_000)[0]]
                for p in range(1, count + 1)]

    def exits(x, y, count, targets):
        return [[b"exit", dotted(x, y, rng.randint(1, count)), dotted(*rng.choice(targets))] for _ in range(rng.choice([0, 1, 2, 4, 12]))]

    lines = [[b"RNDF_name", b"large"], [b"num_segments", b"%d" % m], [b"num_zones", b"%d" % len(zones)]]
    for s, lanes in enumerate(segments, 1):
        lines += [[b"segment", b"%d" % s], [b"num_lanes", b"%d" % len(lanes)]]
        for n, count in enumerate(lanes, 1):
            lines += [[b"lane", dotted(s, n)], [b"num_waypoints", b"%d" % count]] + exits(s, n, count, entries)
            lines += [[b"checkpoint", dotted(s, n, p), b"%d" % next(numbers)] for p in range(1, count + 1) if s == n == p == 1 or rng.random() < 0.3]
            lines += points(s, n, count) + [[b"end_lane"]]
        lines.append([b"end_segment"])
    for z, (count, spots) in enumerate(zones, m + 1):
        lines += [[b"zone", b"%d" % z], [b"num_spots", b"%d" % spots], [b"perimeter", dotted(z, 0)], [b"num_perimeterpoints", b"%d" % count]]
        lines += exits(z, 0, count, lane_points) + points(z, 0, count) + [[b"end_perimeter"]]
        for y in range(1, spots + 1):
            lines += [[b"spot", dotted(z, y)], [b"checkpoint", dotted(z, y, 2), b"%d" % next(numbers)]] + points(z, y, 2) + [[b"end_spot"]]
        lines.append([b"end_zone"])
    made = generate.Made()
    made.rndf_lines = lines + [[b"end_file"]]
    rndf = b"".join(b"\t".join(fields) + b"\n" for fields in made.rndf_lines)
    made.network = oracle.network_of(oracle.read_rndf(rndf, dict.fromkeys(oracle.TABLES, 4000)), rndf)
    ids = m + len(zones)
    made.mdf_lines = [line.split(b"\t") for line in mission("large", ids, made.network.checkpoints[0][0]).splitlines()]
    made.mission = oracle.Mission(b"m", b"large", b"", b"", [], [(i, 5, 0) for i in range(1, ids + 1)])
    return made


def good(rng, large_ones=0.1):
    """A random pair with a route that is good by construction: a walk by moves
    that ends at a checkpoint, and goals at rising places of it."""
    while True:
        large = rng.random() < large_ones
        made = large_yard(rng) if large else generate.make(rng, rng.choice([2, 3, 5]))
        network = made.network
        numbers = {}
        for number, point in network.checkpoints:
            numbers.setdefault(point, []).append(number)
        onward = onward_of(network)
        route = [rng.randrange(len(network.points))]
        longest = rng.choice([20, 60, 200]) if large else rng.choice([2, 5, 9, 12])
        while len(route) < longest and onward(route[-1]):
            route.append(rng.choice(onward(route[-1])))
        marked = [p for p, point in enumerate(route) if point in numbers]
        if not marked or (len(route) < 3 and rng.random() < 0.8):
            continue
        route = route[:marked[-1] + 1]
        places = sorted(rng.sample(marked[:-1], min(len(marked) - 1, rng.randint(0, 12 if large else 3)))) + marked[-1:]
        set_goals(made, [rng.choice(numbers[route[p]]) for p in places])
        return made, route[0], route


def set_goals(made, goals):
    made.mission.goals = [(g,) for g in goals]
    lines = made.mdf_lines
    first = next(i for i, f in enumerate(lines) if f[0] == b"num_checkpoints")
    last = next(i for i, f in enumerate(lines) if f[0] == b"end_checkpoints")
    lines[first:last] = [[b"num_checkpoints", b"%d" % len(goals)]] + [[b"%d" % g] for g in goals]


def left_out(rng, made, start, route):
    k = rng.randrange(len(route))
    return start, route[:k] + route[k + 1:]


def doubled(rng, made, start, route):
    k = rng.randrange(len(route))
    return start, route[:k] + route[k:k + 1] + route[k:]


def another_point(rng, made, start, route):
    k = rng.randrange(len(route))
    return start, route[:k] + [rng.randrange(len(made.network.points) + 1)] + route[k + 1:]


def out_of_range(rng, made, start, route):
    k = rng.randrange(len(route))
    points = len(made.network.points)
    return start, route[:k] + [rng.choice([points, points + 1, LARGEST, 1 << 31])] + route[k + 1:]


def cut_short(rng, made, start, route):
    return start, route[:rng.randrange(len(route))]


def gone_on(rng, made, start, route):
    """A move or two behind the end."""
    onward = onward_of(made.network)
    for _ in range(rng.randint(1, 2)):
        if route[-1] < len(made.network.points):
            route = route + (onward(route[-1]) and [rng.choice(onward(route[-1]))])
    return start, route


def wrong_start(rng, made, start, route):
    points = len(made.network.points)
    start = rng.choice([start + 1, max(0, start - 1), rng.randrange(points), points, LARGEST])
    return start, [start] + route[1:] if rng.random() < 0.4 else route


def exit_backwards(rng, made, start, route):
    """From an exit's entry to its point, as a step of its own."""
    if not made.network.exits:
        return start, route
    a, b = rng.choice(made.network.exits)
    k = rng.choice([i for i, point in enumerate(route) if point == b] or [rng.randrange(len(route))])
    return start, route[:k + 1] + [a] + route[k + 1:]


def backwards(rng, made, start, route):
    return start, route[::-1]


def goals_swapped(rng, made, start, route):
    goals = [g for g, in made.mission.goals]
    i, j = rng.randrange(len(goals)), rng.randrange(len(goals))
    goals[i], goals[j] = goals[j], goals[i]
    set_goals(made, goals)
    return start, route


def another_goal(rng, made, start, route):
    goals = [g for g, in made.mission.goals]
    number = rng.choice(made.network.checkpoints)[0]
    k = rng.randrange(len(goals))
    set_goals(made, rng.choice([goals[:k] + [number] + goals[k + 1:], goals[:k] + [number] + goals[k:], goals + goals[-1:]]))
    return start, route


def into_the_next_part(rng, made, start, route):
    """From a part's last point to the point behind it."""
    k = rng.randrange(len(route))
    return start, route[:k] + [route[k], route[k] + 1] + route[k + 1:]


DAMAGE = [left_out, doubled, another_point, out_of_range, cut_short, gone_on, wrong_start, exit_backwards, backwards,
          goals_swapped, another_goal, into_the_next_part]


def random_case(rng, large_ones=0.1):
    """(made, start, route, kinds of damage): about a third is left whole."""
    made, start, route = good(rng, large_ones)
    kinds = []
    for _ in range(rng.choice([0, 1, 1, 2])):
        kind = rng.choice(DAMAGE)
        if route:
            start, route = kind(rng, made, start, route)
            kinds.append(kind.__name__)
    return made, min(start, LARGEST), [min(point, LARGEST) for point in route], kinds


# Small mistakes in the oracle's judgement, each of which the damage run's routes notice (tests/damage/compare.py --mutants).
MUTANTS = [
    ("b == a + 1 < first + points", "b == a + 1 <= first + points"),
    ("b == a + 1 < first + points", "b in (a + 1, a - 1) and b < first + points"),
    ("b == a + 1 < first + points", "a < b < first + points"),
    ("if (exit_point, entry) == (a, b):", "if (exit_point, entry) in ((a, b), (b, a)):"),
    ("if (exit_point, entry) == (a, b):", "if False:"),
    ("and b in zone and a != b:", "and b in zone:"),
    ("range(first, first + points + 2 * spots)", "range(first, first + points)"),
    ("range(first, first + points + 2 * spots)", "range(first, first + points + 2 * spots + 1)"),
    ("if a in zone and b in zone", "if a in zone"),
    ("not route or start >= len(network.points) or", "not route or start > len(network.points) or"),
    ("start >= len(network.points) or route[0] != start", "start >= len(network.points)"),
    ("if not route or start", "if start"),
    ("for place in range(1, len(route)):", "for place in range(2, len(route)):"),
    ("for place in range(1, len(route)):", "for place in range(1, len(route) - 1):"),
    ("return 0, place, 22", "return 0, place - 1, 22"),
    ("return 0, place, 22", "return 0, place + 1, 22"),
    ("return 0, row, 23", "return 0, row + 1, 23"),
    ("return 0, row, 23", "return 0, number, 23"),
    ("    place = 0                ", "    place = 1                "),
    ("            return 0, row, 23, 0\n        place += 1\n", "            return 0, row, 23, 0\n"),
    ("    if route[-1] != points[mission.goals[-1][0]]:", "    if place != len(route):"),
    ("    if route[-1] != points[mission.goals[-1][0]]:", "    if False:"),
    ("    for place in range(1, len(route)):\n        if not is_move", "    for place in range(len(route) - 1, 0, -1):\n        if not is_move"),
]
