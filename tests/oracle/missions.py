"""L13: can the mission be driven at all?  Cases with answers worked out by hand,
a naive second judgement, and a generator of missions over yards in which much
can't be reached.

A case is (label, RNDF, MDF, start, rows of the work space, answer); the answer
is `ok` or file, line (the goal's row) and number.  Yards A and R: routes.py.
"""

import generate
import oracle
import routes
from routes import LARGEST, ONE_WAY, YARD_R, mission
from yards import ROUND_1, YARD_A, put, text

# Rows: lane 1.1 has 0 1 2, lane 1.2 has 3 4 5, lane 1.3 has 6 7; zone 2 has the
# one point 8, and no spot.  Lane 1.1's exits lead to lane 1.2 from its last point
# to its first, 0 to 5, 1 to 4, 2 to 3; of lane 1.2 only row 3 has an exit, to
# zone 2; from there one leads to row 6.  Each lane's points have the numbers of
# their rows, but for 0, which has 10.
YARD_S = """\
RNDF_name>s
num_segments>1
num_zones>1
segment>1
num_lanes>3
lane>1.1
num_waypoints>3
checkpoint>1.1.1>10
checkpoint>1.1.2>1
checkpoint>1.1.3>2
exit>1.1.1>1.2.3
exit>1.1.2>1.2.2
exit>1.1.3>1.2.1
1.1.1>1.000000>1.000000
1.1.2>1.000000>1.000000
1.1.3>1.000000>1.000000
end_lane
lane>1.2
num_waypoints>3
checkpoint>1.2.1>3
checkpoint>1.2.2>4
checkpoint>1.2.3>5
exit>1.2.1>2.0.1
1.2.1>1.000000>1.000000
1.2.2>1.000000>1.000000
1.2.3>1.000000>1.000000
end_lane
lane>1.3
num_waypoints>2
checkpoint>1.3.1>6
checkpoint>1.3.2>7
1.3.1>1.000000>1.000000
1.3.2>1.000000>1.000000
end_lane
end_segment
zone>2
num_spots>0
perimeter>2.0
num_perimeterpoints>1
exit>2.0.1>1.3.1
2.0.1>1.000000>1.000000
end_perimeter
end_zone
end_file
""".splitlines()


def yard_a(start, rows, want, *goals):
    goals = goals or (7,)
    return ("yard A, goals %s, from %d, %d rows" % (list(goals), start, rows), text(YARD_A), mission("yard_a", 1, *goals), start, rows, want)


def one_way(start, rows, want, *goals):
    return ("one way, goals %s, from %d, %d rows" % (list(goals), start, rows), ONE_WAY, mission("yard_a", 1, *goals), start, rows, want)


def yard_r(start, want, *goals):
    return ("yard R, goals %s, from %d" % (list(goals), start), text(YARD_R), mission("r", 4, *goals), start, 14, want)


def yard_s(start, want, *goals):
    return ("yard S, goals %s, from %d" % (list(goals), start), text(YARD_S), mission("s", 2, *goals), start, 9, want)


HAND = [
    yard_a(0, 2, "ok"),
    yard_a(0, 3, "ok"),
    yard_a(1, 2, "ok"),                                     # no move is needed
    yard_a(1, 2, "ok", 7, 7),                               # round by the exit
    yard_a(0, 1, "0 0 11"),
    yard_a(0, 0, "0 0 11"),
    yard_a(2, 1, "0 0 11"),                                 # 11 before 30
    yard_a(2, 2, "0 0 30"),
    yard_a(LARGEST, 200, "0 0 30"),
    yard_a(0, 100_000, "ok"),
    one_way(0, 2, "ok", 7),
    one_way(1, 2, "ok", 7),
    one_way(0, 2, "0 1 31", 7, 7),                          # a goal like the one before needs a round
    one_way(1, 2, "0 1 31", 7, 7, 7),                       # the first
    one_way(0, 1, "0 0 11", 7, 7),                          # 11 before 31
    one_way(2, 2, "0 0 30", 7, 7),                          # 30 before 31
    ("the RNDF is refused", text(YARD_A[:-1]), text(ROUND_1), 2, 1, "1 14 10"),
    ("the MDF is refused", text(YARD_A), text(put(ROUND_1, 5, "8")), 2, 1, "2 5 15"),
    yard_r(0, "ok", 31, 9),
    yard_r(0, "0 1 31", 9, 31),                             # nothing leads on from row 6
    yard_r(6, "ok", 9),
    yard_r(6, "0 1 31", 9, 9),
    yard_r(6, "0 0 31", 31),
    yard_r(0, "0 0 31", 41),                                # no exit leads to zone 4
    yard_r(0, "0 1 31", 4, 41, 4),                          # though the last could be reached from the first
    yard_r(3, "0 0 31", 4),                                 # a lane without exits
    yard_r(1, "ok", 4),                                     # by the zone and back to the lane's first point
    yard_r(1, "ok", 4, 4, 4),
    yard_r(2, "ok", 1, 1),                                  # an exit to itself
    yard_r(2, "ok", 1, 5, 1),                               # two numbers on one point
    yard_r(9, "ok", 4, 1),                                  # from a spot, by another point of the perimeter
    yard_r(10, "ok", 31, 31),                               # round in a zone
    yard_r(12, "ok", 41, 41),
    yard_r(13, "0 1 31", 41, 31),
    yard_r(0, "0 2 31", 4, 9, 1, 9),                        # nothing leads back from row 6
    yard_r(14, "0 0 30", 4),
    yard_s(0, "ok", 7),                                     # all of lane 1.2 is entered, back to front, and left by its first point
    yard_s(1, "ok", 7),
    yard_s(2, "ok", 7),
    yard_s(4, "0 0 31", 7),                                 # behind that exit
    yard_s(5, "0 0 31", 4),                                 # a lane is not driven backwards
    yard_s(0, "ok", 3, 4, 5),
    yard_s(0, "0 1 31", 5, 4),
    yard_s(0, "0 2 31", 10, 5, 7),
    yard_s(0, "ok", 10),
    yard_s(0, "0 1 31", 10, 10),
    yard_s(8, "ok", 6, 7),                                  # from the zone of one point
    yard_s(8, "0 0 31", 3),
    yard_s(8, "0 2 31", 6, 7, 7),
    yard_s(7, "ok", 7),
    yard_s(7, "0 0 31", 6),
    yard_s(9, "0 0 30", 7),
]


# --------------------------------------------------- a naive second judgement

def naive(network, goals, start, rows):
    """`ok` or (line, number), by chains of at most so many moves: a chain that
    leads anywhere can be had with at most as many moves as there are points."""
    count = len(network.points)
    if rows < count:
        return 0, 11
    if start >= count:
        return 0, 30
    moves = routes.all_moves(network)

    def chain(a, least, b):
        at = {a}                                            # by just so many moves
        for made in range(count + 1):
            if b in at and made >= least:
                return True
            at = {y for x, y in moves if x in at}
        return False
    points = [dict(network.checkpoints)[number] for number, in goals]
    for row, point in enumerate(points):
        if not (chain(start, 0, point) if row == 0 else chain(points[row - 1], 1, point)):
            return row, 31
    return "ok"


def legs(network, goals, start):
    """A good route for a mission that can be driven (L5), by a shortest chain to
    each goal."""
    route = []
    for row, (number,) in enumerate(goals):
        at = route[-1] if row else start
        chains = [[at]] if row == 0 else [[at, b] for b in oracle.moves_from(network, at)]
        seen = set()
        while chains[0][-1] != dict(network.checkpoints)[number]:
            found = chains.pop(0)
            if found[-1] not in seen:
                seen.add(found[-1])
                chains += [found + [b] for b in oracle.moves_from(network, found[-1])]
        route += chains[0][1:] if row else chains[0]
    return route


# ------------------------------------------------------------- the generator

def dotted(*parts):
    return ".".join(map(str, parts)).encode()


def built(rng, segments, zones, exits, marked):
    """The pair as generate.make has it.  segments: of each the points of its
    lanes; zones: perimeter points and spots; exits: two identifiers each, those
    of a part in this order; marked: identifiers of lane points with a checkpoint.
    Every spot has one."""
    m = len(segments)
    numbers = iter(rng.sample(range(1, 32769), len(marked) + sum(spots for _, spots in zones)))

    def points(x, y, count):
        return [[dotted(x, y, p), generate.random_degrees(rng, 90_000_000)[0], generate.random_degrees(rng, 180_000_000)[0]]
                for p in range(1, count + 1)]

    def exits_of(part):
        return [[b"exit", dotted(*a), dotted(*b)] for a, b in exits if a[:2] == part]

    lines = [[b"RNDF_name", b"m"], [b"num_segments", b"%d" % m], [b"num_zones", b"%d" % len(zones)]]
    for s, lanes in enumerate(segments, 1):
        lines += [[b"segment", b"%d" % s], [b"num_lanes", b"%d" % len(lanes)]]
        for n, count in enumerate(lanes, 1):
            options = [[b"checkpoint", dotted(*a), b"%d" % next(numbers)] for a in marked if a[:2] == (s, n)]
            lines += [[b"lane", dotted(s, n)], [b"num_waypoints", b"%d" % count]] + options + exits_of((s, n)) + points(s, n, count) + [[b"end_lane"]]
        lines.append([b"end_segment"])
    for z, (count, spots) in enumerate(zones, m + 1):
        lines += [[b"zone", b"%d" % z], [b"num_spots", b"%d" % spots], [b"perimeter", dotted(z, 0)], [b"num_perimeterpoints", b"%d" % count]]
        lines += exits_of((z, 0)) + points(z, 0, count) + [[b"end_perimeter"]]
        for y in range(1, spots + 1):
            lines += [[b"spot", dotted(z, y)], [b"checkpoint", dotted(z, y, 2), b"%d" % next(numbers)]] + points(z, y, 2) + [[b"end_spot"]]
        lines.append([b"end_zone"])
    made = generate.Made()
    made.rndf_lines = lines + [[b"end_file"]]
    rndf = b"".join(b"\t".join(fields) + b"\n" for fields in made.rndf_lines)
    made.network = oracle.network_of(oracle.read_rndf(rndf, dict.fromkeys(oracle.TABLES, 4000)), rndf)
    ids = m + len(zones)
    made.mdf_lines = [line.split(b"\t") for line in mission("m", ids, 1).splitlines()]
    made.mission = oracle.Mission(b"m", b"m", b"", b"", [], [(i, 5, 0) for i in range(1, ids + 1)])
    return made


class Yard:
    """Parts of a yard to draw exits for: identifiers of lanes' points by lane, of
    perimeters' points by zone."""

    def __init__(self, rng, bare):
        self.rng = rng
        self.segments = [[rng.choice([1, 1, 2, 3, 4, 7]) for _ in range(rng.choice([1, 1, 2, 4]))] for _ in range(rng.choice([1, 1, 2, 3]))]
        self.zones = [(rng.choice([1, 1, 1, 2, 4]), rng.choice([0, 0, 1, 2]) if bare else rng.choice([1, 1, 2, 3])) for _ in range(rng.choice([0, 1, 1, 2, 3]))]
        self.lanes = [[(s, n, p) for p in range(1, count + 1)] for s, lanes in enumerate(self.segments, 1) for n, count in enumerate(lanes, 1)]
        self.perimeters = [[(z, 0, p) for p in range(1, count + 1)] for z, (count, _) in enumerate(self.zones, len(self.segments) + 1)]

    def entry(self, part):
        """Any point that an exit of this part may lead to: a perimeter's leads to no perimeter."""
        return self.rng.choice(self.rng.choice(self.lanes if part in self.perimeters else self.lanes + self.perimeters))

    def any_part(self):
        return self.rng.choice(self.lanes + self.perimeters)

    # ---- ways to lay exits

    def few(self):
        """From some parts' last point to anywhere."""
        return [(part[-1], self.entry(part)) for part in self.lanes + self.perimeters if self.rng.random() < 0.4]

    def many(self):
        """From anywhere to anywhere, in any order."""
        parts = [self.any_part() for _ in range(self.rng.randint(1, 20))]
        return [(self.rng.choice(part), self.entry(part)) for part in parts]

    def ring(self):
        """From each lane's end to the next one's beginning and from the last to the first; one may be missing."""
        links = [(a[-1], b[0]) for a, b in zip(self.lanes, self.lanes[1:] + self.lanes[:1])]
        if self.rng.random() < 0.5:
            links.pop(self.rng.randrange(len(links)))
        return links

    def back_to_front(self):
        """To a lane's points from its last to its first, from one point or from those of another part one after the other, which
        the lane then leaves by some of its points."""
        lane = max(self.rng.sample(self.lanes, min(3, len(self.lanes))), key=len)
        source = self.any_part()
        leave = [(point, self.entry(lane)) for point in lane if self.rng.random() < 0.5]
        self.rng.shuffle(leave)
        return [(source[min(k, len(source) - 1)], entry) for k, entry in enumerate(reversed(lane))] + leave

    def to_itself(self):
        return [(point, point) for point in self.rng.choice(self.lanes) if self.rng.random() < 0.6]

    def through_zones(self):
        """From a lane's end into a zone, and from there to another lane."""
        return [link for part in self.perimeters for link in [(self.rng.choice(self.lanes)[-1], self.rng.choice(part)), (self.rng.choice(part), self.rng.choice(self.lanes)[0])]]

    def islands(self):
        """From anywhere to anywhere, but between every second lane and all else in neither direction."""
        half = {a[:2] for lane in self.lanes[::2] for a in lane}
        return [(a, b) for a, b in self.many() + self.ring() if (a[:2] in half) == (b[:2] in half)]

    def unconnected(self):
        return []


WAYS = [Yard.few, Yard.few, Yard.many, Yard.ring, Yard.back_to_front, Yard.back_to_front, Yard.to_itself, Yard.through_zones, Yard.islands, Yard.unconnected]


def yard(rng, bare):
    """A yard and how its exits were laid; bare: zones may be without spots."""
    drawn = Yard(rng, bare)
    ways = rng.sample(WAYS, rng.choice([1, 2, 2, 3]))
    exits = [link for way in ways for link in way(drawn)]
    lane_points = [point for lane in drawn.lanes for point in lane]
    marked = [point for point in lane_points for _ in range(rng.choice([0, 0, 1, 1, 1, 2]))] or [rng.choice(lane_points)]
    made = built(rng, drawn.segments, drawn.zones, exits, marked)
    kinds = {"exits: " + way.__name__.replace("_", " ") for way in ways}
    kinds |= {"a zone of one point"} if (1, 0) in drawn.zones else set()
    return made, sorted(kinds)


def walked(rng, made, start):
    """Goals at rising places of a walk by moves, perhaps none."""
    onward = routes.onward_of(made.network)
    numbers = {}
    for number, point in made.network.checkpoints:
        numbers.setdefault(point, []).append(number)
    goals, at = [], start
    for _ in range(rng.choice([1, 3, 8, 25])):
        if at in numbers and rng.random() < 0.6:
            goals.append(rng.choice(numbers[at]))
        if not onward(at):
            break
        at = rng.choice(onward(at))
    return goals[:12]


def random_case(rng, bare=True, large_ones=0.05):
    """(made, start, rows of work space, kinds): some have a good route by
    construction, then goals, start and rows are changed in none or some ways."""
    made, kinds = (routes.large_yard(rng), ["a large yard"]) if rng.random() < large_ones else yard(rng, bare)
    points = len(made.network.points)
    numbers = [number for number, _ in made.network.checkpoints]
    start = rng.randrange(points)
    goals = walked(rng, made, start) if rng.random() < 0.7 else []
    if not goals:
        goals = [rng.choice(numbers) for _ in range(rng.choice([1, 1, 2, 3, 5]))]
        kinds.append("goals: any")
    if rng.random() < 0.2:
        goals.insert(rng.randrange(len(goals) + 1), rng.choice(numbers))
        kinds.append("goals: one more")
    if rng.random() < 0.2:
        k = rng.randrange(len(goals))
        goals.insert(k, goals[k])
        kinds.append("goals: one again at once")
    if rng.random() < 0.1:
        rng.shuffle(goals)
        kinds.append("goals: another order")
    if rng.random() < 0.05:
        goals = [rng.choice(numbers), rng.choice(numbers)] * rng.randint(2, 10)
        kinds.append("goals: two in turn")
    if rng.random() < 0.12:
        start = rng.randrange(points)
        kinds.append("start: another")
    if rng.random() < 0.06:
        start = rng.choice([points, points, points + 1, points + rng.randrange(20), 1 << 31, LARGEST])
        kinds.append("start: no point")
    rows = points + rng.choice([0, 0, 0, 1, 7, 64, 1000])
    kinds.append("rows: as many as points" if rows == points else "rows: more")
    if rng.random() < 0.06:
        rows = rng.choice([points - 1, points - 1, points - 1, 0, rng.randrange(points)])
        kinds[-1] = "rows: one too few" if rows == points - 1 else "rows: far too few"
    routes.set_goals(made, goals)
    return made, start, rows, kinds


# --------------------------------------------------------------- large yards

class Large:
    """A yard of up to 150,000 points and a mission of up to 20 goals, too large for
    the oracle: both texts, how many rows each table has, and the answer with a
    route, by a search over the exits as they were drawn."""

    def __init__(self, rng):
        lanes = [rng.choice([1, 2, 9, 30, 60]) for _ in range(rng.choice([500, 2000, 5000]))]
        zones = [(rng.choice([1, 3, 12, 40]), rng.choice([1, 2, 8])) for _ in range(rng.choice([0, 10, 300]))]
        self.part_of, self.parts, first = [], [], 0         # of each point its part; of each part its points, and whether it is a zone
        for count, zone in [(n, False) for n in lanes] + [(n + 2 * spots, True) for n, spots in zones]:
            self.part_of += [len(self.parts)] * count
            self.parts.append((range(first, first + count), zone))
            first += count
        lane_points = sum(lanes)
        edges = [point for (points, _), (count, _) in zip(self.parts[len(lanes):], zones) for point in points[:count]]
        self.exits = {}
        for points, zone in self.parts:
            for _ in range(rng.choice([0, 0, 1, 2, 3])):
                a = rng.choice(points[:zones[self.part_of[points[0]] - len(lanes)][0]] if zone else points[-3:])
                b = rng.randrange(lane_points) if zone or not edges or rng.random() < 0.8 else rng.choice(edges)
                self.exits.setdefault(a, []).append(b)
        numbers = rng.sample(range(1, 32769), 12000)
        self.goal_points = {}
        marks = {point: numbers.pop() for point in rng.sample(range(lane_points), 400)}
        self.goal_points.update((number, point) for point, number in marks.items())
        lines = ["RNDF_name\tlarge", "num_segments\t1", "num_zones\t%d" % len(zones), "segment\t1", "num_lanes\t%d" % len(lanes)]
        names = {}
        for k, (points, zone) in enumerate(self.parts):
            for p, point in enumerate(points, 1):
                perimeter = zones[k - len(lanes)][0] if zone else 0
                names[point] = "1.%d.%d" % (k + 1, p) if not zone else "%d.0.%d" % (k - len(lanes) + 2, p) if p <= perimeter else \
                    "%d.%d.%d" % (k - len(lanes) + 2, (p - perimeter + 1) // 2, 2 - (p - perimeter) % 2)

        def lines_of(points):
            return ["%s\t1.000000\t-2.000000" % names[point] for point in points]

        def exits_of(points):
            return ["exit\t%s\t%s" % (names[a], names[b]) for a in points for b in self.exits.get(a, [])]
        for points, _ in self.parts[:len(lanes)]:
            marked = ["checkpoint\t%s\t%d" % (names[point], marks[point]) for point in points if point in marks]
            lines += ["lane\t" + names[points[0]][:-2], "num_waypoints\t%d" % len(points)] + marked + exits_of(points) + lines_of(points) + ["end_lane"]
        lines.append("end_segment")
        for z, ((points, _), (count, spots)) in enumerate(zip(self.parts[len(lanes):], zones), 2):
            lines += ["zone\t%d" % z, "num_spots\t%d" % spots, "perimeter\t%d.0" % z, "num_perimeterpoints\t%d" % count] + exits_of(points) + lines_of(points[:count]) + ["end_perimeter"]
            for y in range(1, spots + 1):
                pair = points[count + 2 * y - 2:count + 2 * y]
                number = numbers.pop()
                self.goal_points[number] = pair[1]
                lines += ["spot\t%d.%d" % (z, y), "checkpoint\t%d.%d.2\t%d" % (z, y, number)] + lines_of(pair) + ["end_spot"]
            lines.append("end_zone")
        self.rndf = ("\n".join(lines + ["end_file"]) + "\n").encode()
        self.points, self.start = first, rng.randrange(first)
        self.goals, self.route, self.fault = [], [self.start], None
        for row in range(rng.choice([1, 4, 20])):
            came = self.search(self.route[-1], row > 0)
            near = [number for number, point in self.goal_points.items() if point in came]
            number = rng.choice(near if near and rng.random() < 0.95 else sorted(self.goal_points))
            self.goals.append((number,))
            chain, at = [], self.goal_points[number]
            if self.fault is None and at not in came:
                self.fault = row
            while self.fault is None and at is not None:
                chain.append(at)
                at = came[at]
            self.route += chain[-2::-1] if row == 0 else chain[::-1]        # the first chain begins with the start
        self.mdf = mission("large", 1 + len(zones), *[number for number, in self.goals])
        self.rows = {"segments": 1, "lanes": len(lanes), "zones": len(zones), "spots": sum(spots for _, spots in zones), "points": first, "checkpoints": len(self.goal_points), "stops": 0,
                     "exits": sum(map(len, self.exits.values())), "goals": len(self.goals), "limits": 1 + len(zones)}

    def onward(self, a):
        points, zone = self.parts[self.part_of[a]]
        return self.exits.get(a, []) + ([b for b in points if b != a] if zone else [a + 1] if a != points[-1] else [])

    def search(self, start, least):
        """Of each point to which `least` moves or more lead, the point before it (None:
        the start, which is no part of the chain)."""
        came = dict.fromkeys(self.onward(start)) if least else {start: None}
        due = list(came)
        for a in due:
            for b in self.onward(a):
                if b not in came:
                    came[b] = a
                    due.append(b)
        return came


# ---------------------------------------------------------------- tiny yards

# Lanes of one segment and zones: every set of exits is laid in each, and every point that may have a checkpoint has one.
TINY = [([1], []), ([2], []), ([3], []), ([1, 1], []), ([1, 2], []), ([2, 1], []), ([1, 1, 1], []), ([1], [(1, 0)]), ([2], [(1, 0)]), ([1], [(2, 0)]), ([1], [(1, 0), (1, 0)]),
        ([1, 1], [(1, 0)]), ([1], [(1, 1)]), ([2], [(1, 1)]), ([1], [(2, 1)]), ([1, 1], [(1, 1)])]


def tiny_yards():
    """(lanes, zones, exits) of every one."""
    for lanes, zones in TINY:
        points = [(1, n, p) for n, count in enumerate(lanes, 1) for p in range(1, count + 1)]
        edge = [(z, 0, p) for z, (count, _) in enumerate(zones, 2) for p in range(1, count + 1)]
        could_be = [(a, b) for a in points for b in points + edge] + [(a, b) for a in edge for b in points]
        for bits in range(1 << len(could_be)):
            yield lanes, zones, [link for k, link in enumerate(could_be) if bits >> k & 1]


# Small mistakes of the oracle, which the cases have to notice (tests/damage/compare.py --mutants). That in a zone a move leads to a different point can't be told from the answers: a goal in
# a zone is in a spot, so that there is a second point, and a round.
MUTANTS = [
    ("        if first <= a and a + 1 < first + points:\n            found", "        if first <= a < first + points:\n            found"),
    ("        if first <= a and a + 1 < first + points:\n            found", "        if False:\n            found"),
    ("            found.append(a + 1)", "            found += [a + 1, max(first, a - 1)]"),
    ("        if exit_point == a:\n            found.append(entry)", "        if entry == a:\n            found.append(exit_point)"),
    ("        if exit_point == a:\n            found.append(entry)", "        if exit_point == a and entry != a:\n            found.append(entry)"),
    ("        if exit_point == a:\n            found.append(entry)", "        if exit_point == a:\n            return found + [entry]"),
    ("            found += [b for b in zone if b != a]", "            found += [b for b in zone if b != a and b < first + points]"),
    ("            found += [b for b in zone if b != a]", "            found += [b for b in zone if b > a]"),
    ("            due += moves_from(network, a)", "            due += moves_from(network, a) if len(found) < 4 else []"),
    ("            near = led_to(network, [start])", "            near = led_to(network, moves_from(network, start))"),
    ("            near = led_to(network, moves_from(network, before))", "            near = led_to(network, [before])"),
    ("            near = led_to(network, moves_from(network, before))", "            near = led_to(network, moves_from(network, start))"),
    ("            near = led_to(network, moves_from(network, before))", "            near = moves_from(network, before)"),
    ("    if rows < len(network.points):", "    if rows <= len(network.points):"),
    ("    if rows < len(network.points):", "    if rows + 1 < len(network.points):"),
    ("    if start >= len(network.points):\n        return 0, 0, 30", "    if start > len(network.points):\n        return 0, 0, 30"),
    ("            return 0, row, 31, 0", "            return 0, row + 1, 31, 0"),
    ("            return 0, row, 31, 0", "            return 0, number, 31, 0"),
    ("        return 0, 0, 11, 0", "        return 1, 0, 11, 0"),
    ("        before = points[number]\n    return None", "        before = before or points[number]\n    return None"),
]
