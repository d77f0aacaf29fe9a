#!/usr/bin/env python3
"""Can a mission be driven (request L13) exactly if some route is good (request L5)?  Tries routes out, with the library's own checker and with the oracle's (tests/missions.sh builds
everything and runs this).

    ways.py PROGRAM COUNT SEED      PROGRAM is tests/damage/ways.c, compiled; COUNT missions of each sort
    ways.py PROGRAM all             every mission of the tiny yards

Legs: random missions as the damage run has them (tests/oracle/missions.py), whole texts, room enough and a start that is a point. The library's answer has to be the oracle's. Where the mission
can be driven, a route is put together of a shortest chain to each goal, and the library has to call it good. Where goal k is the first that can't be reached, the mission without it and those
behind it has to be taken, with the route to goal k - 1, which is refused for the whole mission with 23 and row k.

Large yards: of up to 150,000 points, one for every 50 of the others. The answer and the route are those of a search of its own, over the exits as they were drawn.

Tiny yards: of up to five points, with any set of exits that can be laid there, any start and one to three goals. There the library judges every list of points of up to so many places as a
shortest good route can need (fewer where that would be over 20,000 lists of moves; none of these may be good then where the mission can't be driven): some is good exactly where the mission can
be driven. Every 20th time the oracle judges the same lists, and tries and good routes have to be as many. In yards of up to three points half of the missions are not tried by lists of moves:
every list of up to five places is judged there, also those that begin elsewhere. With `all`: every set of exits, every start, every one or two goals.

A case for the program, little endian words: the edition; start; points; the longest list; whether all lists are tried; both texts' lengths; the given route's; the ten tables' lengths; then both
texts' bytes and the route's points. Its answer, a line: the mission's reply (accepted, file, line, number), the given route's, how many lists were tried, how many are good, how often something
was odd (a 22 of another place, work space that is not zero), and the first good list.
"""
import itertools
import multiprocessing
import os
import random
import struct
import subprocess
import sys

sys.dont_write_bytecode = True
from pairs import missions, oracle, routes   # noqa: E402

BLOCK = 200
MOST_WALKS = 20_000
ROWS = ["segments", "lanes", "zones", "spots", "points", "checkpoints", "stops", "exits", "goals", "limits"]


class Case:
    """A pair (network, mission and texts), a start, a route, the longest list to try, and whether all lists are tried."""

    def __init__(self, made, start, route, longest=0, everything=0):
        self.network, self.goals, self.start, self.route, self.longest, self.everything = made.network, list(made.mission.goals), start, route, longest, everything
        self.mission = oracle.Mission(b"m", b"m", b"", b"", self.goals, made.mission.limits)
        self.rndf, self.mdf = (b"".join(b"\t".join(fields) + b"\n" for fields in lines) for lines in (made.rndf_lines, made.mdf_lines))

    def encoded(self, edition):
        rows = [len(getattr(self.mission if t in oracle.MDF_TABLES else self.network, t)) for t in ROWS]
        lengths = [oracle.STRIDE[t] * n for t, n in zip(ROWS, rows)]
        head = struct.pack("<18I", edition, self.start, len(self.network.points), self.longest, self.everything, len(self.rndf), len(self.mdf), len(self.route), *lengths)
        return head + self.rndf + self.mdf + struct.pack("<%dI" % len(self.route), *self.route)

    def said(self):
        """What the oracle answers: the mission's reply and the given route's, as the program prints them."""
        mission = oracle.check_mission(self.network, self.mission, self.start, len(self.network.points))
        route = oracle.check_route(self.network, self.mission, self.start, self.route)
        return [word for reply in (mission, route) for word in ((1, 0, 0, 0) if reply is None else (0,) + reply[:3])]

    def tries(self):
        """How many lists the oracle tries, and how many of them it calls good."""
        tried = good = 0
        due = [[first] for first in (range(len(self.network.points) + 1) if self.everything else [self.start])]
        while due:
            route = due.pop()
            fault = oracle.check_route(self.network, self.mission, self.start, route)
            tried, good = tried + 1, good + (fault is None)
            if len(route) < self.longest and (self.everything or fault is None or fault[2] != 22):
                due += [route + [b] for b in range(len(self.network.points) + 1)]
        return tried, good


class LargeCase:
    """The same of a large yard, whose answer is that of a search over the exits as they were drawn."""
    longest = 0

    def __init__(self, rng):
        self.large = missions.Large(rng)
        self.start, self.goals, self.rndf, self.mdf, self.network = self.large.start, self.large.goals, b"(a large yard)", self.large.mdf, oracle.Network(b"", b"", b"", *[[]] * 8)

    def encoded(self, edition):
        yard = self.large
        head = struct.pack("<18I", edition, yard.start, yard.points, 0, 0, len(yard.rndf), len(yard.mdf), len(yard.route), *[oracle.STRIDE[t] * yard.rows[t] for t in ROWS])
        return head + yard.rndf + yard.mdf + struct.pack("<%dI" % len(yard.route), *yard.route)

    def said(self):
        row = self.large.fault
        return [1, 0, 0, 0] * 2 if row is None else [0, 0, row, 31, 0, 0, row, 23]


def legs_cases(rng):
    """A random mission, and where a goal can't be reached also the one without it and those behind it."""
    made, start, _, kinds = missions.random_case(rng, True)
    start %= len(made.network.points)
    fault = oracle.check_mission(made.network, made.mission, start, len(made.network.points))
    if fault is None:
        return [("legs: can be driven", Case(made, start, missions.legs(made.network, made.mission.goals, start)))]
    row, goals = fault[1], [number for number, in made.mission.goals]
    if row == 0:
        return [("legs: the first goal can't be reached", Case(made, start, [start]))]
    route = missions.legs(made.network, made.mission.goals[:row], start)
    whole = Case(made, start, route)
    routes.set_goals(made, goals[:row])
    return [("legs: a later goal can't be reached", whole), ("legs: up to that goal", Case(made, start, route))]


def longest_of(network, start, goals):
    """How many places a shortest good route can have, or fewer: as many as MOST_WALKS lists of moves have."""
    points = len(network.points)
    ends, walks = {start: 1}, 1
    enough = 1 + (points - 1) + (len(goals) - 1) * points
    for places in range(1, enough):
        more = {}
        for a, n in ends.items():
            for b in set(oracle.moves_from(network, a)):
                more[b] = more.get(b, 0) + n
        ends = more
        walks += sum(ends.values())
        if walks > MOST_WALKS:
            return places, False
    return enough, True


def tiny_case(rng, tiny, start, goals, everything):
    """start and goals: the rows that they are, among those that may be."""
    lanes, zones, exits = tiny
    marked = [(1, n, p) for n, count in enumerate(lanes, 1) for p in range(1, count + 1)]
    made = missions.built(rng, [lanes], zones, exits, marked)
    numbers = [number for number, _ in made.network.checkpoints]
    routes.set_goals(made, [numbers[k] for k in goals])
    longest, enough = (5, False) if everything else longest_of(made.network, start, goals)
    can = oracle.check_mission(made.network, made.mission, start, len(made.network.points)) is None
    route = missions.legs(made.network, made.mission.goals, start) if can else []
    return "tiny: %s" % ("all lists" if everything else "all moves" if enough else "many moves"), Case(made, start, route, longest, everything)


def sizes(tiny):
    """Points, and points with a checkpoint."""
    lanes, zones, _ = tiny
    return sum(lanes) + sum(points + 2 * spots for points, spots in zones), sum(lanes) + sum(spots for _, spots in zones)


def random_tiny(rng, yards):
    tiny = rng.choice(yards)
    points, marks = sizes(tiny)
    return tiny_case(rng, tiny, rng.randrange(points), [rng.randrange(marks) for _ in range(rng.choice([1, 2, 2, 3]))], points <= 3 and rng.random() < 0.5)


def every_tiny(rng, yards):
    for tiny in yards:
        points, marks = sizes(tiny)
        for start, goals in itertools.product(range(points), [*itertools.product(range(marks)), *itertools.product(range(marks), repeat=2)]):
            yield tiny_case(rng, tiny, start, goals, 0)


def run_block(job):
    """Counts by sort and answer, lists tried and good, and what differs."""
    program, seed, number, yards = job
    rng = random.Random("ways %s %d" % (seed, number))
    if seed == "all":
        cases = list(every_tiny(rng, yards))
    else:
        cases = [case for _ in range(BLOCK) for case in legs_cases(rng)] + [random_tiny(rng, yards) for _ in range(BLOCK)]
        cases += [("large yards", LargeCase(rng)) for _ in range(BLOCK // 50)]
    editions = [1 if not any(spots == 0 for _, _, _, spots, _ in case.network.zones) and rng.random() < 0.5 else 0 for _, case in cases]
    done = subprocess.run([program], input=b"".join(case.encoded(edition) for (_, case), edition in zip(cases, editions)), stdout=subprocess.PIPE, check=False).stdout.decode().splitlines()
    counts, lists, differing = {}, [0, 0, 0], []
    for k, (sort, case) in enumerate(cases):
        got = [int(word) for word in done[k].split()] if k < len(done) else [0] * 11
        want = case.said()
        accepted = want[0] == 1
        tried, good, odd, first = *got[8:11], got[11:]
        wrong = []
        if got[:8] != want:
            wrong.append("the oracle answers %s" % want)
        if accepted != (want[4] == 1):
            wrong.append("the route by legs is %s" % case.route)
        if sort == "legs: a later goal can't be reached" and want[4:] != [0, 0, want[2], 23]:
            wrong.append("the route up to that goal is %s" % case.route)
        if odd:
            wrong.append("%d odd" % odd)
        if (good > 0) > accepted or (sort == "tiny: all moves" and (good > 0) != accepted):
            wrong.append("%d good routes, the first %s" % (good, first))
        if k % 20 == 0 and case.longest:
            lists[2] += 1
            if case.tries() != (tried, good):
                wrong.append("the oracle tries %d lists and finds %d good" % case.tries())
        key = sort, "can be driven" if accepted else "31"
        counts[key] = counts.get(key, 0) + 1
        lists[0], lists[1] = lists[0] + tried, lists[1] + good
        if wrong:
            differing.append("DIFFERS, block %d, case %d, %s, start %d, goals %s: the library answers %s; %s\n%s\n%s"
                             % (number, k, sort, case.start, case.goals, got[:11], "; ".join(wrong), case.rndf.decode(), case.mdf.decode()))
    return counts, lists, differing


def main(program, count, seed):
    yards = list(missions.tiny_yards())
    if count == "all":
        jobs = [(program, "all", b, yards[b * 8:b * 8 + 8]) for b in range(-(-len(yards) // 8))]
    else:
        jobs = [(program, seed, b, yards) for b in range(-(-int(count) // BLOCK))]
    counts, lists, differing, shown = {}, [0, 0, 0], 0, 0
    with multiprocessing.Pool(len(os.sched_getaffinity(0))) as pool:
        for done, (more, more_lists, lines) in enumerate(pool.imap_unordered(run_block, jobs), 1):
            for key, n in more.items():
                counts[key] = counts.get(key, 0) + n
            lists = [a + b for a, b in zip(lists, more_lists)]
            differing += len(lines)
            for line in lines[:max(0, 5 - shown)]:
                print(line, flush=True)
                shown += 1
            if done % 40 == 0:
                print("%d of %d blocks" % (done, len(jobs)), file=sys.stderr, flush=True)
    for (sort, answer), n in sorted(counts.items()):
        print("%-40s %-16s %8d" % (sort, answer, n))
    print("%d lists tried on tiny yards, %d of them good routes; %d times the oracle tried the same" % tuple(lists))
    print("seed %s: %d missions, %d differ" % (seed, sum(counts.values()), differing))
    return 1 if differing else 0


if __name__ == "__main__":
    sys.exit(main(sys.argv[1], sys.argv[2], sys.argv[3] if len(sys.argv) > 3 else "1"))
