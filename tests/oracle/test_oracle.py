"""Self-checks of the oracle.

    python3 test_oracle.py            seconds
    python3 test_oracle.py --slow     also texts of 16 MB (some minutes)
"""

import io
import os
import random
import sys
import time
import types
import unittest

import casefile
import generate
import lists
import maps
import mending
import missions
import oracle
import packed
import routes
from oracle import (RNDF_TABLES, STRIDE, TABLES, drive, house_mdf, house_rndf, lookup,
                    mission_of, name_of, network_of, points_of, read_pair,
                    read_rndf, summary, write_map, write_mdf, write_rndf)
from yards import (MDF_STATEMENTS, MISSION_B, RNDF_STATEMENTS, ROUND_1, YARD_A,
                   YARD_B, YARD_C, cut, ins, put, text)

WIDE = {t: 50 * STRIDE[t] for t in TABLES}
SLOW = "--slow" in sys.argv
FORM = [*range(2, 10), 25]          # L8: 25 "counts as form"


def said(reply):
    return reply.head()


class Document01(unittest.TestCase):
    """Every example of document 01."""

    def one(self, rndf_lines, mdf_lines, want):
        r, m = text(rndf_lines), text(mdf_lines)
        self.assertEqual(summary(r, m), want)
        reply = read_pair(r, m, WIDE)
        self.assertEqual(said(reply), want)
        if not reply.accepted:
            for t in TABLES:
                self.assertEqual(reply.tables[t], [0] * WIDE[t])

    def test_yard_a(self):
        self.one(YARD_A, ROUND_1, "ok 1 0 1 2 0 1 0 1 1 1")

    def test_proved_cases(self):
        A, M = YARD_A, ROUND_1
        self.one(put(A, 9, "exit>1.1.2>1.1.3"), M, "refused 1 9 12 12")
        self.one(put(A, 9, "exit>1.1.3>1.1.1"), M, "refused 1 9 9 6")
        self.one(put(A, 7, "num_waypoints>3"), M, "refused 1 12 5 1")
        self.one(put(A, 7, "num_waypoints>1"), M, "refused 1 8 9 12")
        self.one(A[:-1], M, "refused 1 14 10 0")
        self.one([], M, "refused 1 1 10 0")
        self.one(ins(A, 9, A[7]), M, "refused 1 9 13 18")
        self.one(A, put(M, 5, "8"), "refused 2 5 15 1")
        self.one(A, put(M, 9, "1>10>5"), "refused 2 9 9 6")

    def test_run_cases(self):
        A, M = YARD_A, ROUND_1
        self.one(A, put(M, 2, "RNDF>yard_b"), "refused 2 2 14 6")
        ok = "ok 1 0 1 2 0 1 0 1 1 1"
        self.one(put(A, 1, "RNDF_name>" + "n" * 128),
                 put(M, 2, "RNDF>" + "n" * 128), ok)
        self.one(put(A, 1, "RNDF_name>" + "n" * 129), M, "refused 1 1 8 11")
        self.one(put(A, 12, "end_lane/*" + "c" * 500 + "*/"), M, ok)
        self.one(put(A, 12, "end_lane/*" + "c" * 501 + "*/"), M, "refused 1 12 2 513")
        self.one(put(A, 10, "1.1.1>90.000000>-93.000000"), M, ok)
        self.one(put(A, 10, "1.1.1>90.000001>-93.000000"), M, "refused 1 10 9 7")

    def test_yard_a_tables(self):
        room = {t: 2 * STRIDE[t] + 1 for t in TABLES}
        reply = read_pair(text(YARD_A), text(ROUND_1), room)
        self.assertEqual(reply.file, (10, 6, 0, 0, 0, 0))
        self.assertEqual(reply.mission, (9, 7, 22, 6, 0, 0, 0, 0))
        want = {
            "segments": [0, 1, 0, 0] + [0] * 5,
            "lanes": [0, 2, 65535, 0, 0] + [0] * 6,
            "zones": [0] * 13, "spots": [0] * 5,
            "points": [45_000_000, -93_000_000, 45_000_100, -93_000_000, 0],
            "checkpoints": [7, 1, 0, 0, 0], "stops": [0, 0, 0],
            "exits": [1, 0, 0, 0, 0], "goals": [7, 0, 0],
            "limits": [1, 0, 15, 0, 0, 0, 0],
        }
        self.assertEqual(reply.tables, want)

    def test_yard_b_tables(self):
        r = text(YARD_B)
        reply = read_pair(r, text(MISSION_B), WIDE)
        self.assertEqual(said(reply), "ok 2 2 3 14 2 4 2 5 4 4")
        net = network_of(reply, r)
        self.assertEqual(net.segments, [(0, 2, b"Main_St"), (2, 1, b"")])
        self.assertEqual(net.lanes, [(0, 3, 12, 1, 3), (3, 2, 65535, 0, 0),
                                     (5, 1, 65535, 0, 0)])
        self.assertEqual(net.zones, [(6, 3, 0, 2, b"Lot"), (13, 1, 0, 0, b"")])
        self.assertEqual(net.spots, [(9, 9), (11, 65535)])
        self.assertEqual(net.points[5], (-500_000, 1))
        self.assertEqual(net.points[13], (-90_000_000, 180_000_000))
        self.assertEqual(net.checkpoints, [(1, 1), (2, 2), (31, 10), (32, 12)])
        self.assertEqual(net.stops, [(2,), (5,)])
        self.assertEqual(net.exits, [(2, 5), (2, 7), (4, 0), (6, 3), (8, 5)])
        # it is house writing but for its date (L12)
        self.assertEqual((net.date, house_rndf(net)), (b"14-Mar-07", text(cut(YARD_B, 5))))
        mission = mission_of(reply, text(MISSION_B))
        self.assertEqual((mission.date, house_mdf(mission)), (b"15-Mar-07", text(cut(MISSION_B, 4))))

    def test_easy_to_get_wrong(self):
        r = text(put(YARD_A, 10, "1.1.1>-0.500000>-0.000000"))
        reply = read_rndf(r, WIDE)
        self.assertEqual(reply.tables["points"][:2], [-500_000, 0])
        self.assertIn(b"1.1.1\t-0.500000\t0.000000\n",
                      house_rndf(network_of(reply, r)))
        r = text(ins(YARD_A, 8, "lane_width>0"))
        self.assertEqual(read_rndf(r, WIDE).tables["lanes"][2], 0)
        r = text(put(YARD_B, 17, "exit>1.1.1>4.0.1"))
        self.assertEqual(read_rndf(r, WIDE).tables["exits"][:2], [0, 13])

    def test_digits(self):
        # "Six digits give 8; 32,769 gives 9."
        self.one(put(YARD_A, 7, "num_waypoints>100000"), ROUND_1, "refused 1 7 8 15")
        self.one(put(YARD_A, 7, "num_waypoints>32769"), ROUND_1, "refused 1 7 9 15")


class Parts(unittest.TestCase):
    def test_summary_files(self):
        r, m = text(YARD_A), text(ROUND_1)
        fill = lambda t, n: t + b"\n" * (n - len(t))
        self.assertEqual(summary(None, m), "no file")
        self.assertEqual(summary(r, None), "no file")
        self.assertEqual(summary(None, None), "no file")
        self.assertEqual(summary(b"bad", None), "no file")
        self.assertEqual(summary(fill(r, 8192), m), "ok 1 0 1 2 0 1 0 1 1 1")
        self.assertEqual(summary(r, fill(m, 8192)), "ok 1 0 1 2 0 1 0 1 1 1")
        self.assertEqual(summary(fill(r, 8193), m), "file too big")
        self.assertEqual(summary(r, fill(m, 8193)), "file too big")
        self.assertEqual(summary(fill(r, 8193), None), "file too big")
        self.assertEqual(summary(None, fill(m, 8193)), "no file")
        self.assertEqual(summary(b"bad", fill(m, 8193)), "file too big")
        self.assertEqual(summary(b"bad", b"bad"), "refused 1 1 5 1")

    def test_summary_room(self):
        def yard(points, stops):
            lines = (["RNDF_name>y", "num_segments>1", "num_zones>0", "segment>1",
                      "num_lanes>1", "lane>1.1", "num_waypoints>%d" % points,
                      "checkpoint>1.1.1>1"]
                     + ["stop>1.1.1"] * stops
                     + ["1.1.%d>1.000000>1.000000" % p for p in range(1, points + 1)]
                     + ["end_lane", "end_segment", "end_file"])
            return text(lines)
        m = text(put(put(ROUND_1, 2, "RNDF>y"), 5, "1"))
        self.assertEqual(summary(yard(256, 1), m), "ok 1 0 1 256 0 1 1 0 1 1")
        self.assertEqual(summary(yard(257, 1), m), "refused 1 0 11 0")
        self.assertEqual(summary(yard(1, 128), m), "ok 1 0 1 1 0 1 128 0 1 1")
        self.assertEqual(summary(yard(1, 129), m), "refused 1 0 11 0")

        def goals(n):
            return text(["MDF_name>x", "RNDF>y", "checkpoints",
                         "num_checkpoints>%d" % n] + ["1"] * n
                        + ["end_checkpoints", "speed_limits", "num_speed_limits>1",
                           "1>0>0", "end_speed_limits", "end_file"])
        self.assertEqual(summary(yard(1, 0), goals(128)), "ok 1 0 1 1 0 1 0 0 128 1")
        self.assertEqual(summary(yard(1, 0), goals(129)), "refused 2 0 11 0")

    def test_lookup(self):
        none = 4_294_967_295
        self.assertEqual(lookup([7, 1, 0, 0, 0], 7), 1)
        self.assertEqual(lookup([7, 1, 7, 2], 7), 1)
        self.assertEqual(lookup([6, 1, 7, 2], 7), 2)
        self.assertEqual(lookup([7, 1, 0, 5], 0), none)
        self.assertEqual(lookup([7, 1], 8), none)
        self.assertEqual(lookup([], 7), none)
        self.assertEqual(lookup([7], 7), none)
        self.assertEqual(lookup([1, 9, 7], 7), none)

    def test_lists(self):
        """L4, by hand and at random."""
        for label, table, numbers, lent, want in lists.HAND:
            self.assertEqual(lists.naive(table, numbers, lent), want, label)
        rng = random.Random(7)
        some = [case[1:4] for case in lists.HAND] + [lists.random_case(rng) for _ in range(5000)]
        kinds = set()
        for table, numbers, lent in some:
            refusal, points = points_of(table, numbers, lent)
            self.assertEqual(len(points), lent)
            want = lists.naive(table, numbers, lent)
            if want is None:
                self.assertEqual((refusal, points), ((0, 0, 20, 0), [0] * lent))
            else:
                self.assertEqual((refusal, points), (None, want))
                self.assertEqual(points, [points_of(table, [n], 1)[1][0] for n in numbers])
            kinds.add((want is None, len(table) % 2, bool(table), bool(numbers)))
        self.assertEqual(len(kinds), 2 * 3 * 2)     # an odd table is not empty

    def test_name(self):
        self.assertEqual(name_of(b"abc", 0, 3), b"abc")
        self.assertEqual(name_of(b"abc", 1, 2), b"bc")
        self.assertEqual(name_of(b"abc", 3, 0), b"")
        self.assertEqual(name_of(b"abc", 1, 3), b"")
        self.assertEqual(name_of(b"abc", 4, 0), b"")
        self.assertEqual(name_of(b"abc", 4_000_000_000, 4_000_000_000), b"")

    def test_writer(self):
        r, m = text(YARD_A), text(ROUND_1)
        done = write_rndf(r, WIDE, len(r) + 7)
        self.assertEqual((done.written, done.output), (len(r), r + bytes(7)))
        self.assertEqual(done.tables, read_rndf(r, WIDE).tables)
        self.assertEqual(write_rndf(r, WIDE, len(r)).output, r)
        short = write_rndf(r, WIDE, len(r) - 1)
        self.assertEqual(short.refusal, (1, 0, 19, 0))
        self.assertEqual(short.output, bytes(len(r) - 1))
        self.assertEqual(short.tables, {t: [0] * WIDE[t] for t in RNDF_TABLES})
        done = write_mdf(r, m, WIDE, len(m) + 1)
        self.assertEqual((done.written, done.output), (len(m), m + b"\0"))
        short = write_mdf(r, m, WIDE, len(m) - 1)
        self.assertEqual(short.refusal, (2, 0, 19, 0))
        self.assertEqual(short.tables, {t: [0] * WIDE[t] for t in TABLES})
        self.assertEqual(write_mdf(r, m, WIDE, 0).refusal, (2, 0, 19, 0))
        # the reader's refusals first
        self.assertEqual(write_rndf(b"", WIDE, 0).refusal, (1, 1, 10, 0))
        self.assertEqual(write_mdf(r, b"", WIDE, 0).refusal, (2, 1, 10, 0))
        self.assertEqual(write_mdf(b"", m, WIDE, 0).refusal, (1, 1, 10, 0))
        self.assertEqual(write_rndf(r, dict(WIDE, points=3), 0).refusal, (1, 0, 11, 0))

    def test_editions_of_the_parts(self):
        """L10: every part that takes a text takes the edition."""
        r, m = text(ins(YARD_A, 8, "left_boundary>solid_yellow")), text(ROUND_1)
        for part in (lambda e: read_rndf(r, WIDE, e), lambda e: read_pair(r, m, WIDE, e), lambda e: write_rndf(r, WIDE, 999, e),
                     lambda e: write_mdf(r, m, WIDE, 999, e), lambda e: write_map(r, WIDE, 999, e),
                     lambda e: drive(r, m, WIDE, 0, [0, 1], e)):
            self.assertEqual(part(oracle.DECEMBER_2006).refusal, (1, 8, 8, 15))
            for edition in (0, 2, 3, 257, 4_294_967_295):
                self.assertTrue(part(edition).accepted)
        self.assertEqual(summary(r, m), "ok 1 0 1 2 0 1 0 1 1 1")

    def test_no_date(self):
        """L12: "Texts that still have it are accepted and the table still shows it, in
        both files; the house writing and the packed form leave it out."  "a second date
        is 6, as before"."""
        r, m = text(YARD_A), text(ROUND_1)
        for date in ("d", "-0.000000", "creation_date", "n" * 128):
            for k, (before, behind) in enumerate((((), ()), (("format_version>1",), ()), ((), ("format_version>1",)))):
                rndf = text(ins(YARD_A, 4, *before, "creation_date>" + date, *behind))
                mdf = text(ins(ROUND_1, 3, *before, "> creation_date>" + date + "/* d */", *behind), "\r\n")
                reply = read_pair(rndf, mdf, WIDE)
                self.assertEqual((network_of(reply, rndf).date, mission_of(reply, mdf).date), (date.encode(),) * 2)
                self.assertEqual(reply.file[4:], (rndf.index(b"creation_date") + 14, len(date)))
                self.assertEqual(reply.mission[6:], (mdf.index(b"creation_date") + 14, len(date)))
                plain, plain_m = (r, m) if k == 0 else (text(ins(YARD_A, 4, "format_version>1")), text(ins(ROUND_1, 3, "format_version>1")))
                # an output that fits only without the date, and a byte less
                self.assertEqual(write_rndf(rndf, WIDE, len(plain)).output, plain)
                self.assertEqual(write_rndf(rndf, WIDE, len(plain) - 1).refusal, (1, 0, 19, 0))
                self.assertEqual(write_mdf(rndf, mdf, WIDE, len(plain_m)).output, plain_m)
                self.assertEqual(write_mdf(rndf, mdf, WIDE, len(plain_m) - 1).refusal, (2, 0, 19, 0))
                # the tables are the reader's, the date among them
                self.assertEqual(write_mdf(rndf, mdf, WIDE, 999).reply.mission, reply.mission)
                self.assertEqual(write_rndf(rndf, WIDE, 999).reply.file, reply.file)
                self.assertEqual(oracle.write_packed(rndf, WIDE, 999).reply.file, reply.file)
                self.assertEqual(oracle.write_packed(rndf, WIDE, 999).output, oracle.write_packed(plain, WIDE, 999).output)
            again = text(ins(YARD_A, 4, "creation_date>" + date, "creation_date>" + date))
            again_m = text(ins(ROUND_1, 3, "creation_date>" + date, "creation_date>" + date))
            for part in (lambda: read_rndf(again, WIDE), lambda: write_rndf(again, WIDE, 999), lambda: oracle.write_packed(again, WIDE, 999)):
                self.assertEqual(part().refusal, (1, 5, 6, 1))
            self.assertEqual(read_pair(r, again_m, WIDE).refusal, (2, 4, 6, 1))
            self.assertEqual(write_mdf(r, again_m, WIDE, 999).refusal, (2, 4, 6, 1))

    def test_house_order(self):
        mixed = text(YARD_A[:7] + [
            "exit>1.1.2>1.1.1", "stop>1.1.2", "checkpoint>1.1.2>9",
            "right_boundary>broken_white", "stop>1.1.1", "exit>1.1.1>1.1.1",
            "lane_width>0/* feet */", "checkpoint>1.1.1>3", "", "stop>1.1.2",
            "left_boundary>double_yellow"] + YARD_A[9:], "\r\n")
        want = text(YARD_A[:7] + [
            "lane_width>0", "left_boundary>double_yellow",
            "right_boundary>broken_white", "checkpoint>1.1.2>9",
            "checkpoint>1.1.1>3", "stop>1.1.2", "stop>1.1.1", "stop>1.1.2",
            "exit>1.1.2>1.1.1", "exit>1.1.1>1.1.1"] + YARD_A[9:])
        got = write_rndf(mixed, WIDE, 5000)
        self.assertEqual(got.output[:got.written], want)
        # the tables keep the file's order, per kind
        self.assertEqual(got.tables["stops"][:3], [1, 0, 1])


class Maps(unittest.TestCase):
    """L2."""

    def test_by_hand(self):
        self.assertEqual(len(maps.MAP_A), 338)
        for label, r, want in maps.HAND:
            room = {t: 40 * STRIDE[t] for t in TABLES}
            reply = read_rndf(r, room)
            if want is None:
                got = write_map(r, room, 50)
                self.assertEqual((got.refusal, got.output), (reply.refusal, bytes(50)), label)
                continue
            self.assertEqual(maps.differences(want, network_of(reply, r)), [], label)
            size = len(want)
            for out in (size, size + 1, 2 * size):
                got = write_map(r, room, out)
                self.assertEqual((got.written, got.output), (size, want + bytes(out - size)), label)
                self.assertEqual(got.tables, reply.tables)
            for out in (0, 1, size // 2, size - 1):
                got = write_map(r, room, out)
                self.assertEqual((got.refusal, got.output), ((1, 0, 19, 0), bytes(out)), label)
                self.assertEqual(got.tables, {t: [0] * room[t] for t in RNDF_TABLES})
            # one point row short
            less = dict(room, points=2 * reply.used["points"] - 1)
            got = write_map(r, less, 2 * size)
            self.assertEqual((got.refusal, got.output), ((1, 0, 11, 0), bytes(2 * size)))

    def test_random(self):
        rng = random.Random(11)
        for _ in range(400):
            network = generate.make(rng, rng.choice([2, 4, 9])).network
            self.assertEqual(maps.differences(oracle.geojson(network), network), [])

    def test_differences_notices(self):
        """Each of these mistakes is seen."""
        r = text(maps.YARD_M)
        network = network_of(read_rndf(r, {t: 40 * STRIDE[t] for t in TABLES}), r)
        for old, new in ((b"[2.000000,1.000000]", b"[1.000000,2.000000]"), (b'"Lot/5"', b'"Lot"'), (b'"id":"1.2"', b'"id":1.2'),
                         (b"],[10.000000,0.000000],[0.000000,10.000000],", b"],[0.000000,10.000000],[10.000000,0.000000],"),
                         (b",[-10.000000,0.000000]]]", b"]]"), (b'"number":5', b'"number":6'), (b'"number":5', b'"number":"5"'),
                         (b"4.000001,3.000001", b"4.000001,3.00001"), (b'"LineString"', b'"Point"'), (b',"name":"a', b', "name":"a'),
                         (b'"kind":"lane","id":"2.1"', b'"id":"2.1","kind":"lane"'), (b'"id":"2.1"', b'"id":"2.1","name":null')):
            self.assertEqual(maps.MAP_M.count(old) > 0, True, old)
            self.assertNotEqual(maps.differences(maps.MAP_M.replace(old, new, 1), network), [], old)

    def test_largest(self):
        """A segment of 32,768 lanes of one point under a name of 128 marks."""
        def yard(segments):
            lanes = 32768
            return oracle.Network(b"y", b"", b"", [(s * lanes, lanes, b'"' * 128) for s in range(segments)],
                                  [(p, 1, 65535, 0, 0) for p in range(segments * lanes)], [], [],
                                  [(0, 0)] * (segments * lanes), [], [], [])
        self.assertEqual(len(oracle.geojson(yard(1))), 12_801_223)
        self.assertGreater(len(oracle.geojson(yard(2))), oracle.LARGEST_TEXT)
        reply = oracle.Reply()
        reply.accepted = True
        got = oracle.write_out(reply, lambda: oracle.geojson(yard(2)), 1, WIDE, RNDF_TABLES, 30_000_000)
        self.assertEqual(got.refusal, (1, 0, 19, 0))


class Routes(unittest.TestCase):
    """L5."""

    def test_by_hand(self):
        for label, r, m, start, route, want in routes.HAND:
            reply = drive(r, m, WIDE, start, route)
            got = "ok" if reply.accepted else "%d %d %d" % reply.refusal[:3]
            self.assertEqual(got, want, label)
            if want.startswith("0"):
                self.assertEqual(reply.refusal[3], 0)
            before = read_pair(r, m, WIDE)
            if want == "ok":
                self.assertEqual(vars(reply), vars(before))
            else:
                self.assertEqual(reply.tables, {t: [0] * WIDE[t] for t in TABLES})
            if before.accepted:
                network, mission = network_of(before, r), mission_of(before, m)
                naive = routes.naive(network, mission.goals, start, route)
                self.assertEqual("ok" if naive == "ok" else "0 %d %d" % naive, want, label)

    def test_moves(self):
        """Every pair of rows, and rows that are none."""
        rng = random.Random(12)
        for _ in range(120):
            network = generate.make(rng).network
            moves = routes.all_moves(network)
            n = len(network.points)
            for a in range(n + 2):
                for b in list(range(n + 2)) + [oracle.NO_POINT]:
                    self.assertEqual(oracle.is_move(network, a, b), (a, b) in moves)

    def test_random(self):
        """Routes that are good by construction are accepted, damaged ones are
        judged as the naive reading judges them."""
        rng = random.Random(13)
        count = {}
        for _ in range(2000):
            made, start, route, kinds = routes.random_case(rng, 0)
            got = oracle.check_route(made.network, made.mission, start, route)
            naive = routes.naive(made.network, made.mission.goals, start, route)
            self.assertEqual("ok" if got is None else got[1:3], naive, (start, route, kinds))
            if not kinds:
                self.assertIsNone(got)
            count[got and got[2]] = count.get(got and got[2], 0) + 1
        for number in (None, 21, 22, 23, 24):
            self.assertGreater(count[number], 60, count)

    def test_large(self):
        """Large yards, where trying everything out takes too long: the generator's
        own moves, and routes that are left whole."""
        rng = random.Random(15)
        for _ in range(60):
            made, start, route = routes.good(rng, 1)
            self.assertIsNone(oracle.check_route(made.network, made.mission, start, route))
            onward = routes.onward_of(made.network)
            moves = routes.all_moves(made.network)
            for a in rng.sample(range(len(made.network.points)), min(8, len(made.network.points))):
                self.assertEqual(set(onward(a)), {b for c, b in moves if c == a})

    def test_texts(self):
        """The same from the texts."""
        rng = random.Random(14)
        room = {t: 40 * STRIDE[t] for t in TABLES}
        for _ in range(200):
            made, start, route, _ = routes.random_case(rng, 0)
            r, m = generate.render(rng, made.rndf_lines, 1), generate.render(rng, made.mdf_lines, 1)
            reply = drive(r, m, room, start, route)
            self.assertEqual(reply.refusal, oracle.check_route(made.network, made.mission, start, route))


class Missions(unittest.TestCase):
    """L13."""

    def test_by_hand(self):
        for label, r, m, start, rows, want in missions.HAND:
            reply = oracle.can_drive(r, m, WIDE, start, rows)
            got = "ok" if reply.accepted else "%d %d %d" % reply.refusal[:3]
            self.assertEqual(got, want, label)
            before = read_pair(r, m, WIDE)
            if want == "ok":
                self.assertEqual(vars(reply), vars(before))
            else:
                self.assertEqual(reply.tables, {t: [0] * WIDE[t] for t in TABLES})
            if before.accepted:
                naive = missions.naive(network_of(before, r), mission_of(before, m).goals, start, rows)
                self.assertEqual("ok" if naive == "ok" else "0 %d %d" % naive, want, label)

    def test_moves(self):
        """moves_from and is_move say the same."""
        rng = random.Random(16)
        for _ in range(60):
            network = missions.yard(rng, True)[0].network
            for a in range(len(network.points)):
                onward = oracle.moves_from(network, a)
                self.assertEqual([b for b in range(len(network.points) + 2) if oracle.is_move(network, a, b)], sorted(set(onward)))

    def test_random(self):
        """As the naive reading says; and "L5 has a good route exactly when this,
        given the room, accepts": one by legs where it does, and none of the 200
        shortest where it doesn't."""
        rng = random.Random(17)
        count = {}
        for k in range(1500):
            made, start, rows, _ = missions.random_case(rng, True, 0)
            got = oracle.check_mission(made.network, made.mission, start, rows)
            naive = missions.naive(made.network, made.mission.goals, start, rows)
            self.assertEqual("ok" if got is None else got[1:3], naive)
            count[got and got[2]] = count.get(got and got[2], 0) + 1
            if got is None:
                route = missions.legs(made.network, made.mission.goals, start)
                self.assertIsNone(oracle.check_route(made.network, made.mission, start, route))
            elif got[2] == 31:
                walks = [[start]]
                for _ in range(200):
                    route = walks.pop(0)
                    self.assertIsNotNone(oracle.check_route(made.network, made.mission, start, route))
                    walks += [route + [b] for b in oracle.moves_from(made.network, route[-1])]
                    if not walks:
                        break
        for number in (None, 11, 30, 31):
            self.assertGreater(count[number], 30, count)

    def test_route_by_construction(self):
        rng = random.Random(18)
        for _ in range(300):
            made, start, _ = routes.good(rng, 0)
            self.assertIsNone(oracle.check_mission(made.network, made.mission, start, len(made.network.points)))


class Packed(unittest.TestCase):
    """L11."""

    def answer(self, data, room):
        """The number, 0 if accepted; what else a refusal has to be."""
        reply = oracle.unpack(data, room)
        if reply.accepted:
            return 0
        number = reply.refusal[2]
        self.assertEqual(reply.refusal, (1 if number in (1, 11) else 0, 0, number, 0))
        self.assertEqual(reply.tables, {t: [0] * room[t] for t in RNDF_TABLES})
        self.assertEqual((reply.used, reply.file), (None, None))
        return number

    def test_yards(self):
        for lines, form, tables, file in ((YARD_A, packed.FORM_A, packed.TABLES_A, packed.FILE_A),
                                          (packed.YARD_Z, packed.FORM_Z, packed.TABLES_Z, packed.FILE_Z)):
            r = text(lines)
            before = read_rndf(r, WIDE)
            network = network_of(before, r)
            self.assertEqual(oracle.pack(network), form)
            self.assertEqual(packed.assemble(packed.records_of(network)), form)
            room = packed.rows_needed(form)
            reply = oracle.unpack(form, room)
            self.assertEqual((reply.tables, reply.file, reply.used), (tables, file, before.used))
            self.assertEqual(network_of(reply, form), network.undated())
            # numbers left over, and rows not used, are zero
            for more in (1, 7):
                reply = oracle.unpack(form, {t: n + more for t, n in room.items()})
                self.assertEqual(reply.tables, {t: tables[t] + [0] * more for t in tables})
            # a table short by a number
            for t in RNDF_TABLES:
                if room[t]:
                    self.assertEqual(self.answer(form, dict(room, **{t: room[t] - 1})), 11)
            # packing: as the map is written
            for out in (len(form), len(form) + 1, 2 * len(form)):
                got = oracle.write_packed(r, WIDE, out)
                self.assertEqual((got.written, got.output, got.tables), (len(form), form + bytes(out - len(form)), before.tables))
            for out in (0, 1, len(form) - 1):
                got = oracle.write_packed(r, WIDE, out)
                self.assertEqual((got.refusal, got.output), ((1, 0, 19, 0), bytes(out)))
                self.assertEqual(got.tables, {t: [0] * WIDE[t] for t in RNDF_TABLES})
            self.assertEqual(oracle.write_packed(r, dict(WIDE, points=3), 0).refusal, (1, 0, 11, 0))
        self.assertEqual((len(packed.FORM_A), len(text(YARD_A)), len(packed.FORM_Z)), (109, 211, 282))
        self.assertEqual(oracle.write_packed(b"", WIDE, 0).refusal, (1, 1, 10, 0))
        older = oracle.write_packed(text(ins(YARD_A, 8, "left_boundary>solid_yellow")), WIDE, 0, oracle.DECEMBER_2006)
        self.assertEqual(older.refusal, (1, 8, 8, 15))

    def test_by_hand(self):
        """Both judgements; 29 is decided before 11, so also where nothing is lent."""
        for label, data, want in packed.HAND:
            self.assertEqual(packed.judged(data), want, label)
            self.assertEqual(self.answer(data, WIDE), want, label)
            self.assertEqual(self.answer(data, {t: 0 for t in TABLES}), want or 11, label)
        entry_2 = packed.changed(YARD_A, ("exits", 0, 1, 2))        # of two points
        self.assertEqual(self.answer(entry_2, {t: 0 for t in TABLES}), 29)

    def test_random(self):
        """Forms good and damaged: the RNDF of their rows is read as the rows are
        judged one by one; what is accepted packs to the same bytes."""
        rng = random.Random(16)
        count, changed = {}, 0
        for _ in range(2000):
            data, room, kinds = packed.random_form(rng)
            want, got = packed.judged(data), self.answer(data, room)
            self.assertEqual(want, 0 if got == 11 else got, (kinds, data.hex()))
            if got == 11:
                wide = {t: STRIDE[t] * (len(data) // 6) for t in room}
                self.assertEqual(self.answer(data, wide), 0)
                self.assertTrue(any(room[t] < n for t, n in packed.rows_needed(data).items()))
            if got == 0:
                self.assertEqual(oracle.unpack(data, room).file[4:], (0, 0))
                network = network_of(oracle.unpack(data, room), data)
                self.assertEqual(oracle.pack(network), data)
                house = house_rndf(network)
                self.assertEqual(network_of(read_rndf(house, room), house), network)
                changed += bool(kinds)
            count[got] = count.get(got, 0) + 1
        for number, least in ((0, 300), (11, 40), (27, 20), (28, 100), (29, 300)):
            self.assertGreater(count[number], least, count)
        self.assertGreater(changed, 150)

    def test_there_and_back(self):
        """The generator's networks: packed from their texts, one form for one
        network, and unpacked as the same network but for its date (L12)."""
        rng = random.Random(17)
        forms = {}
        for _ in range(300):
            made = generate.make(rng, rng.choice([1, 2, 4, 9]))
            r = generate.render(rng, made.rndf_lines, 1)
            done = oracle.write_packed(r, {t: STRIDE[t] * 200 for t in TABLES}, len(r))
            form = done.output[:done.written]
            self.assertEqual(form, packed.assemble(packed.records_of(made.network)))
            reply = oracle.unpack(form, packed.rows_needed(form))
            self.assertEqual(network_of(reply, form), made.network.undated())
            self.assertEqual(forms.setdefault(form, made.network).undated(), made.network.undated())

    def test_many(self):
        for which, n in packed.MANY:
            data = packed.many(which, n)
            want = 29 if n > 32768 else 0
            self.assertEqual(packed.judged(data), want, (which, n))
            self.assertEqual(self.answer(data, packed.rows_needed(data)), want, (which, n))

    def test_every_end(self):
        """Every prefix, and a byte more."""
        for form in (packed.FORM_A, packed.FORM_Z):
            for end in range(len(form)):
                self.assertEqual(self.answer(form[:end], WIDE), 28 if end else 27)
                # with the first length to match: 29 where a record ends
                cut = packed.framed(form[5:end])
                self.assertEqual(self.answer(cut, WIDE), packed.judged(cut))
                self.assertEqual(packed.judged(cut), 29 if end <= 5 or end in packed.places_of_lengths(form) else 28)
            for byte in range(256):
                self.assertEqual(self.answer(form + bytes([byte]), WIDE), 28)
                self.assertEqual(self.answer(packed.framed(form[5:] + bytes([byte])), WIDE), 28)

    def test_rules_are_noticed(self):
        """Each rule of the second judgement, left out, is noticed by some form."""
        with open(packed.__file__) as f:
            source = f.read()
        rng = random.Random(18)
        forms = [data for _, data, _ in packed.HAND if len(data) < 100_000]
        forms += [packed.random_form(rng)[0] for _ in range(1500)]
        want = [packed.judged(data) for data in forms]
        self.assertEqual(len(packed.RULES_LOST), len(set(packed.RULES_LOST)))
        for rule in packed.RULES_LOST:
            self.assertIn(rule, source)
            for place in range(source.count(rule)):
                before = source.split(rule)
                other = types.ModuleType("mutant")
                exec(compile(rule.join(before[:place + 1]) + rule.replace("yield ", "yield True or ") + rule.join(before[place + 1:]),
                             "mutant", "exec"), other.__dict__)

                def noticed(data, right):
                    try:
                        return other.judged(data) != right
                    except IndexError:          # a point or part that is none
                        return True
                self.assertTrue(any(noticed(*one) for one in zip(forms, want)), rule)


class Same(unittest.TestCase):
    """L14."""

    def alike(self, one, other):
        """Whether two RNDFs are the same yard; their writings say the same."""
        one, other = text(one) if isinstance(one, list) else one, text(other) if isinstance(other, list) else other
        replies = read_rndf(one, WIDE), read_rndf(other, WIDE)
        same = oracle.same_yard(replies[0], one, replies[1], other)
        self.assertEqual(same, oracle.same_yard(replies[1], other, replies[0], one))
        writings = [write_rndf(t, WIDE, 9999) for t in (one, other)]
        self.assertEqual(same, writings[0].output == writings[1].output)
        self.assertEqual(same, oracle.write_packed(one, WIDE, 9999).output == oracle.write_packed(other, WIDE, 9999).output)
        for done in writings:
            again = write_rndf(done.output[:done.written], WIDE, 9999)
            self.assertEqual((again.output, again.written, again.reply.used), (done.output, done.written, done.reply.used))
        return same

    def test_by_hand(self):
        A = YARD_A
        lane = ["exit>1.1.2>1.1.1", "stop>1.1.1", "stop>1.1.2", "checkpoint>1.1.1>8", "lane_width>12", "checkpoint>1.1.2>7"]
        base = A[:7] + lane + A[9:]
        for other in (A, text(A, "\r\n"), text(A).replace(b"\t", b"  "), text(A)[:-1], [x for l in A for x in ("", l + "/* c */")], ins(A, 4, "creation_date>d")):
            self.assertTrue(self.alike(A, other))
        self.assertTrue(self.alike(ins(A, 4, "creation_date>c", "format_version>1"), ins(A, 4, "format_version>1", "creation_date>d")))
        self.assertTrue(self.alike(put(A, 10, "1.1.1>-0.000000>0.000000"), put(A, 10, "1.1.1>0.000000>-0.000000")))
        self.assertTrue(self.alike(base, A[:7] + [lane[k] for k in (4, 3, 1, 0, 2, 5)] + A[9:]))
        for k in ((0, 2, 1, 3, 4, 5), (0, 1, 2, 5, 4, 3), (0, 1, 2, 3, 4), (0, 0, 1, 2, 3, 4, 5)):     # stops, checkpoints, one less, an exit twice
            self.assertFalse(self.alike(base, A[:7] + [lane[i] for i in k] + A[9:]))
        for other in (put(A, 1, "RNDF_name>yard_b"), put(A, 1, "RNDF_name>Yard_a"), ins(A, 4, "format_version>d"), ins(A, 6, "segment_name>d"), ins(A, 8, "lane_width>0"), put(A, 10, "1.1.1>45.000001>-93.000000"),
                      put(A, 10, "1.1.1>45.000000>93.000000"), put(A, 8, "checkpoint>1.1.1>7"), put(A, 8, "checkpoint>1.1.2>8"), put(A, 9, "exit>1.1.1>1.1.2"), cut(A, 9)):
            self.assertFalse(self.alike(A, other))
        self.assertFalse(self.alike(ins(A, 4, "format_version>d"), ins(A, 4, "creation_date>d")))
        self.assertFalse(self.alike(ins(A, 8, "left_boundary>solid_white"), ins(A, 8, "right_boundary>solid_white")))

    def test_missions(self):
        def alike(one, other, first=YARD_A, second=YARD_A):
            one, other, first, second = map(text, (one, other, first, second))
            replies = read_pair(first, one, WIDE), read_pair(second, other, WIDE)
            same = oracle.same_mission(replies[0], one, replies[1], other)
            self.assertEqual(same, write_mdf(first, one, WIDE, 999).output == write_mdf(second, other, WIDE, 999).output)
            return same
        M = ROUND_1
        self.assertTrue(alike(M, ins(M, 3, " creation_date>d /* */")))
        self.assertTrue(alike(M, M, YARD_A, put(YARD_A, 8, "stop>1.1.1", "checkpoint>1.1.1>7")))       # another yard of that name
        self.assertTrue(alike(ins(M, 3, "creation_date>x", "format_version>1"), ins(M, 3, "format_version>1")))
        for other in (put(M, 1, "MDF_name>round_2"), ins(M, 3, "format_version>d"), put(M, 9, "1>0>16"), put(M, 9, "1>1>15"), put(M, 4, "num_checkpoints>2", "7")):
            self.assertFalse(alike(M, other))
        self.assertFalse(alike(M, put(M, 2, "RNDF>b"), YARD_A, put(YARD_A, 1, "RNDF_name>b")))
        two = put(YARD_A, 8, "checkpoint>1.1.2>7", "checkpoint>1.1.2>9")
        self.assertFalse(alike(put(M, 4, "num_checkpoints>2", "9"), put(M, 4, "num_checkpoints>2", "7")[:5] + ["9"] + M[5:], two, two))

    def test_random(self):
        """Any two of many small yards, some of which are the same."""
        rng = random.Random(21)
        texts = []
        for _ in range(40):
            made = generate.make(rng, 1)
            texts += [generate.render(rng, made.rndf_lines, rough) for rough in (0, 1)]
            texts.append(house_rndf(made.network))
        room = {t: 60 * STRIDE[t] for t in TABLES}
        replies = [read_rndf(t, room) for t in texts]
        writings = [write_rndf(t, room, len(t) + 1) for t in texts]
        pairs = 0
        for i, one in enumerate(replies):
            for j, other in enumerate(replies):
                same = oracle.same_yard(one, texts[i], other, texts[j])
                self.assertEqual(same, writings[i].output[:writings[i].written] == writings[j].output[:writings[j].written])
                self.assertTrue(same or i // 3 != j // 3)
                pairs += same
        self.assertGreaterEqual(pairs, 360)


class Mending(unittest.TestCase):
    """L9."""

    def mend(self, edition, whole, rows=None, out=None):
        """The number and what a refusal has to be, or (list, what came out) and what else holds."""
        lines = whole.count(b"\n") + (whole[-1:] not in (b"", b"\n"))
        rows = lines if rows is None else rows
        out = len(whole) + 9 if out is None else out
        reply = mending.mend(edition, whole, rows, out)
        self.assertEqual((len(reply.list), len(reply.output)), (rows, out))
        if not reply.accepted:
            number = reply.refusal[2]
            self.assertEqual(reply.refusal, (0 if number == 26 else 1, 0, number, 0))
            self.assertEqual((reply.rows, reply.length, reply.list, reply.output), (0, 0, [(0, 0)] * rows, bytes(out)))
            return number
        self.assertEqual(reply.list[reply.rows:], [(0, 0)] * (rows - reply.rows))
        self.assertEqual(reply.output[reply.length:], bytes(out - reply.length))
        return reply.list[:reply.rows], reply.output[:reply.length]

    def test_by_hand(self):
        """Both judgements; each length of the list and of the output that tells."""
        for label, edition, given, want, rows in mending.HAND:
            given, want = (t if t is None or isinstance(t, bytes) else text(t) for t in (given, want))
            second = mending.second(edition, given)
            lines = len(mending.pieces_of(given))
            if want is None:
                self.assertEqual((self.mend(edition, given), second), (26, None), label)
                self.assertEqual(self.mend(edition, given, out=0), 26, label)          # before 19
            else:
                self.assertEqual((self.mend(edition, given), second), ((rows, want),) * 2, label)
                self.assertEqual(self.mend(edition, given, lines + 5, len(want)), (rows, want), label)
                self.assertEqual(self.mend(edition, given, out=len(want) - 1), 19, label)
                self.assertEqual(self.mend(edition, want), ([], want), label)
                if edition == 1:
                    self.assertEqual(self.mend(0, given), (rows, want), label)
                # every line that is not listed comes out, and no other
                listed = {n for n, which in rows}
                kept = [piece for n, piece in enumerate(mending.pieces_of(given), 1) if n not in listed]
                counts = {n for n, which in rows if which == 1}
                left = mending.pieces_of(want)
                places = [n for n in range(1, lines + 1) if n not in listed or n in counts]
                self.assertEqual([piece for n, piece in zip(places, left) if n not in counts], kept, label)
                self.assertEqual(len(left), len(places), label)
            if lines:
                self.assertEqual(self.mend(edition, given, rows=lines - 1, out=0), 11, label)
                self.assertEqual(self.mend(edition, given, rows=0), 11, label)

    def test_sizes(self):
        A = text(YARD_A)
        self.assertEqual(self.mend(0, b"", 0, 0), 26)
        self.assertEqual(self.mend(0, bytes(16_777_216), 0, 0), 1)
        self.assertEqual(self.mend(0, b"x" * 16_777_215, 0, 0), 11)
        # a count that makes a text of 16,777,216 bytes, and of one less
        for more, want in ((0, 26), (-1, None)):
            nine = text(put(mending.TEN, 7, "num_waypoints>9"))
            fill = 16_777_215 + more - len(nine)
            filled = nine + (b"/*" + b"p" * 507 + b"*/\n") * (fill // 512) + b"\n" * (fill % 512)
            got = self.mend(0, filled, out=16_777_300)
            self.assertEqual(got if want else got[0], want or [(7, 1)])
        self.assertEqual(self.mend(0, A), ([], A))

    def test_many(self):
        """32,768 items, and one more."""
        for which, n in mending.MANY:
            given = text(mending.many(which, n, 1))
            good = text(mending.many(which, n, n - (which == "zones")))
            got = self.mend(0, given)
            self.assertEqual(got if n == 32769 else got[1], 26 if n == 32769 else good, (which, n))

    def test_accepted_stays(self):
        """"An accepted text comes out the same with an empty list", in each edition; what
        the reader refuses is never listed as nothing."""
        rng = random.Random(22)
        for _ in range(300):
            mode, r, _, _ = generate.one_case(rng)
            for edition in (0, 1):
                accepted = read_rndf(r, {t: STRIDE[t] * (len(r) + 1) for t in TABLES}, edition).accepted
                got = self.mend(edition, r)
                self.assertEqual(accepted, got == ([], r))
                second = mending.second(edition, r)
                self.assertEqual(got, 26 if second is None else second)


class Places(unittest.TestCase):
    """Which statement may stand at which place, laid out by hand: what may
    stand before each line of Yard C and of the MDF of Yard A ("0": a line
    whose first field begins with a digit)."""

    RNDF = ["RNDF_name", "num_segments", "num_zones",
            "format_version creation_date segment", "num_lanes",
            "segment_name lane", "num_waypoints",
            "lane_width left_boundary right_boundary checkpoint stop exit 0",
            "0", "end_lane", "end_segment", "zone", "num_spots",
            "zone_name perimeter", "num_perimeterpoints", "exit 0", "0",
            "end_perimeter", "spot", "spot_width checkpoint 0",
            "spot_width checkpoint:again 0", "0", "end_spot",
            "end_zone", "end_file", ""]
    MDF = ["MDF_name", "RNDF", "format_version creation_date checkpoints",
           "num_checkpoints", "0", "end_checkpoints", "speed_limits",
           "num_speed_limits", "0", "end_speed_limits", "end_file", ""]

    def go(self, file, base, places, statements, judge):
        self.assertEqual(len(places), len(base) + 1)
        for n, permitted in enumerate(places, 1):
            for statement in statements:
                for tail in ("", ">1>2>3>4"):       # R1: whatever its fields are
                    word = statement.split(">")[0]
                    word = "0" if word[0].isdigit() else word
                    refusal = judge(text(ins(base, n, statement + tail))).refusal
                    if word + ":again" in permitted.split():
                        self.assertEqual(refusal, (file, n, 6, 1))
                    elif word in permitted.split():
                        self.assertNotEqual(refusal, (file, n, 5, 1))
                        if tail:
                            self.assertEqual(refusal, (file, n, 7, 1))
                    else:
                        self.assertEqual(refusal, (file, n, 5, 1))

    def test_rndf(self):
        self.go(1, YARD_C, self.RNDF, RNDF_STATEMENTS + MDF_STATEMENTS[:2]
                + ["checkpoints", "speed_limits", "nonsense"],
                lambda t: read_rndf(t, WIDE))

    def test_mdf(self):
        self.go(2, ROUND_1, self.MDF, MDF_STATEMENTS + ["RNDF_name>x", "segment>1",
                "checkpoint>1.1.1>7", "nonsense"],
                lambda t: read_pair(text(YARD_A), t, WIDE))


class RandomNetworks(unittest.TestCase):
    def test_meaning_and_round_trips(self):
        rng = random.Random(4)
        for _ in range(1500):
            made = generate.make(rng, rng.choice([2, 4, 9]))
            rough = rng.choice([0, 0.3, 1])
            r = generate.render(rng, made.rndf_lines, rough)
            m = generate.render(rng, made.mdf_lines, rough)
            rows = {t: len(getattr(made.network, t)) for t in RNDF_TABLES}
            rows.update(goals=len(made.mission.goals), limits=len(made.mission.limits))
            room = {t: rows[t] * STRIDE[t] + rng.choice([0, 1]) for t in TABLES}
            reply = read_pair(r, m, room)
            self.assertTrue(reply.accepted, (reply.refusal, r, m))
            self.assertEqual(reply.used, rows)
            # the generator knows what it meant
            self.assertEqual(network_of(reply, r), made.network)
            self.assertEqual(mission_of(reply, m), made.mission)
            alone = read_rndf(r, room)
            self.assertEqual(alone.tables, {t: reply.tables[t] for t in RNDF_TABLES})
            # zero behind
            for t in TABLES:
                self.assertEqual(reply.tables[t][rows[t] * STRIDE[t]:],
                                 [0] * (room[t] - rows[t] * STRIDE[t]))
            # house writing: reads as the same "but for a missing date" (L12), and is
            # its own house writing but for the order of kinds
            house, house_m = house_rndf(made.network), house_mdf(made.mission)
            for line in (house + house_m).split(b"\n")[:-1]:
                self.assertNotIn(b"/*", line)
                self.assertNotEqual(line.split()[0], b"creation_date")
                self.assertEqual(line, b"\t".join(line.split()))
            again = read_pair(house, house_m, room)
            self.assertTrue(again.accepted)
            self.assertEqual(network_of(again, house), made.network.undated())
            self.assertEqual(mission_of(again, house_m), made.mission.undated())
            self.assertEqual(write_rndf(house, room, len(house)).output, house)
            self.assertEqual(write_mdf(r, m, room, len(house_m)).output, house_m)
            self.assertEqual(write_rndf(r, room, len(house) - 1).refusal, (1, 0, 19, 0))
            # each table short by a number
            for t in TABLES:
                if rows[t]:
                    less = dict(room, **{t: rows[t] * STRIDE[t] - 1})
                    self.assertEqual(read_pair(r, m, less).refusal,
                                     (2 if t in oracle.MDF_TABLES else 1, 0, 11, 0))

    def test_first_line_decides(self):
        """What stands behind a refused line is nothing; the lines before it
        are the beginning of some well-formed file."""
        rng = random.Random(5)
        tried = 0
        while tried < 4000:
            mode, r, m, room = generate.one_case(rng)
            reply = casefile.judge(mode, r, m, room)
            if reply.accepted or reply.refusal[2] not in FORM:
                continue
            tried += 1
            file, line, number, _ = reply.refusal
            whole = r if file == 1 else m
            lines = whole.split(b"\n")
            upto = b"\n".join(lines[:line])
            before = b"".join(l + b"\n" for l in lines[:line - 1])
            for behind in (b"", b"\n", b"\n\x00\n", b"\nend_file\n" * 3):
                other = upto + behind
                got = casefile.judge(mode, other if file == 1 else r,
                                     other if file == 2 else m, room)
                self.assertEqual(got.refusal, reply.refusal)
            got = casefile.judge(mode, before if file == 1 else r,
                                 before if file == 2 else m, room)
            if got.refusal is not None and got.refusal[0] == file and got.refusal[2] in FORM + [10]:
                self.assertEqual(got.refusal, (file, line, 10, 0))
            else:       # the fault stood behind end_file
                self.assertIn(number, (2, 3, 4, 5))

    def test_columns(self):
        """L7: what can be said of a column from the line alone."""
        rng = random.Random(8)
        seen = set()
        for _ in range(4000):
            mode, r, m, room = generate.one_case(rng)
            reply = casefile.judge(mode, r, m, room)
            if reply.accepted:
                continue
            file, line, number, column = reply.refusal
            if line == 0 or number == 10:
                self.assertEqual(column, 0)
                continue
            whole = (r if file == 1 else m).split(b"\n")[line - 1]
            whole = whole[:-1] if whole.endswith(b"\r") else whole
            before = whole.split(b"/*")[0]
            starts = [i + 1 for i in range(len(before))
                      if before[i] not in b"\t " and (i == 0 or before[i - 1] in b"\t ")]
            seen.add(number)
            if number == 2:
                self.assertEqual(column, 513)
            elif number == 3:
                self.assertEqual(column, whole.index(b"/*") + 1)
            elif number == 4:
                closed = whole.find(b"*/", len(before) + 2)
                bad = [i + 1 for i, b in enumerate(whole) if not (b == 9 or 32 <= b <= 126)
                       or (b in b"\\*" and i < len(before))]
                self.assertEqual(column, [i for i in bad if closed < 0 or i <= closed][0])
            elif number in (5, 6, 7, 18, 25):
                self.assertEqual(column, starts[0])
            else:
                fields = before.split()
                k = starts.index(column)
                self.assertEqual(k == 0, fields[0][:1].isdigit() and k == 0)
                if number in (12, 13):
                    self.assertEqual(k, 2)
                elif number in (14, 15, 16, 17):
                    self.assertEqual(k, 1 if number == 14 else 0)
                elif number == 9:
                    # what stands right of it is nothing, as long as it is well spelled
                    other = before[:column - 1] + b"\t".join(fields[k:k + 1] + [
                        b"0.000000" if f[-7:-6] == b"." else b"9.9.9" if b"." in f else b"0" for f in fields[k + 1:]])
                    lines = (r if file == 1 else m).split(b"\n")
                    other = b"\n".join(lines[:line - 1] + [other] + lines[line:])
                    got = casefile.judge(mode, other if file == 1 else r, other if file == 2 else m, room)
                    self.assertEqual(got.refusal, reply.refusal)
        self.assertEqual(seen, set(range(2, 10)) | set(range(12, 19)) | {25})

    def test_all_numbers_taken(self):
        """L7: 13 gives the number, also where no number would be left."""
        every = YARD_A[:7] + ["checkpoint>1.1.1>%d" % n for n in range(1, 32769)]
        room = {t: 33000 * STRIDE[t] for t in TABLES}
        self.assertTrue(read_rndf(text(every + YARD_A[9:]), room).accepted)
        for line, column in (("checkpoint>1.1.1>1", 18), ("  checkpoint 1.1.2   32768", 22)):
            self.assertEqual(read_rndf(text(every + [line] + YARD_A[9:]), room).refusal, (1, 32776, 13, column))

    def test_editions(self):
        """L10: "what the older edition accepts, the present one accepts with the
        same tables", and they differ only in what the request says."""
        rng = random.Random(9)
        seen = {}
        for _ in range(3000):
            mode, r, m, room = generate.one_case(rng)
            now = casefile.judge(mode, r, m, room)
            then = casefile.judge(mode + casefile.OLDER, r, m, room)
            self.assertEqual(vars(oracle.read_rndf(r, room, 2)), vars(oracle.read_rndf(r, room)))
            new = b"solid_yellow" in r or any(
                l.split(b"/*")[0].split()[:2] == [b"num_spots", b"0"] for l in r.split(b"\n"))
            if then.accepted or not new or then.refusal == now.refusal:
                self.assertEqual(vars(then), vars(now))
                seen["same", then.accepted] = seen.get(("same", then.accepted), 0) + 1
                continue
            file, line, number, column = then.refusal
            self.assertEqual(file, 1)
            at = r.split(b"\n")[line - 1][column - 1:]
            self.assertTrue(number == 8 and at.startswith(b"solid_yellow") or number == 9 and at.startswith(b"0"))
            if now.refusal and now.refusal[:2] != (1, 0) and now.refusal[0] == 1 and now.refusal[2] < 11:
                self.assertGreater(now.refusal[1], line)
            seen[number] = seen.get(number, 0) + 1
        for key in (8, 9, ("same", True), ("same", False)):
            self.assertGreater(seen.get(key, 0), 20, seen)

    def test_space_for_tab(self):
        """L3: a space separates as a tab does, whatever the text."""
        rng = random.Random(3)
        for _ in range(2000):
            mode, r, m, room = generate.one_case(rng)
            one = casefile.judge(mode, r, m, room)
            for a, b in ((b"\t", b" "), (b" ", b"\t")):
                two = casefile.judge(mode, r.replace(a, b), m.replace(a, b), room)
                self.assertEqual(vars(two), vars(one))

    def test_blank_lines_move_only_the_line(self):
        rng = random.Random(6)
        for _ in range(2000):
            mode, r, m, room = generate.one_case(rng)
            one = casefile.judge(mode, r, m, room)
            two = casefile.judge(mode, b"\n/* */\r\n" + r, m, room)
            if one.accepted:
                self.assertTrue(two.accepted)
                self.assertEqual(two.tables["points"], one.tables["points"])
            elif one.refusal[0] == 1 and one.refusal[1]:
                file, line, number, column = one.refusal
                self.assertEqual(two.refusal, (file, line + 2, number, column))
            else:
                self.assertEqual(two.refusal, one.refusal)


class Files(unittest.TestCase):
    def test_files_agree(self):
        here = os.path.dirname(os.path.abspath(__file__))
        for name, want in (("cases.bin", "expected.txt"), ("random.bin", "random.txt")):
            path = os.path.join(here, name)
            if not os.path.exists(path):
                continue
            with open(path, "rb") as f:
                data = f.read()
            out = io.StringIO()
            for k, (mode, r, m, room) in enumerate(casefile.decode(data), 1):
                out.write(casefile.expected(k, mode, casefile.judge(mode, r, m, room)))
            with open(os.path.join(here, want)) as f:
                self.assertTrue(out.getvalue() == f.read(), name)


@unittest.skipUnless(SLOW, "only with --slow")
class Large(unittest.TestCase):
    MOST = 16_777_215

    def timed(self, label, call):
        start = time.time()
        got = call()
        print("%s: %s, %.1f s" % (label, got.refusal or "ok", time.time() - start))
        return got

    def test_sizes(self):
        r, m = text(YARD_A), text(ROUND_1)
        full = r + b"\n" * (self.MOST - len(r))
        self.assertTrue(self.timed("blank lines", lambda: read_rndf(full, WIDE)).accepted)
        self.assertEqual(read_rndf(full + b"\n", WIDE).refusal, (1, 0, 1, 0))
        full_m = m + b"\n" * (self.MOST - len(m))
        self.assertTrue(self.timed("blank MDF", lambda: read_pair(r, full_m, WIDE)).accepted)
        self.assertEqual(read_pair(r, full_m + b"x", WIDE).refusal, (2, 0, 1, 0))
        self.assertEqual(read_pair(b"", full_m + b"x", WIDE).refusal, (1, 1, 10, 0))
        self.assertEqual(read_pair(r, full_m + b"x", dict(WIDE, points=0)).refusal, (1, 0, 11, 0))
        one_line = b"x" * self.MOST
        self.assertEqual(read_rndf(one_line, WIDE).refusal, (1, 1, 2, 513))
        self.assertEqual(read_rndf(b"\n" * self.MOST, WIDE).refusal, (1, self.MOST + 1, 10, 0))

    def test_packed(self):
        """L11: forms of up to 16,777,216 bytes, and one whose text is longer than a
        text may be."""
        for label, data, want in packed.largest():
            start = time.time()
            room = packed.rows_needed(data) if want == 0 else WIDE
            reply = oracle.unpack(data, room)
            print("%s: %s, %.1f s" % (label, reply.refusal or "ok", time.time() - start))
            self.assertEqual(packed.judged(data), want, label)
            self.assertEqual(0 if reply.accepted else reply.refusal[2], want, label)

    def test_house_writing_one_byte_over(self):
        """A text of the largest size without its final LF has a house writing
        one byte longer: 19 by size alone."""
        head = lambda n: text(["RNDF_name>" + "n" * n] + YARD_A[1:7])
        tail = text(YARD_A[9:])
        stop = b"stop\t1.1.1\n"
        spare = self.MOST + 1 - len(tail) - len(head(1))
        count, name = divmod(spare, len(stop))
        if name == 0:
            count, name = count - 1, len(stop)
        whole = head(1 + name) + stop * count + tail
        self.assertEqual(len(whole), self.MOST + 1)
        room = dict(WIDE, stops=count)
        got = self.timed("many stops", lambda: write_rndf(whole[:-1], room, self.MOST + 9))
        self.assertEqual(got.refusal, (1, 0, 19, 0))
        self.assertEqual(read_rndf(whole, room).refusal, (1, 0, 1, 0))
        shorter = head(name) + stop * count + tail
        got = self.timed("fits", lambda: write_rndf(shorter, room, self.MOST))
        self.assertEqual(got.output, shorter)


if __name__ == "__main__":
    unittest.main(argv=[a for a in sys.argv if a != "--slow"])
