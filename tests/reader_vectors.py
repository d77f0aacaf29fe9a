#!/usr/bin/env python3
"""Writes data/cases_1 .. cases_7 and stdout of crates/reader_vectors.

The answers are the oracle's (tests/oracle), written from document 01 and the readings alone; it shares nothing with
the product. Cases that carry an answer worked out by hand are held to it. Everything is from a fixed seed.
Run it again after a change of the corpus:  python3 tests/reader_vectors.py
With --check it writes nothing, and says which cases differ from their answer by hand and which files of the crate are not what it would write.
With --mutants it writes nothing either, and puts each small mistake of tests/oracle/mutate.py into the oracle to see whether
some case notices.

A case is a line of fixed length, its label and an LF, the RNDF, the MDF and an LF. That line is `1` (the RNDF alone),
`2` (a pair), `3` or `4` (the same in the edition of December 6, 2006) and thirteen numbers of four digits: the bytes of the RNDF and of the MDF, the numbers lent of each of the
ten tables, the bytes of the label. The program opens the files in turn; each has to fit its buffer of 65,536 bytes.

Taken are, in this order, the cases below; of the oracle's hand-made corpus the parts WHOLE, and of its other parts, for
each file and answer, EACH that are spread over them; and random pairs, whole and damaged, up to the room that is left,
at most RANDOM_EACH of one answer.
"""
import os
import random
import sys
import types

here = os.path.dirname(os.path.abspath(__file__))
sys.path.insert(0, os.path.join(here, "oracle"))
import casefile   # noqa: E402
import cases      # noqa: E402
import generate   # noqa: E402
import mutate     # noqa: E402
import oracle     # noqa: E402
from yards import MISSION_B, ROUND_1, YARD_A, YARD_B, YARD_C, cut, ins, put, text  # noqa: E402

FILES = 7
FILE_ROOM = 60000           # bytes to a file
MOST_TEXT = 4000            # bytes of a text
MOST_WORDS = 640            # the program's tables; none is lent whole
EACH = 2
RANDOM_EACH = 6
SEED = 20260316
WHOLE = (cases.yard_a, cases.several_faults, cases.easy_to_get_wrong)
SPREAD = (cases.lines_and_comments, cases.after_the_end, cases.integers, cases.identifiers, cases.coordinates,
          cases.names_and_words, cases.options, cases.missions, cases.systematic)
S = oracle.STRIDE
WIDE = {t: 16 * S[t] + S[t] - 1 for t in oracle.TABLES}

# One of everything, and a second where a first row could hide a wrong one.
YARD_D = """\
RNDF_name>d
num_segments>2
num_zones>1
segment>1
num_lanes>1
lane>1.1
num_waypoints>1
checkpoint>1.1.1>32768
stop>1.1.1
exit>1.1.1>3.0.2
1.1.1>-0.500000>0.500000
end_lane
end_segment
segment>2
num_lanes>1
segment_name>two
lane>2.1
num_waypoints>1
lane_width>0
2.1.1>90.000000>-180.000000
end_lane
end_segment
zone>3
num_spots>1
perimeter>3.0
num_perimeterpoints>2
exit>3.0.1>2.1.1
3.0.1>0.000001>-0.000001
3.0.2>-0.000000>180.000000
end_perimeter
spot>3.1
checkpoint>3.1.2>1
3.1.1>-90.000000>1.000000
3.1.2>-1.000000>2.000000
end_spot
end_zone
end_file
""".splitlines()

MISSION_D = """\
MDF_name>m
RNDF>d
checkpoints
num_checkpoints>2
1
32768
end_checkpoints
speed_limits
num_speed_limits>3
3>0>32768
1>5>5
2>0>0
end_speed_limits
end_file
""".splitlines()


class Case:
    def __init__(self, label, mode, rndf, mdf, room):
        files = 2 - mode % 2
        self.mode, self.label = mode, "".join(c if " " <= c <= "~" else "?" for c in label)[:90].encode()
        self.files, self.rndf, self.mdf = files, rndf, (mdf if files == 2 else b"")
        self.room = {t: room.get(t, 0) for t in oracle.TABLES}
        self.tables = oracle.TABLES if files == 2 else oracle.RNDF_TABLES
        self.reply = casefile.judge(mode, rndf, mdf, self.room)

    def answer(self):
        return "ok" if self.reply.accepted else "%d %d %d %d" % self.reply.refusal

    def key(self):
        return (self.files, "ok") if self.reply.accepted else self.reply.refusal[::2]

    def bytes(self):
        numbers = ([len(self.rndf), len(self.mdf)] + [self.room[t] for t in oracle.TABLES] + [len(self.label)])
        head = "%d%s\n" % (self.mode, "".join(" %04d" % n for n in numbers))
        assert len(head) == 67 and all(self.room[t] < MOST_WORDS for t in oracle.TABLES)
        return head.encode() + self.label + b"\n" + self.rndf + self.mdf + b"\n"

    def said(self):
        reply = self.reply
        if reply.accepted:
            line = "ok" + "".join(" %d" % reply.used[t] for t in oracle.RNDF_TABLES)
            line += " file" + "".join(" %d" % n for n in reply.file)
            if self.files == 2:
                line += " ok" + "".join(" %d" % reply.used[t] for t in oracle.MDF_TABLES)
                line += " file" + "".join(" %d" % n for n in reply.mission)
        else:
            line = "refused " + self.answer()
        tables = ""
        for table in self.tables:
            words = list(reply.tables[table])
            assert len(words) == self.room[table]
            while words and words[-1] == 0:
                words.pop()
            shown = oracle.write_coordinate if table == "points" else str
            tables += "%d:%s;" % (self.room[table], "".join(" " + shown(w) for w in words))
        return self.label + b"\n" + line.encode() + b"\n" + tables.encode() + b"\n"


class Collect:
    """The cases that were taken; also stands in for the corpus's writer."""

    def __init__(self):
        self.taken, self.seen, self.counts, self.wrong = [], set(), {}, []

    def take(self, case):
        identity = (case.mode, case.rndf, case.mdf, tuple(case.room.values()))
        if identity in self.seen or max(len(case.rndf), len(case.mdf)) > MOST_TEXT:
            return
        self.seen.add(identity)
        self.taken.append(case)
        self.counts[case.key()] = self.counts.get(case.key(), 0) + 1

    def add(self, label, mode, rndf, mdf, room):
        case = Case(label, mode, rndf, mdf, room)
        self.take(case)
        return case.reply


collect = Collect()


def run(label, r, m, want, room=WIDE, older=0):
    """A case with its answer worked out by hand; m is None for the RNDF alone."""
    as_bytes = lambda t: t if isinstance(t, bytes) else text(t)
    case = Case(label, older + (1 if m is None else 2), as_bytes(r), b"" if m is None else as_bytes(m), room)
    if case.answer().split()[:len(want.split())] != want.split():       # L7's column is not always told
        collect.wrong.append("%s: by hand %s, oracle %s" % (label, want, case.answer()))
    collect.take(case)


def both(label, r, want, room=WIDE):
    """An RNDF alone, and with yard D's mission."""
    run(label + " (alone)", r, None, want, room)
    run(label, r, MISSION_D, want, room)


def either(label, r, want, room=WIDE):
    """An RNDF alone or with yard D's mission, in turn."""
    run(label, r, None if len(collect.taken) % 2 else MISSION_D, want, room)


# ------------------------------------------------------------------ the cases

def rooms():
    rows = {"segments": 2, "lanes": 2, "zones": 1, "spots": 1, "points": 6, "checkpoints": 2, "stops": 1,
            "exits": 2, "goals": 2, "limits": 3}
    exact = {t: rows[t] * S[t] for t in rows}
    wide = {t: exact[t] + 20 for t in rows}
    both("room: exactly enough", YARD_D, "ok", exact)
    both("room: one number over each", YARD_D, "ok", {t: exact[t] + 1 for t in exact})
    both("room: nearly a row over each", YARD_D, "ok", {t: exact[t] + S[t] - 1 for t in exact})
    both("room: a row over each", YARD_D, "ok", {t: exact[t] + S[t] for t in exact})
    both("room: much", YARD_D, "ok", {t: MOST_WORDS - 1 for t in exact})
    both("room: none", YARD_D, "1 0 11", {})
    for t in oracle.TABLES:
        file = 2 if t in oracle.MDF_TABLES else 1
        short = "%d 0 11" % file
        for label, words in (("a number short", exact[t] - 1), ("a row short", exact[t] - S[t]),
                             ("a row short and a number left over", exact[t] - S[t] + 1)):
            if words < exact[t]:
                run("room: %s %s" % (t, label), YARD_D, MISSION_D, short, dict(exact, **{t: words}))
        run("room: %s a number short, the others wide" % t, YARD_D, MISSION_D, short, dict(wide, **{t: exact[t] - 1}))
        if file == 1:
            run("room: %s a number short, alone" % t, YARD_D, None, short, dict(exact, **{t: exact[t] - 1}))
    # what yard A does not need may be lent empty
    lean = {"segments": 4, "lanes": 5, "points": 4, "checkpoints": 2, "exits": 2, "goals": 1, "limits": 3}
    run("room: tables without rows lent empty", YARD_A, ROUND_1, "ok", lean)
    run("room: yard B exactly enough", YARD_B, MISSION_B, "ok",
        {"segments": 8, "lanes": 15, "zones": 12, "spots": 4, "points": 28, "checkpoints": 8, "stops": 2,
         "exits": 10, "goals": 4, "limits": 12})
    # 11 comes behind the form and before the references
    tight = dict(exact, points=11)
    both("room: short and a fault on the last line", put(YARD_D, 37, "end"), "1 37 5", tight)
    both("room: short and no end_file", YARD_D[:-1], "1 37 10", tight)
    both("room: short and 12", put(YARD_D, 10, "exit>1.1.1>3.0.3"), "1 0 11", tight)
    both("room: short and 13", put(YARD_D, 32, "checkpoint>3.1.2>32768"), "1 0 11", tight)
    run("room: goals short and RNDF 13", put(YARD_D, 32, "checkpoint>3.1.2>32768"), MISSION_D, "1 32 13",
        dict(exact, goals=1))
    run("room: limits short and 14", YARD_D, put(MISSION_D, 2, "RNDF>e"), "2 0 11", dict(exact, limits=8))
    run("room: goals short and MDF fault", YARD_D, put(MISSION_D, 14, "x"), "2 14 5", dict(exact, goals=1))
    run("room: RNDF short before MDF short", YARD_D, MISSION_D, "1 0 11", dict(tight, goals=0))


def entries():
    for entry, want in (("1.1.1", "ok"), ("2.1.1", "ok"), ("3.0.1", "ok"), ("3.0.2", "ok"), ("3.0.3", "1 10 12"),
                        ("3.1.1", "1 10 12"), ("3.1.2", "1 10 12"), ("3.2.1", "1 10 12"), ("1.1.2", "1 10 12"),
                        ("1.2.1", "1 10 12"), ("2.0.1", "1 10 12"), ("1.0.1", "1 10 12"), ("4.0.1", "1 10 12"),
                        ("4.1.1", "1 10 12"), ("32768.32768.32768", "1 10 12"), ("32768.0.32768", "1 10 12"),
                        ("1.1.32768", "1 10 12"), ("0.1.1", "1 10 9"), ("1.1.0", "1 10 9"), ("32769.1.1", "1 10 9"),
                        ("1.32769.1", "1 10 9"), ("1.1.100000", "1 10 8"), ("1.1", "1 10 8")):
        run("lane entry " + entry, put(YARD_D, 10, "exit>1.1.1>" + entry), None, want)
    for entry, want in (("1.1.1", "ok"), ("2.1.1", "ok"), ("3.0.1", "1 27 9"), ("3.1.1", "1 27 12"),
                        ("2.1.2", "1 27 12"), ("2.2.1", "1 27 12"), ("3.1.3", "1 27 12")):
        run("perimeter entry " + entry, put(YARD_D, 27, "exit>3.0.2>" + entry), None, want)
    either("two bad entries: the first counts",
         put(put(YARD_D, 10, "exit>1.1.1>3.1.1"), 27, "exit>3.0.1>2.1.2"), "1 10 12")
    either("a good entry before a bad one", ins(YARD_D, 11, "exit>1.1.1>2.1.1", "exit>1.1.1>2.1.2"), "1 12 12")
    either("the bad entry is the last line but ten", put(YARD_D, 27, "exit>3.0.2>2.1.2"), "1 27 12")
    either("equal exits and stops are kept",
         ins(YARD_D, 11, "exit>1.1.1>3.0.2", "stop>1.1.1", "stop>1.1.1", "exit>1.1.1>3.0.2"), "ok")
    either("equal perimeter exits are kept", ins(YARD_D, 28, "exit>3.0.1>2.1.1", "exit>3.0.2>1.1.1"), "ok")


def checkpoints():
    either("number repeated behind a bad entry",
         put(put(YARD_D, 27, "exit>3.0.1>2.1.2"), 32, "checkpoint>3.1.2>32768"), "1 27 12")
    either("number repeated before a bad entry",
         ins(put(YARD_D, 27, "exit>3.0.1>2.1.2"), 20, "checkpoint>2.1.1>32768"), "1 20 13")
    either("number repeated on the line behind a bad entry",
         put(YARD_D, 8, "checkpoint>1.1.1>9", "exit>1.1.1>9.9.9", "checkpoint>1.1.1>9"), "1 9 12")
    either("number repeated on the line before a bad entry",
         put(YARD_D, 8, "checkpoint>1.1.1>9", "checkpoint>1.1.1>9", "exit>1.1.1>9.9.9"), "1 9 13")
    either("number repeated in the same lane", ins(YARD_D, 9, "checkpoint>1.1.1>32768"), "1 9 13")
    either("number repeated in another segment", ins(YARD_D, 19, "checkpoint>2.1.1>32768"), "1 19 13")
    either("number repeated in a spot", put(YARD_D, 32, "checkpoint>3.1.2>32768"), "1 32 13")
    either("spot's number repeated from a lane", put(YARD_D, 8, "checkpoint>1.1.1>1"), "1 32 13")
    either("three times the same number: the second counts",
         ins(YARD_D, 9, "checkpoint>1.1.1>4", "checkpoint>1.1.1>4", "checkpoint>1.1.1>4"), "1 10 13")
    either("two numbers repeated: the first repeat counts",
         ins(YARD_D, 9, "checkpoint>1.1.1>4", "checkpoint>1.1.1>5", "checkpoint>1.1.1>5", "checkpoint>1.1.1>4"),
         "1 11 13")
    either("several numbers on one waypoint",
         ins(YARD_D, 9, "checkpoint>1.1.1>3", "checkpoint>1.1.1>32767", "checkpoint>1.1.1>2"), "ok")
    run("neighbours in one byte of marks",
        ins(YARD_D, 9, *["checkpoint>1.1.1>%d" % n for n in range(7, 17)]), None, "ok",
        dict(WIDE, checkpoints=27))
    run("neighbours, then the first again",
        ins(YARD_D, 9, *["checkpoint>1.1.1>%d" % n for n in list(range(7, 16)) + [7]]), None, "1 18 13",
        dict(WIDE, checkpoints=27))
    run("numbers that end in the same byte",
        ins(YARD_D, 9, *["checkpoint>1.1.1>%d" % n for n in (256, 512, 16640, 257, 32512)]), None, "ok")
    for number, want in (("1", "1 32 13"), ("2", "ok"), ("32767", "ok"), ("32768", "ok"), ("0", "1 8 9"),
                         ("32769", "1 8 9"), ("99999", "1 8 9"), ("100000", "1 8 8"), ("07", "1 8 8")):
        run("checkpoint number " + number, put(YARD_D, 8, "checkpoint>1.1.1>" + number), None, want)


def values():
    for width, want in ((None, "ok"), ("0", "ok"), ("1", "ok"), ("32768", "ok"), ("32769", "1 19 9"), ("65535", "1 19 9"),
                        ("-1", "1 19 8"), ("00", "1 19 8")):
        lines = cut(YARD_D, 19) if width is None else put(YARD_D, 19, "lane_width>" + width)
        run("lane width %s" % width, lines, None, want)
    for width, want in (("1", "ok"), ("0", "1 32 9"), ("32768", "ok"), ("32769", "1 32 9")):
        run("spot width " + width, ins(YARD_D, 32, "spot_width>" + width), None, want)
    words = ["double_yellow", "solid_yellow", "solid_white", "broken_white"]
    for i, word in enumerate(words):
        run("boundaries: %s on the left" % word,
            ins(YARD_D, 8, "left_boundary>" + word, "right_boundary>" + words[3 - i]), None, "ok")
        run("boundaries: %s on the right alone" % word, ins(YARD_D, 19, "right_boundary>" + word), None, "ok")
    run("boundary word in capitals", ins(YARD_D, 8, "left_boundary>Solid_white"), None, "1 8 8")
    for lat, want in (("90.000000", "ok"), ("90.000001", "1 20 9"), ("-90.000000", "ok"), ("-90.000001", "1 20 9"),
                      ("-0.500000", "ok"), ("-0.000000", "ok"), ("-0.000001", "ok"), ("0.999999", "ok"),
                      ("-12.345678", "ok"), ("00.000000", "1 20 8"), ("1.00000", "1 20 8"), ("+1.000000", "1 20 8"),
                      (".500000", "1 20 8"), ("100.000000", "1 20 9"), ("1000.000000", "1 20 8")):
        run("latitude " + lat, put(YARD_D, 20, "2.1.1>%s>-180.000000" % lat), None, want)
    for lon, want in (("180.000000", "ok"), ("180.000001", "1 20 9"), ("-180.000001", "1 20 9"), ("-0.500000", "ok"),
                      ("-0.000000", "ok"), ("-93.000000", "ok"), ("999.999999", "1 20 9"), ("1.0000000", "1 20 8")):
        run("longitude " + lon, put(YARD_D, 20, "2.1.1>1.000000>%s" % lon), None, want)
    for size, want in ((1, True), (128, True), (129, False)):
        name = "n" * size
        run("RNDF_name of %d" % size, put(YARD_D, 1, "RNDF_name>" + name), None, "ok" if want else "1 1 8")
        run("RNDF name of %d in both" % size, put(YARD_D, 1, "RNDF_name>" + name),
            put(MISSION_D, 2, "RNDF>" + name), "ok" if want else "1 1 8")
        run("MDF_name of %d" % size, YARD_D, put(MISSION_D, 1, "MDF_name>" + name), "ok" if want else "2 1 8")
        run("segment_name of %d" % size, put(YARD_D, 16, "segment_name>" + name), None, "ok" if want else "1 16 8")
        run("zone_name of %d" % size, ins(YARD_D, 25, "zone_name>" + name), None, "ok" if want else "1 25 8")
        run("versions and dates of %d" % size,
            ins(YARD_D, 4, "creation_date>" + name, "format_version>" + name),
            ins(MISSION_D, 3, "format_version>" + name, "creation_date>" + name), "ok" if want else "1 4 8")
    run("names begin where they stand behind tabs, comments and CRs",
        [">>RNDF_name>>d>/* n */\r", "", "num_segments>2\r"] + YARD_D[2:15] + [">segment_name>>>two>>\r"] + YARD_D[16:],
        [">MDF_name>>m\r", "/* c */", "RNDF>>d\r", ">format_version>>1.0"] + MISSION_D[2:], "ok")
    run("zone without spots: first spot 0",
        put(cut(cut(cut(cut(cut(YARD_D, 35), 34), 33), 32), 31), 24, "num_spots>0"), None, "ok")
    late = YARD_D[:2] + ["num_zones>2"] + YARD_D[3:36] + [
        "zone>4", "num_spots>0", "zone_name>late", "perimeter>4.0", "num_perimeterpoints>1", "4.0.1>1.000000>1.000000",
        "end_perimeter", "end_zone", "end_file"]
    run("zone without spots behind one with a spot", late, None, "ok")
    run("a limit missing for the last zone", late, MISSION_D, "2 13 18")


def lines():
    for size, want in ((511, True), (512, True), (513, False)):
        good = "ok" if want else "1 37 2"
        run("line of %d, tabs" % size, put(YARD_D, 37, "end_file" + ">" * (size - 8)), None, good)
        run("line of %d and CR" % size, put(YARD_D, 37, "end_file" + ">" * (size - 8) + "\r"), None, good)
        run("comment line of %d behind end_file" % size, YARD_D + ["/*" + "c" * (size - 4) + "*/"], None,
            "ok" if want else "1 38 2")
        run("MDF line of %d" % size, YARD_D, put(MISSION_D, 14, "end_file/*" + "c" * (size - 12) + "*/"),
            "ok" if want else "2 14 2")
    run("CR LF throughout", text(YARD_D, "\r\n"), text(MISSION_D, "\r\n"), "ok")
    run("two CRs", text(put(YARD_D, 5, "num_lanes>1\r\r")), None, "1 5 4")
    run("unfinished last lines", text(YARD_D)[:-1], text(MISSION_D)[:-1], "ok")
    run("unfinished last lines with CR", text(YARD_D)[:-1] + b"\r", text(MISSION_D)[:-1] + b"\r", "ok")
    run("the last line cut", text(YARD_D)[:-3], text(MISSION_D), "1 37 5")
    run("blank lines and comments throughout", [x for l in YARD_D for x in ("", "/* x */", l, ">>")],
        [x for l in MISSION_D for x in (">", l + "/**/", "")], "ok")
    run("12 counts blank lines too", [x for l in put(YARD_D, 10, "exit>1.1.1>3.1.1") for x in ("", l)], None, "1 20 12")
    run("18 counts blank lines too", YARD_D,
        [x for l in put(cut(MISSION_D, 12), 9, "num_speed_limits>2") for x in ("", l)], "2 24 18")
    run("tabs all over", [">" + l.replace(">", ">>>") + ">" for l in YARD_D], MISSION_D, "ok")
    # L3: a separator is any run of tabs and spaces
    run("spaces for tabs", [l.replace(">", " ") for l in YARD_D], [l.replace(">", "  ") for l in MISSION_D], "ok")
    run("spaces about lines and comments", ["  " + l.replace(">", " > ") + "  /* x */ > " for l in YARD_D],
        [" > " + l + " >/**/ " for l in MISSION_D], "ok")
    run("blank lines of spaces, also at the end", [x for l in YARD_D for x in (" ", l, "  >", " /**/ ")], None, "ok")
    run("names begin where they stand behind spaces", put(put(YARD_D, 1, "   RNDF_name  > d "), 16, " segment_name   two  "),
        put(put(MISSION_D, 1, "MDF_name   m "), 2, "  RNDF >d"), "ok")
    for n, line, want in ((1, "RNDF_name d d", 7), (16, "segment_name my road", 7), (12, "end_lane /* x */ y", 3), (12, "end_lane *", 4), (12, "end_lane\x0b", 4),
                          (12, "end lane", 5), (6, "lane>1. 1", 7), (37, "end_file" + " " * 504, "ok"), (37, "end_file" + " " * 505, 2)):
        run("spaces: line %d is %s" % (n, line), put(YARD_D, n, line), None, want if want == "ok" else "1 %d %d" % (n, want))
    run("a space behind end_file", YARD_D + [" "], MISSION_D + [" > "], "ok")
    run("a field behind a space behind end_file", YARD_D, MISSION_D + [" x"], "2 15 5")
    run("empty RNDF", b"", None, "1 1 10")
    run("both empty", b"", b"", "1 1 10")
    run("empty MDF", YARD_D, b"", "2 1 10")
    run("blank MDF", YARD_D, b"\n\t\n/* */\n", "2 4 10")
    run("RNDF twice", YARD_D + YARD_D, None, "1 38 5")
    run("MDF for an RNDF", MISSION_D, None, "1 1 5")
    run("RNDF for an MDF", YARD_D, YARD_D, "2 1 5")
    for n in (1, 8, 20, 33, 36):
        run("cut behind line %d" % n, YARD_D[:n], MISSION_D, "1 %d 10" % (n + 1))
    for n in (1, 5, 10, 13):
        run("MDF cut behind line %d" % n, YARD_D, MISSION_D[:n], "2 %d 10" % (n + 1))


def edges():
    """One line changed: a value at each edge, an identifier wrong in each of its parts, the bytes next to the allowed."""
    for n, line, want in ((2, "num_segments>0", 9), (2, "num_segments>32769", 9), (3, "num_zones>32768", 9), (4, "segment>2", 9),
                          (4, "segment>1\\", 4), (4, "segment>1\x7f", 4), (4, "segment>1/*\x7f*/", 4),
                          (4, "segment>1/*/", 3), (4, "segment>1/*/*/", "ok"), (4, "segment>1/*\x1f*/", 4), (4, "segment>1/*\x80*/", 4), (4, "segment>1\x1f", 4), (4, "segment>1 /*x*/ y", 3),
                          (4, "segment>1/*~ !>*/", "ok"), (1, "RNDF_name>!~", "ok"), (5, "num_lanes>0", 9), (6, "lane>2.1", 9), (6, "lane>1.2", 9),
                          (7, "num_waypoints>0", 9), (8, "checkpoint>1.1.0>7", 9), (8, "checkpoint>1.1.3>7", 9),
                          (8, "checkpoint>2.1.1>7", 9), (8, "checkpoint>1.2.1>7", 9), (9, "stop>1.1.0", 9),
                          (9, "stop>1.1.3", 9), (9, "exit>1.1.0>1.1.1", 9), (10, "2.1.1>1.000000>1.000000", 9),
                          (10, "1.2.1>1.000000>1.000000", 9), (10, "1.1.2>1.000000>1.000000", 9)):
        run("yard A, line %d is %s" % (n, line), put(YARD_A, n, line), None,
            want if want == "ok" else "1 %d %d" % (n, want))
    for n, line, want in ((23, "zone>2", 9), (23, "zone>4", 9), (24, "num_spots>32769", 9), (25, "perimeter>3.1", 9),
                          (25, "perimeter>2.0", 9), (26, "num_perimeterpoints>0", 9), (27, "exit>3.0.0>2.1.1", 9),
                          (27, "exit>3.0.3>2.1.1", 9), (27, "exit>3.0.1>0.1.1", 9), (27, "exit>3.0.1>2.1.0", 9),
                          (28, "3.1.1>1.000000>1.000000", 9), (31, "spot>2.1", 9), (31, "spot>3.2", 9),
                          (32, "checkpoint>3.1.0>1", 9), (32, "checkpoint>3.1.3>1", 9), (33, "3.1.2>1.000000>1.000000", 9)):
        run("yard D, line %d is %s" % (n, line), put(YARD_D, n, line), None, "1 %d %d" % (n, want))
    for n, line, want in ((4, "num_checkpoints>0", 9), (5, "0", 9), (8, "num_speed_limits>0", 9), (9, "0>0>15", 9), (9, "0>5>0", 9), (9, "1>10>5", 9),
                          (9, "32769>0>15", 9)):
        run("mission A, line %d is %s" % (n, line), YARD_A, put(ROUND_1, n, line), "2 %d %d" % (n, want))
    for segments, zones, want in ((32768, 0, "1 4 10"), (32767, 1, "1 4 10"), (32768, 1, "1 3 9"), (1, 32768, "1 3 9"),
                                  (1, 32767, "1 4 10")):
        run("%d segments and %d zones" % (segments, zones),
            ["RNDF_name>x", "num_segments>%d" % segments, "num_zones>%d" % zones], None, want)


def two_faults():
    run("9 on line 8, 4 on line 20", put(put(YARD_D, 8, "checkpoint>1.1.2>5"), 20, "*"), None, "1 8 9")
    run("4 on line 8, 9 on line 20", put(put(YARD_D, 8, "*"), 20, "2.1.1>91.000000>0.000000"), None, "1 8 4")
    run("5 on line 12, 6 on line 20", put(ins(YARD_D, 20, "lane_width>1"), 12, "end"), None, "1 12 5")
    run("6 on line 20, 5 on line 37", put(ins(YARD_D, 20, "lane_width>1"), 38, "end"), None, "1 20 6")
    run("7 on line 11, 3 on line 12", put(put(YARD_D, 11, "1.1.1>1.000000"), 12, "/*"), None, "1 11 7")
    run("12 on line 10, 9 on line 20",
        put(put(YARD_D, 10, "exit>1.1.1>3.1.1"), 20, "2.1.1>91.000000>0.000000"), None, "1 20 9")
    run("12 on line 10, MDF 5 on line 1", put(YARD_D, 10, "exit>1.1.1>3.1.1"), put(MISSION_D, 1, "x"), "1 10 12")
    run("13 on line 32, MDF empty", put(YARD_D, 32, "checkpoint>3.1.2>32768"), b"", "1 32 13")
    run("10 in both", YARD_D[:-1], MISSION_D[:-1], "1 37 10")
    run("14 on line 2, 9 on line 10", YARD_D, put(put(MISSION_D, 2, "RNDF>e"), 10, "3>5>4"), "2 10 9")
    run("17 on line 11, 10 at the end", YARD_D, put(MISSION_D, 11, "3>0>0")[:-1], "2 14 10")


def missions():
    M = MISSION_D
    for name in ("e", "D", "dd", "", "d/", "D"):
        want = "2 2 14" if name else "2 2 7"
        run("the MDF's RNDF is %r" % name, YARD_D, put(M, 2, "RNDF>" + name), want)
    run("the MDF's RNDF name is a part of it", put(YARD_D, 1, "RNDF_name>dd"), M, "2 2 14")
    run("names that differ in the last of 128 bytes", put(YARD_D, 1, "RNDF_name>" + "n" * 127 + "a"),
        put(M, 2, "RNDF>" + "n" * 127 + "b"), "2 2 14")
    run("goal that is no checkpoint", YARD_D, put(M, 6, "2"), "2 6 15")
    run("two goals that are no checkpoints", YARD_D, put(put(M, 5, "3"), 6, "2"), "2 5 15")
    run("goal 0", YARD_D, put(M, 6, "0"), "2 6 9")
    run("goals again and again", YARD_D, put(put(M, 4, "num_checkpoints>5"), 5, "1", "1", "32768", "1"), "ok")
    run("limit of no segment", YARD_D, put(M, 10, "4>0>0"), "2 10 16")
    run("limit of no segment, 32768", YARD_D, put(M, 12, "32768>0>0"), "2 12 16")
    run("limit given again", YARD_D, put(M, 12, "3>0>0"), "2 12 17")
    run("limit given again at once", YARD_D, put(M, 11, "3>0>0"), "2 11 17")
    run("limits short by one", YARD_D, put(cut(M, 12), 9, "num_speed_limits>2"), "2 12 18")
    run("limits: only the zone's", YARD_D, put(cut(cut(M, 12), 11), 9, "num_speed_limits>1"), "2 11 18")
    run("16 before 17", YARD_D, put(put(M, 11, "4>0>0"), 12, "3>0>0"), "2 11 16")
    run("17 before 16", YARD_D, put(put(M, 11, "3>0>0"), 12, "4>0>0"), "2 11 17")
    run("the same strange id twice is 16 at the first", YARD_D, put(put(M, 11, "9>0>0"), 12, "9>0>0"), "2 11 16")
    more = put(M, 9, "num_speed_limits>4")
    run("all limits and one again", YARD_D, ins(more, 13, "2>0>0"), "2 13 17")
    run("all limits and a strange one", YARD_D, ins(more, 13, "4>0>0"), "2 13 16")
    run("16 and 18", YARD_D, put(M, 12, "4>0>0"), "2 12 16")
    run("17 and 18", YARD_D, put(M, 12, "1>0>0"), "2 12 17")
    faults = {14: lambda m: put(m, 2, "RNDF>e"), 15: lambda m: put(m, 5, "7"), 16: lambda m: put(m, 10, "9>0>0"),
              17: lambda m: put(m, 12, "1>0>0")}
    lines_of = {14: 2, 15: 5, 16: 10, 17: 12}
    numbers = sorted(faults)
    for i, a in enumerate(numbers):
        for b in numbers[i + 1:]:
            run("%d and %d" % (a, b), YARD_D, faults[a](faults[b](M)), "2 %d %d" % (lines_of[a], a))
    run("14, 15, 16 and 17", YARD_D, faults[14](faults[15](faults[16](faults[17](M)))), "2 2 14")
    run("15, 16, 17 and 18", YARD_D, put(faults[15](faults[16](faults[17](M))), 11, "1>0>0"), "2 5 15")
    # L1: a maximum of 0 is no ceiling
    for low, high, want in ((0, 32768, "ok"), (32768, 32768, "ok"), (1, 0, "ok"), (5, 0, "ok"), (32768, 0, "ok"), (32769, 0, "2 12 9"),
                            (2, 1, "2 12 9"), (0, 32769, "2 12 9"), (32769, 32769, "2 12 9"), (5, 4, "2 12 9")):
        run("limit %d to %d" % (low, high), YARD_D, put(M, 12, "2>%d>%d" % (low, high)), want)
    run("a late MDF fault leaves no row of the RNDF", YARD_D, put(M, 14, "end"), "2 14 5")
    run("yard D with mission B", YARD_D, MISSION_B, "2 2 14")
    run("yard B with mission B", YARD_B, MISSION_B, "ok")
    run("yard C alone", YARD_C, None, "ok")


def columns():
    """L7: the field at fault, leftmost first; and the nine of document 01 with their columns."""
    for n, line, want in ((9, "exit>1.1.2>1.1.3", "12 12"), (9, "exit>1.1.3>1.1.1", "9 6"), (9, "exit>1.1.3>0.1.1", "9 6"), (9, "exit>1.1.2>0.1.1", "9 12"),
                          (9, "exit>1.1.3>1.1", "8 12"), (10, "1.1.1>91.000000>x", "8 17"), (10, "1.1.2>91.000000>200.000000", "9 1"),
                          (10, "1.1.1>91.000000>200.000000", "9 7"), (10, "1.1.1>1.000000>200.000000", "9 16"), (8, "checkpoint>1.1.2>0", "9 18"),
                          (8, "checkpoint>1.1.3>0", "9 12"), (8, "checkpoint>1.1.2>32769", "9 18"), (6, "lane>1.1>/* x", "3 10"), (12, "end_lane\\", "4 9"),
                          (12, "end_lane>/* \x01 */", "4 13"), (12, ">>end_zone", "5 3"), (12, " > end_lane 1", "7 4"), (9, "  checkpoint 1.1.1   7", "13 22"),
                          (9, " exit  1.1.2  1.1.3", "12 15"), (4, "a/b*", "4 4"), (4, "//* x", "3 2"), (4, "segment>1\r\r", "4 10"), (4, "x" * 513, "2 513")):
        run("column: line %d is %s" % (n, line[:40]), put(YARD_A, n, line), None, "1 %d %s" % (n, want))
    run("column: num_waypoints 3", put(YARD_A, 7, "num_waypoints>3"), None, "1 12 5 1")
    run("column: num_waypoints 1", put(YARD_A, 7, "num_waypoints>1"), None, "1 8 9 12")
    run("column: without end_file", YARD_A[:-1], None, "1 14 10 0")
    run("column: given again", ins(YARD_A, 8, "lane_width>1", "  lane_width"), None, "1 9 6 3")
    for n, line, want in ((2, "RNDF>yard_b", "14 6"), (2, " RNDF > yard", "14 9"), (5, "  8", "15 3"), (9, " 2>0>0", "16 2"), (9, "1>10>5", "9 6"), (9, "1>32769>0", "9 3"),
                          (9, "1>5>32769", "9 5"), (9, "0>32769>5", "9 1"), (9, "0>x>5", "8 3"), (10, " end_speed_limits>1", "7 2")):
        run("column: MDF line %d is %s" % (n, line), YARD_A, put(ROUND_1, n, line), "2 %d %s" % (n, want))
    run("column: limit again", YARD_D, put(MISSION_D, 12, "  3>0>0"), "2 12 17 3")
    run("column: limits short", YARD_D, put(cut(MISSION_D, 12), 9, "num_speed_limits>2")[:11] + [" end_speed_limits", "end_file"], "2 12 18 2")


def spot_checkpoints():
    """L8: a spot has a checkpoint, on waypoint 2."""
    bare = cut(YARD_D, 32)
    both("spot without its checkpoint", bare, "1 32 25 1")
    for line, want in ((" > 3.1.1 1.000000 1.000000", "25 4"), ("3.1.1>91.000000>0.000000", "9 7"), ("3.1.1>x>0.000000", "8 7"), ("3.1.2>0.000000>0.000000", "9 1"),
                       ("3.1.1>0.000000>0.000000>0", "7 1"), ("end_spot", "5 1"), ("3.1.1*", "4 6")):
        run("spot without its checkpoint, then %s" % line, put(bare, 32, line), None, "1 32 " + want)
    run("spot with a width alone", put(YARD_D, 32, "spot_width>9"), None, "1 33 25 1")
    run("spot checkpoint on waypoint 1", put(YARD_D, 32, "checkpoint>3.1.1>1"), None, "1 32 9 12")
    run("spot checkpoint on 2, then on 1", ins(YARD_D, 33, "checkpoint>3.1.1>2"), None, "1 33 6 1")
    run("spot cut behind its line", YARD_D[:31], None, "1 32 10 0")
    run("spot cut behind a bare waypoint", bare[:32], None, "1 32 25 1")
    run("second of two spots bare", cut(YARD_B, 56), None, "1 56 25 1")
    run("bare spot, a bad entry before", put(bare, 10, "exit>1.1.1>9.9.9"), None, "1 32 25 1")
    run("bare spot and no room", bare, None, "1 32 25 1", {})
    run("bare spot and no MDF", bare, b"", "1 32 25 1")


def editions():
    """L10: the edition of December 6, 2006 and the present one."""
    yellow, empty = ins(YARD_A, 8, "left_boundary>double_yellow", "right_boundary>solid_yellow"), put(YARD_D[:30] + YARD_D[35:], 24, "num_spots>0")
    for label, r, m, then, now in (("yard A", YARD_A, ROUND_1, "ok", "ok"), ("yard D", YARD_D, MISSION_D, "ok", "ok"), ("solid_yellow", yellow, None, "1 9 8 16", "ok"),
                                   ("solid_yellow on the left", ins(YARD_A, 8, "left_boundary>solid_yellow"), None, "1 8 8 15", "ok"),
                                   ("no spots", empty, None, "1 24 9 11", "ok"), ("yard B", YARD_B, MISSION_B, "1 62 9 11", "ok"),
                                   ("solid_yellow again", ins(yellow, 10, "right_boundary>solid_yellow"), None, "1 9 8 16", "1 10 6 1"),
                                   ("solid_yellow with a field more", ins(YARD_A, 8, "left_boundary>solid_yellow>x"), None, "1 8 7 1", "1 8 7 1"),
                                   ("0 spots and a spot", put(YARD_D, 24, "num_spots>0"), None, "1 24 9 11", "1 31 5 1"),
                                   ("bare spot", cut(YARD_D, 32), None, "1 32 25 1", "1 32 25 1"),
                                   ("a fault of the MDF", YARD_D, put(MISSION_D, 6, "2"), "2 6 15 1", "2 6 15 1")):
        run("2006: " + label, r, m, then, older=casefile.OLDER)
        run("2007: " + label, r, m, now)


def dates():
    """L12: the date is still read, in both files: the table shows it, and a second one is 6."""
    date, version = "creation_date>14-Mar-07", "format_version>2.0"
    # line 4 of yard A begins at byte 44, line 3 of its mission at byte 29; 19 bytes are the version's line, 14 the keyword and its tab
    for label, r, m, where in (("behind the version", ins(YARD_A, 4, version, date), None, 44 + 19 + 14),
                               ("with a comment, in both", ins(YARD_A, 4, date), ins(ROUND_1, 3, " >" + date + "/* d */", version), 29 + 2 + 14)):
        run("date " + label, r, m, "ok")
        shown = collect.taken[-1].reply
        if (shown.mission or shown.file)[-2:] != (where, 9):
            collect.wrong.append("date %s: by hand at %d, oracle %s" % (label, where, (shown.file, shown.mission)))
    run("date again", ins(YARD_A, 4, date, version, "  " + date), None, "1 6 6 3")
    run("date again in the MDF", ins(YARD_A, 4, date), ins(ROUND_1, 3, date, "creation_date>d"), "2 4 6 1")


def spread():
    """Of the corpus's other parts, for each file and answer EACH that are spread over them."""
    others = Collect()
    cases.writer = others
    for part in SPREAD:
        part()
    groups = {}
    for case in others.taken:
        groups.setdefault(case.key(), []).append(case)
    for key in sorted(groups, key=str):
        group = groups[key]
        for i in range(min(EACH, len(group))):
            collect.take(group[i * len(group) // min(EACH, len(group))])


def pack(taken):
    """The cases in files, in order."""
    files, counts = [b""], [0]
    for case in taken:
        one = case.bytes()
        if len(files[-1]) + len(one) > FILE_ROOM:
            files.append(b"")
            counts.append(0)
        files[-1] += one
        counts[-1] += 1
    return files, counts


def fill_up():
    """Random pairs, whole and damaged, while the files have room."""
    rng = random.Random(SEED)
    met = {}
    for k in range(3000):
        files, rndf, mdf, room = generate.one_case(rng)
        if len(rndf) > 1500 or len(mdf) > 800:
            continue
        case = Case("random %d" % k, files + (casefile.OLDER if k % 4 == 0 else 0), rndf, mdf, room)
        if met.get(case.key(), 0) >= RANDOM_EACH:
            continue
        met[case.key()] = met.get(case.key(), 0) + 1
        collect.take(case)
        if len(pack(collect.taken)[0]) > FILES:
            collect.taken.pop()
            return


def noticed(module):
    """Whether a mutant of the oracle answers some case otherwise."""
    for case in collect.taken:
        try:
            reply = casefile.judge(case.mode, case.rndf, case.mdf, case.room, module)
        except Exception:
            return True
        if any(getattr(reply, part) != getattr(case.reply, part)
               for part in ("refusal", "used", "file", "mission", "tables")):
            return True
    return False


def mutants():
    source = open(oracle.__file__).read()
    survive = 0
    for old, new in mutate.MUTANTS:
        module = types.ModuleType("mutant")
        exec(compile(source.replace(old, new, 1), "mutant", "exec"), module.__dict__)
        if old not in mutate.HARMLESS and not noticed(module):
            survive += 1
            print("SURVIVES: %r -> %r" % (old, new))
    print("%d mutants, %d survive" % (len(mutate.MUTANTS) - len(mutate.HARMLESS), survive))
    return 1 if survive else 0


def differ(crate, written):
    """The files of a crate that are not what would be written; they are said. tests/writer_vectors.py takes this too."""
    found = []
    for name, whole in written.items():
        path = os.path.join(crate, name)
        with open(path, "rb") as there:
            if there.read() != whole:
                found.append(path)
    found += [path for path in (os.path.join(crate, "data", name) for name in os.listdir(os.path.join(crate, "data"))) if os.path.relpath(path, crate) not in written]
    for path in found:
        print("NOT AS THE ORACLE HAS IT:", os.path.relpath(path))
    return found


def main():
    for part in (rooms, entries, checkpoints, values, lines, edges, two_faults, missions, columns, spot_checkpoints, editions, dates):
        part()
    cases.writer = collect
    for part in WHOLE:
        part()
    spread()
    fill_up()
    if sys.argv[1:] == ["--mutants"]:
        return mutants()
    files, counts = pack(collect.taken)
    tally = {}
    for case in collect.taken:
        tally[case.key()] = tally.get(case.key(), 0) + 1
    print("cases:", len(collect.taken), "in files of", counts, "bytes", [len(f) for f in files])
    for key in sorted(tally, key=str):
        print(*key, tally[key])
    for line in collect.wrong + cases.wrong:
        print("WRONG:", line)
    assert len(files) == FILES, "the program opens %d files" % FILES
    crate = os.path.join(here, "..", "crates", "reader_vectors")
    written = {os.path.join("data", "cases_%d" % i): whole for i, whole in enumerate(files, 1)}
    written["stdout"] = b"".join(case.said() for case in collect.taken)
    if sys.argv[1:] == ["--check"]:
        found = differ(crate, written)
        print("%d cases, %d files of the crate are not as the oracle has them" % (len(collect.taken), len(found)))
        return 1 if found + collect.wrong + cases.wrong else 0
    os.makedirs(os.path.join(crate, "data"), exist_ok=True)
    for name, whole in written.items():
        with open(os.path.join(crate, name), "wb") as out:
            out.write(whole)
    return 1 if collect.wrong + cases.wrong else 0


if __name__ == "__main__":
    sys.exit(main())
