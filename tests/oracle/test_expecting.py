"""Does the judge of 'what may stand here' (expecting.py) let true sentences pass and notice wrong ones?

    python3 test_expecting.py

WORKED has the 25 worked sentences, READ others that were written by hand from document 01 (places
that the 25 don't have).  Every sentence is then made wrong in every way that `mutants` knows, and
told of every other refusal: each wrong one has to be noticed.
"""

import re
import sys
import unittest

import expecting
import oracle
import telling
from yards import MISSION_B, ROUND_1, YARD_A, YARD_B, YARD_C, cut, ins, put, text

A, B, C, M, MB = YARD_A, YARD_B, YARD_C, ROUND_1, MISSION_B
OLDER = oracle.DECEMBER_2006
LANE_OPTIONS = "1.1.1 LATITUDE LONGITUDE, lane_width NUMBER, left_boundary BOUNDARY, right_boundary BOUNDARY, checkpoint POINT NUMBER, stop POINT, exit POINT ENTRY"
ENTRY = "X.Y.Z with X from 1 to 32768, Y from 0 to 32768, Z from 1 to 32768"

# (label, edition, RNDF, MDF or None, refusal, words behind 'may stand here: ', or with other words in front)
WORKED = [
    ("1", 0, put(A, 6, "end_segment"), None, (1, 6, 5, 1), "lane 1.1, segment_name NAME"),
    ("2", 0, put(A, 7, "num_waypoints>3"), None, (1, 12, 5, 1), "1.1.3 LATITUDE LONGITUDE (1 such line is still owed)"),
    ("3", 0, put(A, 7, "num_waypoints>1"), None, (1, 8, 9, 12), "1.1.1"),
    ("4", 0, put(A, 5, "num_lanes>0"), None, (1, 5, 9, 11), "a number from 1 to 32768"),
    ("5", 0, put(A, 8, "chekpoint>1.1.2>7"), None, (1, 8, 5, 1), LANE_OPTIONS),
    ("6", 0, put(A, 5, "num_lanes>one"), None, (1, 5, 8, 11), "a number from 1 to 32768"),
    ("7", 0, put(A, 9, "exit>1.1.2"), None, (1, 9, 7, 1), "exit POINT ENTRY (3 fields)"),
    ("8", 0, put(A, 9, "exit>1.2.2>1.1"), None, (1, 9, 8, 12), ENTRY),
    ("9", 0, put(A, 10, "1.1.1>45.00000>-93.000000"), None, (1, 10, 8, 7), "a latitude from -90.000000 to 90.000000, six digits behind the point"),
    ("10", 0, A[:9] + [A[10], A[9]] + A[11:], None, (1, 10, 9, 1), "1.1.1"),
    ("11", 0, A[:-1], None, (1, 14, 10, 0), "end_file"),
    ("12", 0, A + ["end_file"], None, (1, 15, 5, 1), "nothing but blank lines and comments, for the file has ended"),
    ("13", 0, put(A, 9, "exit>1.1.2>1.1.3"), None, (1, 9, 12, 12), "1.1.1 to 1.1.2"),
    ("14", 0, ins(A, 9, A[7]), None, (1, 9, 13, 18), "a number from 1 to 32768 that no line before declares"),
    ("15", 0, ins(B, 12, "lane_width>12"), None, (1, 12, 6, 1), LANE_OPTIONS.replace("lane_width NUMBER, ", "")),
    ("16", OLDER, put(B, 13, "right_boundary>solid_yellow"), None, (1, 13, 8, 16), "double_yellow, solid_white, broken_white"),
    ("17", OLDER, B, None, (1, 62, 9, 11), "a number from 1 to 32768"),
    ("18", 0, cut(C, 20), None, (1, 20, 25, 1), "checkpoint 2.1.2 NUMBER, spot_width NUMBER"),
    ("19", 0, put(B, 43, "exit>3.0.1>4.0.1"), None, (1, 43, 9, 12), ENTRY.replace("Y from 0", "Y from 1")),
    ("20", 0, A, put(M, 9, "1>10>5"), (2, 9, 9, 6), "0, or a number from 10 to 32768"),
    ("21", 0, A, put(M, 2, "RNDF>yard_b"), (2, 2, 14, 6), "yard_a"),
    ("22", 0, A, put(M, 5, "8"), (2, 5, 15, 1), "a checkpoint of the RNDF: 7"),
    ("23", 0, B, MB[:7] + MB[10:], (2, 8, 5, 1), "NUMBER (3 such lines are still owed)"),
    ("24", 0, B, put(MB, 17, "3>0>10"), (2, 17, 17, 1), "an id that has no limit yet: 4"),
    ("25", 0, B, put(MB[:15] + MB[17:], 13, "num_speed_limits>2"), (2, 16, 18, 1), "without a limit: 3, 4"),
]

# Eight checkpoints and eight lanes, seven of them with one waypoint each, for lists that are cut; eight segments for ids.
EIGHT_LANES = (["RNDF_name>eight", "num_segments>1", "num_zones>0", "segment>1", "num_lanes>8"]
               + [line for n in range(1, 9) for line in (["lane>1.%d" % n, "num_waypoints>%d" % (2 if n == 3 else 1), "checkpoint>1.%d.1>%d" % (n, 9 - n)] + ["exit>1.1.1>2.1.1"] * (n == 1)
                                                          + ["1.%d.%d>0.000000>0.000000" % (n, p) for p in range(1, (2 if n == 3 else 1) + 1)] + ["end_lane"])] + ["end_segment", "end_file"])
WITHOUT_EXIT = [line for line in EIGHT_LANES if not line.startswith("exit")]
EIGHT_SEGMENTS = (["RNDF_name>eight", "num_segments>8", "num_zones>0"]
                  + [line for n in range(1, 9) for line in ("segment>%d" % n, "num_lanes>1", "lane>%d.1" % n, "num_waypoints>1", "%d.1.1>0.000000>0.000000" % n, "end_lane", "end_segment")] + ["end_file"])
CHECKED = put(EIGHT_SEGMENTS, 7, "num_waypoints>1", "checkpoint>1.1.1>7")
ALL_EIGHT = M[:7] + ["num_speed_limits>9"] + ["%d>0>0" % n for n in (8, 1, 7, 2, 6, 3, 5, 4, 4)] + M[9:]


def eight(mdf):
    return [line.replace("yard_a", "eight") for line in mdf]


READ = [
    ("empty", 0, [], None, (1, 1, 10, 0), "RNDF_name NAME"),
    ("empty MDF", 0, A, [], (2, 1, 10, 0), "MDF_name NAME"),
    ("behind the name", 0, A[:1], None, (1, 2, 10, 0), "num_segments NUMBER"),
    ("behind num_segments", 0, A[:2] + ["x"], None, (1, 3, 5, 1), "num_zones NUMBER"),
    ("zones of 32768", 0, put(A, 3, "num_zones>32768"), None, (1, 3, 9, 11), "a number from 0 to 32767"),
    ("options of the file", 0, put(A, 4, "lane>1.1"), None, (1, 4, 5, 1), "segment 1, format_version NAME, creation_date NAME"),
    ("version twice", 0, ins(A, 4, "format_version>1", "format_version>1"), None, (1, 5, 6, 1), "segment 1, creation_date NAME"),
    ("another segment", 0, put(A, 4, "segment>2"), None, (1, 4, 9, 9), "1"),
    ("another lane", 0, put(A, 6, "lane>1.2"), None, (1, 6, 9, 6), "1.1"),
    ("segment of B", 0, put(B, 30, "zone>3"), None, (1, 30, 5, 1), "segment 2"),
    ("end_lane with a field", 0, put(A, 12, "end_lane>1"), None, (1, 12, 7, 1), "end_lane (1 field)"),
    ("lane without its identifier", 0, put(A, 6, "lane"), None, (1, 6, 7, 1), "lane 1.1 (2 fields)"),
    ("point without a longitude", 0, put(A, 10, "1.1.1>45.000000"), None, (1, 10, 7, 1), "1.1.1 LATITUDE LONGITUDE (3 fields)"),
    ("longitude", 0, put(A, 10, "1.1.1>45.000000>180.000001"), None, (1, 10, 9, 17), "a longitude from -180.000000 to 180.000000, six digits behind the point"),
    ("name of 129", 0, put(A, 1, "RNDF_name>" + "n" * 129), None, (1, 1, 8, 11), "a name of 1 to 128 bytes"),
    ("boundary", 0, put(B, 12, "left_boundary>yellow"), None, (1, 12, 8, 15), "double_yellow, solid_yellow, solid_white, broken_white"),
    ("three waypoints", 0, put(B, 16, "stop>1.1.4"), None, (1, 16, 9, 6), "1.1.1 to 1.1.3"),
    ("points of B", 0, put(B, 20, "x"), None, (1, 20, 5, 1), "1.1.2 LATITUDE LONGITUDE (2 such lines are still owed)"),
    ("width of 0", 0, put(B, 50, "spot_width>0"), None, (1, 50, 9, 12), "a number from 1 to 32768"),
    ("a spot's checkpoint on waypoint 1", 0, put(C, 20, "checkpoint>2.1.1>5"), None, (1, 20, 9, 12), "2.1.2"),
    ("a spot with both options", 0, put(B, 52, "stop>3.1.2"), None, (1, 52, 5, 1), "3.1.1 LATITUDE LONGITUDE (2 such lines are still owed)"),
    ("a spot with its checkpoint", 0, put(C, 21, "x"), None, (1, 21, 5, 1), "2.1.1 LATITUDE LONGITUDE, spot_width NUMBER"),
    ("a spot without", 0, put(C, 20, "x"), None, (1, 20, 5, 1), "checkpoint 2.1.2 NUMBER, spot_width NUMBER"),
    ("a spot's waypoint without a longitude and without a checkpoint", 0, put(cut(C, 20), 20, "2.1.1>5.000000"), None, (1, 20, 7, 1), "2.1.1 LATITUDE LONGITUDE (3 fields)"),
    ("a spot's waypoint misspelt, without a checkpoint", 0, put(cut(C, 20), 20, "2.1.1>5.000000>5"), None, (1, 20, 8, 16), "a longitude from -180.000000 to 180.000000, six digits behind the point"),
    ("perimeter", 0, put(C, 14, "spot>2.1"), None, (1, 14, 5, 1), "perimeter 2.0, zone_name NAME"),
    ("perimeter's points", 0, put(C, 16, "stop>2.0.1"), None, (1, 16, 5, 1), "2.0.1 LATITUDE LONGITUDE, exit POINT ENTRY"),
    ("no spots in 2006", OLDER, put(C, 13, "num_spots>x"), None, (1, 13, 8, 11), "a number from 1 to 32768"),
    ("no spots today", 0, put(C, 13, "num_spots>x"), None, (1, 13, 8, 11), "a number from 0 to 32768"),
    ("entry from a perimeter", 0, put(B, 43, "exit>3.0.1>3.1.1"), None, (1, 43, 12, 12), "1.1.1 to 1.1.3, 1.2.1 to 1.2.2, 2.1.1"),
    ("entry from a lane", 0, put(B, 17, "exit>1.1.3>3.1.1"), None, (1, 17, 12, 12), "1.1.1 to 1.1.3, 1.2.1 to 1.2.2, 2.1.1, 3.0.1 to 3.0.3, 4.0.1"),
    ("eight lanes", 0, EIGHT_LANES, None, (1, 9, 12, 12), "1.1.1, 1.2.1, 1.3.1 to 1.3.2, 1.4.1, 1.5.1, 1.6.1 and 2 more"),
    ("number of a later line", 0, put(B, 15, "checkpoint>1.1.3>1"), None, (1, 15, 13, 18), "a number from 1 to 32768 that no line before declares"),
    ("eight checkpoints", 0, WITHOUT_EXIT, eight(put(M, 5, "9")), (2, 5, 15, 1), "a checkpoint of the RNDF: 8, 7, 6, 5, 4, 3 and 2 more"),
    ("no checkpoint", 0, cut(A, 8), M, (2, 5, 15, 1), "nothing, for the RNDF has no checkpoint"),
    ("a goal of 0", 0, A, put(M, 5, "0"), (2, 5, 9, 1), "a number from 1 to 32768"),
    ("a goal with two fields", 0, A, put(M, 5, "7>7"), (2, 5, 7, 1), "NUMBER (1 field)"),
    ("options of the mission", 0, A, put(M, 3, "x"), (2, 3, 5, 1), "checkpoints, format_version NAME, creation_date NAME"),
    ("limits owed", 0, B, put(MB, 16, "x"), (2, 16, 5, 1), "ID MINIMUM MAXIMUM (2 such lines are still owed)"),
    ("limits owed at the end", 0, B, MB[:15], (2, 16, 10, 0), "ID MINIMUM MAXIMUM (2 such lines are still owed)"),
    ("a limit with two fields", 0, B, put(MB, 16, "3>0"), (2, 16, 7, 1), "ID MINIMUM MAXIMUM (3 fields)"),
    ("a minimum", 0, A, put(M, 9, "1>x>5"), (2, 9, 8, 3), "a number from 0 to 32768"),
    ("a maximum behind 0", 0, A, put(M, 9, "1>0>x"), (2, 9, 8, 5), "0, or a number from 0 to 32768"),
    ("a maximum behind 7", 0, A, put(M, 9, "1>7>x"), (2, 9, 8, 5), "0, or a number from 7 to 32768"),
    ("a maximum behind 32768", 0, A, put(M, 9, "1>32768>1"), (2, 9, 9, 9), "0, or a number from 32768 to 32768"),
    ("a maximum behind a minimum that is too large", 0, A, put(M, 9, "1>32769>x"), (2, 9, 8, 9), "a number from 0 to 32768"),
    ("an id of 0", 0, A, put(M, 9, "0>0>5"), (2, 9, 9, 1), "a number from 1 to 32768"),
    ("an id that is not there", 0, A, put(M, 9, "2>0>5"), (2, 9, 16, 1), "an id that has no limit yet: 1"),
    ("eight ids", 0, CHECKED, eight(put(M, 9, "9>0>5")), (2, 9, 16, 1), "an id that has no limit yet: 1, 2, 3, 4, 5, 6 and 2 more"),
    ("no id left", 0, CHECKED, eight(ALL_EIGHT), (2, 17, 17, 1), "nothing, for every segment and zone has its limit"),
    ("seven ids without a limit", 0, CHECKED, eight(put(M, 9, "3>0>5")), (2, 10, 18, 1), "without a limit: 1, 2, 4, 5, 6, 7 and 1 more"),
    ("line too long", 0, put(A, 6, "lane>1.1" + ">" * 600), None, (1, 6, 2, 513), ""),
    ("comment", 0, put(A, 6, "lane>1.1/*"), None, (1, 6, 3, 9), ""),
    ("byte", 0, put(A, 6, "lane>1.1\\"), None, (1, 6, 4, 9), ""),
]
CASES = WORKED + READ


def sentence(told):
    return told if told == "" or told.startswith(expecting.WITHOUT) else expecting.MAY_STAND + told


def judged(case, told, first=False):
    _, edition, rndf, mdf, refusal, _ = case
    return expecting.judge(edition, text(rndf), b"" if mdf is None else text(mdf), refusal, sentence(told) if isinstance(told, str) else told, first)


STATEMENTS = [form for forms in (expecting.RNDF_FORMS, expecting.MDF_FORMS) for form in forms.format(
    segment=1, zone=2, lane="1.1", perimeter="2.0", spot="2.1", point="1.1.1", marked="POINT").splitlines()]


# three ways to say the same of a limit's maximum
ANY_MAXIMUM = {"a number from 0 to 32768", "0, or a number from 0 to 32768", "0, or a number from 1 to 32768"}


def mean_the_same(told, other):
    return told == other or {told, other} <= ANY_MAXIMUM


def mutants(told, number):
    """Sentences that are nearly this one; none of them means the same."""
    def changed(found, by):
        digits = found[0]
        value = int(digits) + by
        return told[:found.start()] + ("%0*d" % (len(digits), value) if len(digits) == 6 else str(value)) + told[found.end():] if value >= 0 else told

    yield "nothing told", ""
    yield "nothing", "nothing but blank lines and comments, for the file has ended"
    for more in (".", " ", ",", ", x", " x", " (1 such line is still owed)", " (2 such lines are still owed)", " (1 field)", " and 1 more", " and 1 more part", ", 1", ", 1.1.1", " or 1", ", 9.1.1 to 9.1.2"):
        if re.search(r"[0-9(.]|^ $", more) or not told.startswith("nothing,"):  # why nothing may stand is said in words that the judge does not know
            yield "with %r" % more, told + more
    if number == 14:
        yield "another name", told[:-1] + "c"
        yield "a shorter name", told[:-1]
        return
    if told.startswith("nothing"):
        yield "a number", "a number from 1 to 32768"
        return
    for found in re.finditer(r"[0-9]+", told):
        for by in (-1, 1, 1000):
            yield "number %s by %d" % (found[0], by), changed(found, by)
    for found in re.finditer(r"\b[A-Z]{2,}\b", told):
        for capital in expecting.CAPITALS:
            if found[0] in expecting.CAPITALS:
                yield "%s for %s" % (capital, found[0]), told[:found.start()] + capital + told[found.end():]
    lead, colon, rest = told.rpartition(": ")
    items = rest.split(", ")
    for k in range(len(items)):
        without = items[:k] + items[k + 1:]
        if without:
            yield "without %s" % items[k], lead + colon + ", ".join(without)
            yield "%s only" % items[k], lead + colon + items[k]
        yield "%s twice" % items[k], lead + colon + ", ".join(items[:k] + [items[k]] + items[k:])
        for j in range(k):
            swapped = list(items)
            swapped[j], swapped[k] = swapped[k], swapped[j]
            yield "%s and %s swapped" % (items[j], items[k]), lead + colon + ", ".join(swapped)
    if number in (5, 6, 10, 25):
        owed = re.search(r" \(.*", told)
        plain = told[:owed.start()] if owed else told
        if owed:
            yield "owed left out", plain
            yield "2 such line is", plain + " (2 such line is still owed)"
            yield "1 such lines are", plain + " (1 such lines are still owed)"
        for form in STATEMENTS:
            if form.split()[0] not in [item.split()[0] for item in items]:
                at = 0 if form.split()[0] not in expecting.OPTIONS else len(items)
                yield "with %s" % form, told + ", " + form
                yield "with %s in front" % form, form + ", " + told
                yield "with %s in its place" % form, ", ".join(items[:at] + [form] + items[at:])
                yield "%s in its stead" % form, form
    if number in (8, 9):
        for word in (b"double_yellow", b"solid_yellow", b"solid_white", b"broken_white"):
            yield "with %s" % word, told + " or " + word.decode()
            yield "without %s" % word, told.replace(word.decode() + ", ", "")
        yield "latitude and longitude", told.replace("latitude", "LL").replace("longitude", "latitude").replace("LL", "longitude")
        yield "of five digits", told.replace("six", "five")
        yield "with 0", "0, or " + told
    if number == 7:
        for form in STATEMENTS:
            count = len(form.split())
            yield "%s told" % form, "%s (%s)" % (form, "1 field" if count == 1 else "%d fields" % count)
    if number == 13:
        yield "any number", told.replace(" that no line before declares", "")
    yield "in other words", told.upper()


class Judge(unittest.TestCase):
    def test_refusals(self):
        """The cases are refused as it is said."""
        room = dict.fromkeys(oracle.TABLES, 10000)
        for label, edition, rndf, mdf, refusal, _ in CASES:
            reply = oracle.read_rndf(text(rndf), room, edition) if mdf is None else oracle.read_pair(text(rndf), text(mdf), room, edition)
            self.assertEqual(reply.refusal, refusal, label)

    def test_true(self):
        items = others = 0
        for case in CASES:
            verdict = judged(case, case[5])
            self.assertEqual(verdict.differs, [], case[0])
            if case[5]:
                self.assertGreaterEqual(verdict.others, expecting.LEAST_OTHERS, case[0])
            items, others = items + verdict.items, others + verdict.others
        print("%d sentences pass: %d items taken, %d others refused" % (len(CASES), items, others))

    def test_untidy(self):
        """The same with leading tabs, comments, blank lines and CRs: only line and column move."""
        for case in CASES:
            label, edition, rndf, mdf, refusal, told = case
            file, line, number, column = refusal
            if number in (2, 3, 4):
                continue
            untidy = [[b"", b"/* x */"] + [b" \t" + l.replace(">", "\t \t").encode() + b"/* end_file */\r" for l in lines] for lines in (rndf, mdf or [])]
            untidy = [b"\n".join(lines) + b"\n" * (k == 0) for k, lines in enumerate(untidy)]
            room = dict.fromkeys(oracle.TABLES, 10000)
            reply = oracle.read_rndf(untidy[0], room, edition) if mdf is None else oracle.read_pair(*untidy, room, edition)
            self.assertEqual((reply.refusal[0], reply.refusal[1] - 2, reply.refusal[2]), refusal[:3], label)
            self.assertEqual(expecting.judge(edition, *untidy, reply.refusal, sentence(told)).differs, [], label)

    def test_mutants(self):
        tried, missed = 0, []
        for case in CASES:
            for wrong, label in {wrong: label for label, wrong in mutants(case[5], case[4][2]) if not mean_the_same(wrong, case[5])}.items():
                tried += 1
                if not judged(case, wrong, True).differs:
                    missed.append("%s, %s: %s" % (case[0], label, wrong))
        print("%d wrong sentences, %d not noticed" % (tried, len(missed)))
        self.assertEqual(missed, [], "\n".join(missed))

    def test_others_sentences(self):
        """Every other case's sentence is wrong here, unless it is the same."""
        tried, missed = 0, []
        for case in CASES:
            for told in {other[5] for other in CASES if not mean_the_same(other[5], case[5])}:
                tried += 1
                if not judged(case, told, True).differs:
                    missed.append("%s: %s" % (case[0], told))
        print("%d sentences of other refusals, %d not noticed" % (tried, len(missed)))
        self.assertEqual(missed, [], "\n".join(missed))

    def test_stand_in(self):
        """The stand-in for the library tells each of them, byte for byte."""
        for label, edition, rndf, mdf, refusal, told in CASES:
            self.assertEqual(telling.tell(edition, text(rndf), b"" if mdf is None else text(mdf), refusal), sentence(told), label)

    def test_first_words(self):
        for case in CASES:
            if case[5]:
                for whole in (case[5] if case[4][2] != 18 else case[5][9:], "may stand here:" + case[5], "without a limit: " + case[5] if case[4][2] != 18 else "may stand here: 3, 4", sentence(case[5]) + "\n"):
                    self.assertTrue(judged(case, whole.encode()).differs, (case[0], whole))


if __name__ == "__main__":
    sys.exit(unittest.main())
