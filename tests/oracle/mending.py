"""L9: mend what can be mended in an RNDF, and say so.

Written from request L9 of document 02 and the agreed reading of it alone.  `mend` goes
through the lines once; `second` answers the same from each line on its own, by looking
back and forth from it, and is only for small texts.  Quoted sentences are L9's unless
another is named.
"""

import re

import oracle
from oracle import INTEGER, LARGEST_INTEGER, LARGEST_TEXT, PRESENT, RNDF_TABLES, STRIDE, Refused
from yards import YARD_A, YARD_B, YARD_C, cut, ins, put, text

POINT = "a line whose first field begins with a digit"

# A count's keyword: the item's keyword, and its part's end word ("`end_file` for
# segments and zones").
COUNTS = {
    b"num_segments": (b"segment", b"end_file"), b"num_zones": (b"zone", b"end_file"),
    b"num_lanes": (b"lane", b"end_segment"), b"num_waypoints": (POINT, b"end_lane"),
    b"num_spots": (b"spot", b"end_zone"), b"num_perimeterpoints": (POINT, b"end_perimeter"),
}
# The lines that open a part, with the options that document 01 does not let repeat in
# it; None: before any of them, "since the file's start".
SINGLE = {
    None: {b"format_version", b"creation_date"}, b"segment": {b"segment_name"},
    b"lane": {b"lane_width", b"left_boundary", b"right_boundary"}, b"zone": {b"zone_name"},
    b"perimeter": set(), b"spot": {b"spot_width", b"checkpoint"},
}
COUNT, OPTION, BEHIND = 1, 2, 3         # "which of the three (1, 2, 3 ..)"


class Mended:
    def __init__(self, list_rows, out_len):
        self.accepted = False
        self.refusal = None             # (file, line, number, column)
        self.rows = self.length = 0     # of the list and of the output, as far as used
        self.list = [(0, 0)] * list_rows
        self.output = bytes(out_len)


def pieces_of(whole):
    """The lines, each with its LF if it has one.  Document 01: "A text is cut at each
    LF. An unfinished last line counts; after a final LF there is no further line."""
    pieces = whole.split(b"\n")
    last = pieces.pop()
    return [piece + b"\n" for piece in pieces] + ([last] if last else [])


def fields_of(piece):
    """"Fields are those before the first `/*`, whatever the bytes": as (start, bytes) in
    the line, separated as L3 has it.  Document 01: "One CR as a line's last byte is
    dropped."""
    line = piece[:-1] if piece.endswith(b"\n") else piece
    if line.endswith(b"\r"):
        line = line[:-1]
    line = line.split(b"/*", 1)[0]
    return [(found.start(), found.group()) for found in re.finditer(rb"[^\t ]+", line)]


def is_item(first, item):
    """"Items are lines whose first field is the item's keyword or, for points, begins
    with a digit."""
    return first[:1].isdigit() if item is POINT else first == item


def good_integer(field):
    return INTEGER.fullmatch(field) is not None and int(field) <= LARGEST_INTEGER


def changes(pieces):
    """What becomes of each line that is changed: {index: (which, new piece)}."""
    lines = [fields_of(piece) for piece in pieces]
    firsts = [fields[0][1] if fields else None for fields in lines]
    found = {}
    last = firsts.index(b"end_file") if b"end_file" in firsts else len(firsts)
    given, opened = set(), None
    for i, (fields, first) in enumerate(zip(lines, firsts)):
        if first is None:
            continue
        if i > last:
            # "A line with fields behind the first `end_file`: it goes."
            found[i] = (BEHIND, b"")
        elif first in COUNTS and len(fields) == 2 and good_integer(fields[1][1]):
            # "A count line with one good integer whose number disagrees with the items
            # up to the next line that begins with its part's end word .. : only the
            # number is replaced."
            item, end = COUNTS[first]
            items = count(firsts, i + 1, item, end)
            start, number = fields[1]
            # "With over 32,768 items the count stays."
            if items is not None and items != int(number) and items <= LARGEST_INTEGER:
                found[i] = (COUNT, pieces[i][:start] + b"%d" % items + pieces[i][start + len(number):])
        elif first in SINGLE:
            given, opened = set(), first
        elif first in SINGLE[opened]:
            # "A single option that was already given since the last line that opens a
            # part, or since the file's start: the later line goes."
            if first in given:
                found[i] = (OPTION, b"")
            given.add(first)
    return found


def count(firsts, i, item, end):
    """The items from line i up to the next line that begins with the end word; None
    where there is none."""
    items = 0
    while i < len(firsts):
        if firsts[i] == end:
            return items
        if firsts[i] is not None and is_item(firsts[i], item):
            items += 1
        i += 1
    return None


def mend(edition, whole, list_rows, out_len):
    """`list_rows`: of the lent list, two words to a row; `out_len`: bytes of the lent
    output."""
    reply = Mended(list_rows, out_len)
    try:
        # "Refusals: 1, then 11, then 26 .., then 19"
        if len(whole) > LARGEST_TEXT:
            raise Refused(1, 0, 1)
        pieces = pieces_of(whole)
        # "The lent list has a row for each line of the text or the tool gives 11."
        if list_rows < len(pieces):
            raise Refused(1, 0, 11)
        found = changes(pieces)
        mended = b"".join(found[i][1] if i in found else piece for i, piece in enumerate(pieces))
        # "26 exactly if the text with those three changes would still be refused by a
        # reader with room enough"
        room = {t: STRIDE[t] * (len(pieces) + 1) for t in RNDF_TABLES}
        if not oracle.read_rndf(mended, room, edition).accepted:
            raise Refused(0, 0, 26)
        # 19 "longer than the lent one" (over 16,777,215 bytes the reader refuses it)
        if len(mended) > out_len:
            raise Refused(1, 0, 19)
        # "It lists each changed line in order, with its number in the given text and
        # which of the three"; "list rows not used are zero"
        rows = [(i + 1, found[i][0]) for i in sorted(found)]
        reply.list[:len(rows)] = rows
        reply.output = mended + bytes(out_len - len(mended))
        reply.rows, reply.length = len(rows), len(mended)
        reply.accepted = True
    except Refused as refused:
        reply.refusal = refused.reply
    return reply


# ------------------------------------------------------- the second judgement

def second(edition, whole):
    """None for 26, else (list, mended text), each line judged on its own: by what stands
    before it and behind it.  Quadratic."""
    numbered = list(enumerate(re.findall(rb"[^\n]*\n|[^\n]+", whole), 1))
    words = {}
    for n, line in numbered:
        line = re.fullmatch(rb"(.*?)\r?\n?", line, re.DOTALL)[1]
        words[n] = line.partition(b"/*")[0].replace(b"\t", b" ").split(b" ")
        words[n] = [word for word in words[n] if word]

    def first(n):
        return words[n][0] if n in words and words[n] else b""
    before = lambda n: range(n - 1, 0, -1)
    behind = lambda n: range(n + 1, len(numbered) + 1)
    out, rows = [], []
    for n, line in numbered:
        if not words[n]:
            out.append(line)
            continue
        if any(first(k) == b"end_file" for k in before(n)):
            rows.append((n, 3))
            continue
        # the last line before this one that opens a part
        opens = next((k for k in before(n) if first(k) in (b"segment", b"lane", b"zone", b"perimeter", b"spot")), 0)
        single = {b"": b"format_version creation_date", b"segment": b"segment_name", b"lane": b"lane_width left_boundary right_boundary",
                  b"zone": b"zone_name", b"perimeter": b"", b"spot": b"spot_width checkpoint"}[first(opens)].split()
        if first(n) in single and any(first(k) == first(n) for k in range(opens + 1, n)):
            rows.append((n, 2))
            continue
        kind = re.fullmatch(rb"num_(segment|zone|lane|waypoint|spot|perimeterpoint)s", first(n))
        if kind and len(words[n]) == 2 and re.fullmatch(rb"0|[1-9][0-9]{0,4}", words[n][1]) and int(words[n][1]) < 32769:
            closing = {b"segment": b"end_file", b"zone": b"end_file", b"lane": b"end_segment", b"waypoint": b"end_lane", b"spot": b"end_zone",
                       b"perimeterpoint": b"end_perimeter"}[kind[1]]
            end = next((k for k in behind(n) if first(k) == closing), None)
            if end is not None:
                if kind[1].endswith(b"point"):
                    items = sum(first(k)[:1] in tuple(b"%d" % d for d in range(10)) for k in range(n + 1, end))
                else:
                    items = sum(first(k) == kind[1] for k in range(n + 1, end))
                if items < 32769 and b"%d" % items != words[n][1]:
                    at = re.match(rb"[\t ]*[^\t ]+[\t ]+", line).end()
                    line = line[:at] + b"%d" % items + line[at + len(words[n][1]):]
                    rows.append((n, 1))
        out.append(line)
    mended = b"".join(out)
    if oracle.read_rndf(mended, {t: 8 * len(whole) for t in RNDF_TABLES}, edition).accepted:
        return rows, mended
    return None


# ------------------------------------------------------------------ by hand

A, C = YARD_A, YARD_C
WIDE_A = ins(A, 8, "lane_width>12")             # line 8
NAMED = ins(ins(C, 14, "zone_name>z"), 6, "segment_name>s")     # lines 6 and 15
TEN = put(A, 7, "num_waypoints>10") + []
TEN = TEN[:11] + ["1.1.%d>1.000000>1.000000" % k for k in range(3, 11)] + TEN[11:]      # ten waypoints
LONG = "x" * 600


def bare(lines):
    """Yard C without its spot: lines 19 to 23 go."""
    return lines[:18] + lines[23:]


# (label, edition, given, what comes out or None for 26, the list)
HAND = [
    # nothing to be done
    ("yard A", 0, A, A, []), ("yard B", 0, YARD_B, YARD_B, []), ("yard C", 0, C, C, []), ("yard C in 2006", 1, C, C, []),
    ("CRs, comments, no last LF", 0, text([l + " /* num_lanes>9 */" for l in A], "\r\n")[:-2], text([l + " /* num_lanes>9 */" for l in A], "\r\n")[:-2], []),
    ("blank lines behind", 0, A + ["", ">", "/* end_file */"], A + ["", ">", "/* end_file */"], []),
    ("stops and exits again", 0, ins(A, 10, A[8], "stop>1.1.1", "stop>1.1.1"), ins(A, 10, A[8], "stop>1.1.1", "stop>1.1.1"), []),
    ("a lane's checkpoints", 0, ins(A, 9, "checkpoint>1.1.2>8"), ins(A, 9, "checkpoint>1.1.2>8"), []),
    # 1: a count
    *[("%s says %s" % (line.split(">")[0], n), 0, put(C, k, line.split(">")[0] + ">" + n), C, [(k, 1)])
      for k, line in enumerate(C, 1) if line.startswith("num_") for n in ("0", "1", "2", "3", "9", "32767", "32768") if n != line.split(">")[1]],
    ("all six counts", 0, [l if not l.startswith("num_") else l.split(">")[0] + ">7" for l in C], C, [(2, 1), (3, 1), (5, 1), (7, 1), (13, 1), (15, 1)]),
    ("a count between tabs, spaces, a comment and a CR", 0, text(put(A, 7, " > num_waypoints > 5  /* 5 */>\r")), text(put(A, 7, " > num_waypoints > 2  /* 5 */>\r")), [(7, 1)]),
    ("a count directly before a comment", 0, put(A, 7, "num_waypoints>31/*2*/"), put(A, 7, "num_waypoints>2/*2*/"), [(7, 1)]),
    ("a count that gets longer", 0, put(TEN, 7, "num_waypoints>9"), TEN, [(7, 1)]),
    ("a count that makes a line of 512", 0, put(TEN, 7, "num_waypoints>9/*" + "c" * 492 + "*/"), put(TEN, 7, "num_waypoints>10/*" + "c" * 492 + "*/"), [(7, 1)]),
    ("a count that makes a line of 513", 0, put(TEN, 7, "num_waypoints>9/*" + "c" * 493 + "*/"), None, []),
    ("a count in a line of 513 that gets shorter", 0, put(A, 7, "num_waypoints>32/*" + "c" * 493 + "*/"), put(A, 7, "num_waypoints>2/*" + "c" * 493 + "*/"), [(7, 1)]),
    ("a count of an unclosed comment", 0, put(A, 7, "num_waypoints>5/*"), None, []),
    *[("a count that is no good integer: %s" % n, 0, put(A, 7, "num_waypoints>" + n), None, []) for n in ("32769", "40000", "99999", "100000", "02", "05", "00005", "000005", "+5", "5x", "x", "2.", "-2", "2>2", "5>2", "2>x", "", "\x802")],
    ("a point more", 0, ins(A, 12, "1.1.3>1.000000>1.000000"), put(ins(A, 12, "1.1.3>1.000000>1.000000"), 7, "num_waypoints>3"), [(7, 1)]),
    ("a point less", 0, cut(put(put(A, 8, "checkpoint>1.1.1>7"), 9, "exit>1.1.1>1.1.1"), 11), put(cut(put(put(A, 8, "checkpoint>1.1.1>7"), 9, "exit>1.1.1>1.1.1"), 11), 7, "num_waypoints>1"), [(7, 1)]),
    ("a point less, and it is named", 0, cut(A, 11), None, []),
    ("a line that only begins with a digit", 0, ins(A, 12, "7"), None, []),
    ("no point", 0, A[:7] + A[11:], None, []),
    ("no end_lane", 0, cut(A, 12), None, []),
    ("no spot", 0, bare(C), bare(put(C, 13, "num_spots>0")), [(13, 1)]),
    ("no spot in 2006", 1, bare(C), None, []),
    ("0 spots and a spot in 2006", 1, put(C, 13, "num_spots>0"), C, [(13, 1)]),
    ("the zone goes", 0, C[:11] + C[24:], put(C, 3, "num_zones>0")[:11] + C[24:], [(3, 1)]),
    ("num_lanes counts lanes alone", 0, put(A, 5, "num_lanes>2"), A, [(5, 1)]),
    ("a count line again", 0, ins(A, 6, "num_lanes>2"), None, []),
    # 2: a single option again
    ("lane_width again", 0, ins(WIDE_A, 9, "lane_width>12"), WIDE_A, [(9, 2)]),
    ("another lane_width", 0, ins(WIDE_A, 9, "lane_width>13"), WIDE_A, [(9, 2)]),
    ("lane_width twice again", 0, ins(WIDE_A, 9, "lane_width>13", "lane_width>14"), WIDE_A, [(9, 2), (10, 2)]),
    *[("lane_width again, %s" % what, 0, ins(WIDE_A, 9, "lane_width" + tail), WIDE_A, [(9, 2)])
      for what, tail in (("bare", ""), ("malformed", ">x>y"), ("32,769", ">32769"), ("bytes", ">\x80\\*"), ("comment not closed", "/* x"), ("comment and more", ">1/* x */>y"), ("long", ">" + LONG), ("a CR inside", ">1\r2"), ("a CR", ">1\r"))],
    ("lane_widths, the first malformed", 0, put(WIDE_A, 8, "lane_width>x", "lane_width>12"), None, []),
    *[("lane_width again at line %d" % k, 0, ins(WIDE_A, k, "lane_width>12"), WIDE_A, [(k, 2)]) for k in (10, 11, 12, 13, 14, 15)],
    ("lane_width behind end_file", 0, WIDE_A + ["lane_width>12"], WIDE_A, [(16, 3)]),
    ("lane_width before and behind the count", 0, ins(WIDE_A, 7, "lane_width>12"), None, []),
    ("lane_width in the next lane", 0, ins(put(ins(WIDE_A, 14, "lane>1.2", "num_waypoints>1", "lane_width>12", "1.2.1>1.000000>1.000000", "end_lane"), 5, "num_lanes>2"), 14), put(ins(WIDE_A, 14, "lane>1.2", "num_waypoints>1", "lane_width>12", "1.2.1>1.000000>1.000000", "end_lane"), 5, "num_lanes>2"), []),
    ("left, right, left", 0, ins(A, 8, "left_boundary>solid_white", "right_boundary>solid_white", "left_boundary>solid_yellow"), ins(A, 8, "left_boundary>solid_white", "right_boundary>solid_white"), [(10, 2)]),
    ("left again, solid_yellow in 2006", 1, ins(A, 8, "left_boundary>solid_white", "left_boundary>solid_yellow"), ins(A, 8, "left_boundary>solid_white"), [(9, 2)]),
    ("left, solid_yellow first in 2006", 1, ins(A, 8, "left_boundary>solid_yellow", "left_boundary>solid_white"), None, []),
    ("version again", 0, ins(A, 4, "format_version>1", "format_version>1"), ins(A, 4, "format_version>1"), [(5, 2)]),
    ("date, version, date", 0, ins(A, 4, "creation_date>d", "format_version>1", "creation_date>e"), ins(A, 4, "creation_date>d", "format_version>1"), [(6, 2)]),
    ("version behind segment", 0, ins(ins(A, 5, "format_version>1"), 4, "format_version>1"), None, []),
    ("segment_name again", 0, ins(NAMED, 7, " segment_name t"), NAMED, [(7, 2)]),
    ("segment_name behind lane", 0, ins(NAMED, 8, "segment_name>s"), None, []),
    ("segment_name behind lane, twice", 0, ins(NAMED, 8, "segment_name>s", "segment_name>s"), None, []),
    ("zone_name again", 0, ins(NAMED, 16, "zone_name>z/* z */"), NAMED, [(16, 2)]),
    ("zone_name behind perimeter", 0, ins(NAMED, 17, "zone_name>z"), None, []),
    ("a spot's checkpoint again", 0, ins(C, 21, "checkpoint>2.1.2>6"), C, [(21, 2)]),
    ("a spot's checkpoint again on waypoint 1", 0, ins(C, 21, "checkpoint>2.1.1>5"), C, [(21, 2)]),
    ("a spot's checkpoint on waypoint 1 first", 0, ins(C, 20, "checkpoint>2.1.1>6"), None, []),
    ("a spot's checkpoint again behind end_spot", 0, ins(C, 24, "checkpoint>2.1.2>6"), C, [(24, 2)]),
    ("a spot's checkpoint again behind end_zone", 0, ins(C, 25, "checkpoint>2.1.2>6"), C, [(25, 2)]),
    ("spot_width again", 0, ins(C, 20, "spot_width>9", "spot_width>9"), ins(C, 20, "spot_width>9"), [(21, 2)]),
    ("a lane's checkpoint again", 0, ins(A, 9, A[7]), None, []),
    ("RNDF_name again", 0, ins(A, 2, A[0]), None, []),
    ("lane_width in capitals", 0, ins(WIDE_A, 9, "Lane_width>12"), None, []),
    # 3: behind end_file
    ("end_file again", 0, A + ["end_file"], A, [(15, 3)]),
    ("lines behind", 0, A + ["x", "", "num_lanes>7", "/* c */", "format_version>1", "\x80"], A + ["", "/* c */"], [(15, 3), (17, 3), (19, 3), (20, 3)]),
    ("the whole yard again", 0, A + A, A, [(k, 3) for k in range(15, 29)]),
    ("an unfinished line behind", 0, text(A) + b"x", A, [(15, 3)]),
    ("a line behind, with a comment not closed", 0, A + ["x/*"], A, [(15, 3)]),
    ("a comment not closed behind", 0, A + ["/*"], None, []),
    ("a long line behind", 0, A + [LONG], A, [(15, 3)]),
    ("a long line of spaces behind", 0, A + [" " * 600], None, []),
    ("a CR inside a line behind", 0, A + ["\r\r"], A, [(15, 3)]),
    ("a comment that is followed, behind", 0, A + ["/* c */ x"], None, []),
    ("end_file with a field", 0, put(A, 14, "end_file>x"), None, []),
    ("end_file with a field, then one without", 0, ins(A, 14, "end_file>x"), None, []),
    ("end_file too early", 0, ins(C, 12, "end_file"), put(C, 3, "num_zones>0")[:11] + ["end_file"], [(3, 1)] + [(k, 3) for k in range(13, 27)]),
    # several
    ("one of each", 0, put(ins(WIDE_A, 9, "lane_width>1"), 7, "num_waypoints>0") + ["end_file"], WIDE_A, [(7, 1), (9, 2), (17, 3)]),
    ("one of each, and an entry that is none", 0, put(put(ins(WIDE_A, 9, "lane_width>1"), 7, "num_waypoints>0") + ["end_file"], 11, "exit>1.1.2>1.1.3"), None, []),
    ("a byte not allowed", 0, put(A, 12, "end_lane*"), None, []),
    ("nothing", 0, [], None, []), ("no end_file", 0, A[:-1], None, []), ("an MDF", 0, b"MDF_name\tx\n", None, []),
]


def many(which, n, said, rng=None):
    """An RNDF in which one part comes n times and its count says something else, as lines of fields: what, how many, the number."""
    one = "1.1.%d>1.000000>1.000000"
    head = lambda m, z: ["RNDF_name>many", "num_segments>%s" % m, "num_zones>%s" % z]
    segment = lambda s, lanes=1: ["segment>%d" % s, "num_lanes>%s" % lanes]
    lane = lambda s, l: ["lane>%d.%d" % (s, l), "num_waypoints>1", "%d.%d.1>1.000000>1.000000" % (s, l), "end_lane"]
    zone = lambda z, spots=0, points=1: ["zone>%d" % z, "num_spots>%s" % spots, "perimeter>%d.0" % z, "num_perimeterpoints>%s" % points]
    closed = ["end_perimeter", "end_zone"]
    if which == "waypoints":
        return head(1, 0) + segment(1) + ["lane>1.1", "num_waypoints>%s" % said] + [one % k for k in range(1, n + 1)] + ["end_lane", "end_segment", "end_file"]
    if which == "lanes":
        return head(1, 0) + segment(1, said) + [l for k in range(1, n + 1) for l in lane(1, k)] + ["end_segment", "end_file"]
    if which == "segments":
        return head(said, 0) + [l for k in range(1, n + 1) for l in segment(k) + lane(k, 1) + ["end_segment"]] + ["end_file"]
    begin = segment(1) + lane(1, 1) + ["end_segment"]
    if which == "zones":                # with the segment n parts
        return head(1, said) + begin + [l for k in range(2, n + 1) for l in zone(k) + ["%d.0.1>1.000000>1.000000" % k] + closed] + ["end_file"]
    if which == "perimeter points":
        return head(1, 1) + begin + zone(2, 0, said) + ["2.0.%d>1.000000>1.000000" % k for k in range(1, n + 1)] + closed + ["end_file"]
    if which == "spots":
        return head(1, 1) + begin + zone(2, said) + ["2.0.1>1.000000>1.000000", "end_perimeter"] + [
            l for k in range(1, n + 1) for l in ("spot>2.%d" % k, "checkpoint>2.%d.2>%d" % (k, k), "2.%d.1>1.000000>1.000000" % k, "2.%d.2>1.000000>1.000000" % k, "end_spot")] + ["end_zone", "end_file"]


MANY = [(which, n) for which in ("waypoints", "lanes", "segments", "zones", "perimeter points", "spots") for n in (32768, 32769)]


# Small mistakes in `mend`, each of which the damage run's texts notice (tests/damage/compare.py --mutants).
MUTANTS = [
    ('(b"segment", b"end_file"), b"num_zones"', '(b"segment", b"end_segment"), b"num_zones"'),
    ('(b"zone", b"end_file")', '(b"zone", b"end_zone")'),
    ('(b"lane", b"end_segment")', '(b"lane", b"end_file")'),
    ('(POINT, b"end_lane")', '(POINT, b"end_segment")'),
    ('(b"spot", b"end_zone")', '(b"spot", b"end_file")'),
    ('(POINT, b"end_perimeter")', '(POINT, b"end_zone")'),
    ('None: {b"format_version", b"creation_date"}', 'None: {b"format_version"}'),
    ('b"segment": {b"segment_name"}', 'b"segment": set()'),
    ('{b"lane_width", b"left_boundary", b"right_boundary"}', '{b"lane_width", b"left_boundary"}'),
    ('{b"lane_width", b"left_boundary", b"right_boundary"}', '{b"lane_width", b"left_boundary", b"right_boundary", b"checkpoint"}'),
    ('{b"lane_width", b"left_boundary", b"right_boundary"}', '{b"lane_width", b"left_boundary", b"right_boundary", b"stop"}'),
    ('b"perimeter": set()', 'b"perimeter": {b"exit"}'),
    ('b"zone": {b"zone_name"}', 'b"zone": set()'),
    ('{b"spot_width", b"checkpoint"}', '{b"spot_width"}'),
    ('{b"spot_width", b"checkpoint"}', '{b"checkpoint"}'),
    ('    return [piece + b"\\n" for piece in pieces] + ([last] if last else [])', '    return [piece + b"\\n" for piece in pieces] + [last]'),
    ('    if line.endswith(b"\\r"):\n        line = line[:-1]\n', ''),
    ('line.split(b"/*", 1)[0]', 'line'),
    ('line.split(b"/*", 1)[0]', 'line.rsplit(b"/*", 1)[0]'),
    ('rb"[^\\t ]+", line)]', 'rb"[^\\t]+", line)]'),
    ('rb"[^\\t ]+", line)]', 'rb"[!-~]+", line)]'),
    ('int(field) <= LARGEST_INTEGER\n', 'int(field) < LARGEST_INTEGER\n'),
    ('int(field) <= LARGEST_INTEGER\n', 'True\n'),
    ('INTEGER.fullmatch(field) is not None', 'field.isdigit()'),
    ('        if i > last:', '        if i >= last:'),
    ('        if i > last:', '        if False:'),
    ('found[i] = (BEHIND, b"")', 'found[i] = (BEHIND, b"\\n")'),
    ('found[i] = (OPTION, b"")', 'found[i] = (OPTION, b"\\n")'),
    ('items != int(number) and items <= LARGEST_INTEGER', 'items != int(number) and 0 < items <= LARGEST_INTEGER'),
    ('items != int(number) and items <= LARGEST_INTEGER', 'items <= LARGEST_INTEGER'),
    ('pieces[i][start + len(number):])', 'b"\\n")'),
    ('            given, opened = set(), first\n', '            opened = first\n'),
    ('            if first in given:\n', '            if True:\n'),
    ('            given.add(first)\n', '            given = {first}\n'),
    ('if list_rows < len(pieces):', 'if list_rows < len(pieces) - 1:'),
    ('if list_rows < len(pieces):', 'if list_rows <= len(pieces):'),
    ('raise Refused(1, 0, 11)', 'raise Refused(0, 0, 11)'),
    ('read_rndf(mended, room, edition)', 'read_rndf(mended, room)'),
    ('raise Refused(0, 0, 26)', 'raise Refused(1, 0, 26)'),
    ('if len(mended) > out_len:', 'if len(mended) >= out_len:'),
    ('if len(mended) > out_len:', 'if len(whole) > out_len:'),
    ('raise Refused(1, 0, 19)', 'raise Refused(0, 0, 19)'),
    ('[(i + 1, found[i][0]) for', '[(i, found[i][0]) for'),
    ('        if len(whole) > LARGEST_TEXT:\n            raise Refused(1, 0, 1)\n', ''),
]
