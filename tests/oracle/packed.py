"""L11: packed forms by hand, a second judgement, and forms good and damaged.

`judged(data)` knows nothing of the oracle's packing and unpacking: it takes the bytes
apart anew and holds each row to document 01, where `oracle.unpack` writes an RNDF of
the rows and has it read.  `records_of` and `assemble` are a packer of their own that
also packs what is no network.
"""

import struct

import generate as g
import oracle
from oracle import RNDF_TABLES, STRIDE
from yards import YARD_A, text

# ------------------------------------------------------------------ by hand

# docs/PACKED.md, a record to a line
FORM_A = bytes.fromhex("""
02 00 00 00 68
00 2a 00 00 00 01 00 00 00 01 00 00 00 00 00 00 00 00 00 00 00 02 00 00 00 01 00 00 00 00 00 00 00 01 00 06 79 61 72 64 5f 61 00 00
00 08 00 00 00 00 00 01 00 00
00 0a 00 00 00 00 00 02 ff ff 00 00
00 08 02 ae a5 40 fa 74 ee c0
00 08 02 ae a5 a4 fa 74 ee c0
00 06 00 07 00 00 00 01
00 08 00 00 00 01 00 00 00 00
""")
TABLES_A = {
    "segments": [0, 1, 0, 0], "lanes": [0, 2, 65535, 0, 0], "zones": [], "spots": [],
    "points": [45_000_000, -93_000_000, 45_000_100, -93_000_000], "checkpoints": [7, 1],
    "stops": [], "exits": [1, 0],
}
FILE_A = (41, 6, 0, 0, 0, 0)

# Two lanes, two zones (the second without spots), a spot, names, version and date,
# widths and boundaries, two checkpoints out of their points' order, the edges of
# coordinates and numbers.
YARD_Z = """\
RNDF_name>z
num_segments>1
num_zones>2
format_version>1.0
creation_date>d
segment>1
num_lanes>2
segment_name>Main
lane>1.1
num_waypoints>2
lane_width>12
left_boundary>double_yellow
right_boundary>broken_white
checkpoint>1.1.2>1
checkpoint>1.1.1>2
stop>1.1.2
exit>1.1.2>1.2.1
exit>1.1.2>2.0.1
1.1.1>45.000000>-93.000000
1.1.2>-0.500000>0.000001
end_lane
lane>1.2
num_waypoints>1
checkpoint>1.2.1>3
stop>1.2.1
1.2.1>-0.000000>-0.000001
end_lane
end_segment
zone>2
num_spots>1
zone_name>Lot
perimeter>2.0
num_perimeterpoints>2
exit>2.0.2>1.1.1
2.0.1>1.000000>2.000000
2.0.2>90.000000>180.000000
end_perimeter
spot>2.1
spot_width>9
checkpoint>2.1.2>32768
2.1.1>-90.000000>-180.000000
2.1.2>1.000001>2.000001
end_spot
end_zone
zone>3
num_spots>0
perimeter>3.0
num_perimeterpoints>1
3.0.1>3.000000>3.000000
end_perimeter
end_zone
end_file
""".splitlines()

FORM_Z = bytes.fromhex("""
02 00000115
0028 00000001 00000002 00000002 00000001 00000008 00000004 00000002 00000003 0001 7a 0003 312e30
000c 00000000 0002 0004 4d61696e
000a 00000000 0002 000c 01 04
000a 00000002 0001 ffff 00 00
0011 00000003 0002 00000000 0001 0003 4c6f74
000e 00000007 0001 00000000 0000 0000
0006 00000005 0009
0008 02aea540 fa74eec0
0008 fff85ee0 00000001
0008 00000000 ffffffff
0008 000f4240 001e8480
0008 055d4a80 0aba9500
0008 faa2b580 f5456b00
0008 000f4241 001e8481
0008 002dc6c0 002dc6c0
0006 0001 00000001
0006 0002 00000000
0006 0003 00000002
0006 8000 00000006
0004 00000001
0004 00000002
0008 00000001 00000002
0008 00000001 00000003
0008 00000004 00000000
""")
# As the version before L12 had them, with the date's name behind the version's.
FORM_A_1 = bytes.fromhex("01 0000006a 002c") + FORM_A[7:49] + bytes(2) + FORM_A[49:]
FORM_Z_1 = bytes.fromhex("01 00000118 002b") + FORM_Z[7:47] + bytes.fromhex("0001 64") + FORM_Z[47:]
TABLES_Z = {
    "segments": [0, 2, 57, 4], "lanes": [0, 2, 12, 1, 4, 2, 1, 65535, 0, 0],
    "zones": [3, 2, 0, 1, 101, 3, 7, 1, 0, 0, 0, 0], "spots": [5, 9],
    "points": [45_000_000, -93_000_000, -500_000, 1, 0, -1, 1_000_000, 2_000_000,
               90_000_000, 180_000_000, -90_000_000, -180_000_000, 1_000_001, 2_000_001,
               3_000_000, 3_000_000],
    "checkpoints": [1, 1, 2, 0, 3, 2, 32768, 6], "stops": [1, 2],
    "exits": [1, 2, 1, 3, 4, 0],
}
FILE_Z = (41, 1, 44, 3, 0, 0)           # L12: no date, though yard Z has one


# ------------------------------------------------- records, whatever they say

FIELDS = {
    "file": (4,) * 8 + ("name",) * 2, "segments": (4, 2, "name"), "lanes": (4, 2, 2, 1, 1),
    "zones": (4, 2, 4, 2, "name"), "spots": (4, 2), "points": (4, 4),
    "checkpoints": (2, 4), "stops": (4,), "exits": (4, 4),
}
COUNT = {table: k for k, table in enumerate(RNDF_TABLES)}      # where the file's record counts it


def records_of(network):
    """The records as [table, values], to be changed; a name is bytes."""
    records = [["file", [len(getattr(network, t)) for t in RNDF_TABLES] + [network.name, network.version]]]
    for t in RNDF_TABLES:
        records += [[t, list(row)] for row in getattr(network, t)]
    return records


def encoded(records):
    """Each record's bytes; a number that does not fit is cut."""
    out = []
    for table, values in records:
        whole = b""
        for value, size in zip(values, FIELDS.get(table, values)):
            if isinstance(value, bytes):
                whole += (struct.pack(">H", len(value) & 0xFFFF) if size == "name" else b"") + value
            else:
                whole += (value & (1 << 8 * size) - 1).to_bytes(size, "big")
        out.append(struct.pack(">H", len(whole) & 0xFFFF) + whole)
    return out


def assemble(records, version=2):
    return framed(b"".join(encoded(records)), version)


def framed(rest, version=2):
    return struct.pack(">BI", version, len(rest)) + rest


def of_text(lines):
    r = text(lines)
    reply = oracle.read_rndf(r, {t: 200 * STRIDE[t] for t in oracle.TABLES})
    return oracle.network_of(reply, r)


# ------------------------------------------------------- the second judgement

def judged(data):
    """1, 27, 28 or 29, or 0 for some network's packed form."""
    if len(data) > 16_777_215:
        return 1
    if data[:1] != b"\x02":
        return 27
    if data[1:5] != struct.pack(">I", max(0, len(data) - 5)):
        return 28
    bodies, rest = [], data[5:]
    at = 0
    while at != len(rest):
        if at + 2 > len(rest):
            return 28
        size, = struct.unpack_from(">H", rest, at)
        if at + 2 + size > len(rest):
            return 28
        bodies.append(rest[at + 2:at + 2 + size])
        at += 2 + size
    try:
        return 0 if all(rules(*rows(bodies))) else 29
    except NoRows:
        return 29


class NoRows(Exception):
    pass


def rows(bodies):
    """The file's two names, and each table's rows."""
    def fixed(body, layout):
        if len(body) != struct.calcsize(layout):
            raise NoRows
        return struct.unpack(layout, body)

    def named(body, layout, names):
        head = struct.calcsize(layout)
        if len(body) < head:
            raise NoRows
        got, body = list(struct.unpack(layout, body[:head])), body[head:]
        for _ in range(names):
            if len(body) < 2 or len(body) < 2 + 256 * body[0] + body[1]:
                raise NoRows
            end = 2 + 256 * body[0] + body[1]
            got.append(body[2:end])
            body = body[end:]
        if body:
            raise NoRows
        return tuple(got)
    if not bodies:
        raise NoRows
    counts, names = (lambda f: (f[:8], f[8:]))(named(bodies[0], ">8I", 2))
    if sum(counts) != len(bodies) - 1:
        raise NoRows
    at, tables = 1, []
    for table, count in zip(RNDF_TABLES, counts):
        mine = bodies[at:at + count]
        at += count
        if table == "segments":
            tables.append([named(b, ">IH", 1) for b in mine])
        elif table == "zones":
            tables.append([named(b, ">IHIH", 1) for b in mine])
        else:
            layout = {"lanes": ">IHHBB", "spots": ">IH", "points": ">ii", "checkpoints": ">HI",
                      "stops": ">I", "exits": ">II"}[table]
            tables.append([fixed(b, layout) for b in mine])
    return (names, *tables)


def good_name(name):
    return 1 <= len(name) <= 128 and all(33 <= b <= 126 and b not in b"*\\" for b in name)


def rules(names, segments, lanes, zones, spots, points, checkpoints, stops, exits):
    """Document 01 and L8, rule by rule, on rows."""
    LANE, PERIMETER, SPOT_1, SPOT_2 = "lane", "perimeter", "spot's first", "spot's second"
    name, version = names
    yield good_name(name)
    yield version == b"" or good_name(version)
    yield len(segments) > 0
    yield len(segments) + len(zones) <= 32768
    # what each point is, and the place of its part in the file
    kind, part = [], []
    next_lane = next_spot = parts = 0
    for first, count, label in segments:
        yield first == next_lane
        yield 1 <= count <= 32768
        yield label == b"" or good_name(label)
        next_lane += count
    yield next_lane == len(lanes)
    for first, count, width, left, right in lanes:
        yield first == len(kind)
        yield 1 <= count <= 32768
        yield width <= 32768 or width == 65535
        yield left <= 4
        yield right <= 4
        kind += [LANE] * count
        part += [parts] * count
        parts += 1
    for first, count, first_spot, number, label in zones:
        yield first == len(kind)
        yield 1 <= count <= 32768
        yield number <= 32768
        yield first_spot == (next_spot if number > 0 else 0)
        yield label == b"" or good_name(label)
        kind += [PERIMETER] * count
        part += [parts] * count
        parts += 1
        for row in range(next_spot, next_spot + number):
            yield row < len(spots)
            yield spots[row][0] == len(kind)
            yield 1 <= spots[row][1] <= 32768 or spots[row][1] == 65535
            kind += [SPOT_1, SPOT_2]
            part += [parts] * 2
            parts += 1
        next_spot += number
    yield next_spot == len(spots)
    yield len(kind) == len(points)
    for latitude, longitude in points:
        yield -90_000_000 <= latitude <= 90_000_000
        yield -180_000_000 <= longitude <= 180_000_000
    # marks stand in file order: part by part
    for marks in ([point for _, point in checkpoints], [point for point, in stops], [point for point, _ in exits]):
        for point in marks:
            yield point < len(points)
        for a, b in zip(marks, marks[1:]):
            yield part[a] <= part[b]
    for number, point in checkpoints:
        yield 1 <= number <= 32768
        yield kind[point] in (LANE, SPOT_2)
    yield len({number for number, _ in checkpoints}) == len(checkpoints)
    in_spots = [point for _, point in checkpoints if kind[point] == SPOT_2]
    yield in_spots == [point for point, what in enumerate(kind) if what == SPOT_2]
    for point, in stops:
        yield kind[point] == LANE
    for point, entry in exits:
        yield kind[point] in (LANE, PERIMETER)
        yield entry < len(points)
        yield kind[entry] == LANE or kind[entry] == PERIMETER and kind[point] == LANE


# --------------------------------------------------------- more cases by hand

def with_bytes(form, at, new):
    return form[:at] + bytes(new) + form[at + len(new):]


def changed(lines, *changes):
    """The form of a yard with some values of its records put in place of others:
    (table, row, column, value)."""
    records = records_of(of_text(lines))
    for table, row, column, value in changes:
        [r for r in records if r[0] == table][row][1][column] = value
    return assemble(records)


def swapped(lines, table, a, b):
    records = records_of(of_text(lines))
    mine = [k for k, r in enumerate(records) if r[0] == table]
    records[mine[a]], records[mine[b]] = records[mine[b]], records[mine[a]]
    return assemble(records)


def without(lines, table, row):
    records = records_of(of_text(lines))
    records.remove([r for r in records if r[0] == table][row])
    records[0][1][COUNT[table]] -= 1
    return assemble(records)


def more(lines, table, row, *values):
    """One row more, put before this one."""
    records = records_of(of_text(lines))
    mine = [k for k, r in enumerate(records) if r[0] == table]
    records.insert(mine[row] if row < len(mine) else mine[-1] + 1, [table, list(values)])
    records[0][1][COUNT[table]] += 1
    return assemble(records)


def beyond(form, more_bytes):
    """Bytes behind, and the first length to match."""
    return framed(form[5:] + more_bytes)


def nothing_but_a_file():
    records = records_of(of_text(YARD_A))[:1]
    records[0][1][:8] = [0] * 8
    return assemble(records)


def no_segments():
    """One zone with one point, and no segment."""
    return assemble([["file", [0, 0, 1, 0, 1, 0, 0, 0, b"y", b""]], ["zones", [0, 1, 0, 0, b""]], ["points", [0, 0]]])


PLAIN = (65535, 0, 0)       # a lane without width and boundaries


def small(segments, lanes, zones, points, spots=()):
    return assemble(records_of(oracle.Network(b"s", b"", b"", segments, lanes, zones, spots, [(0, 0)] * points, [], [], [])))


A, Z = YARD_A, YARD_Z
# (label, bytes, answer): 0 is a network's form
HAND = [
    ("yard A", FORM_A, 0),
    ("yard Z", FORM_Z, 0),
    ("no bytes", b"", 27),
    ("version 0", with_bytes(FORM_A, 0, [0]), 27),
    ("version 3", with_bytes(FORM_A, 0, [3]), 27),
    ("version 3 alone", b"\x03", 27),
    ("version 255", with_bytes(FORM_A, 0, [255]), 27),
    # L12: "bytes of version 1 give 27 from then on"
    ("yard A as version 1 had it", FORM_A_1, 27),
    ("yard Z as version 1 had it, with its date", FORM_Z_1, 27),
    ("version 1, and no date", with_bytes(FORM_A, 0, [1]), 27),
    ("version 1 alone", b"\x01", 27),
    ("version 1, cut short", FORM_A_1[:-1], 27),
    ("version 1, no record", b"\x01\0\0\0\0", 27),
    ("version 2 with a missing date", with_bytes(FORM_A_1, 0, [2]), 29),
    ("version 2 with a date", with_bytes(FORM_Z_1, 0, [2]), 29),
    ("version alone", b"\x02", 28),
    ("four bytes", b"\x02\0\0\0", 28),
    ("no record", b"\x02\0\0\0\0", 29),
    ("no record, and a length of 1", b"\x02\0\0\0\1", 28),
    ("the first length one less", with_bytes(FORM_A, 4, [0x67]), 28),
    ("the first length one more", with_bytes(FORM_A, 4, [0x69]), 28),
    ("the first length in its high byte", with_bytes(FORM_A, 1, [1]), 28),
    ("the first length little endian", with_bytes(FORM_A, 1, [0x68, 0, 0, 0]), 28),
    ("a byte cut off", FORM_A[:-1], 28),
    ("a byte cut off, the first length to match", framed(FORM_A[5:-1]), 28),
    ("a lone byte behind", beyond(FORM_A, b"\0"), 28),
    ("a byte behind, the first length as before", FORM_A + b"\0", 28),
    ("an empty record behind", beyond(FORM_A, b"\0\0"), 29),
    ("a record of one byte behind", beyond(FORM_A, b"\0\1x"), 29),
    ("a record behind that runs past the end", beyond(FORM_A, b"\0\1"), 28),
    ("a record more: the exit again", beyond(FORM_A, FORM_A[99:]), 29),
    ("a record more, and it is counted", with_bytes(beyond(FORM_A, FORM_A[99:]), 38, [2]), 0),
    ("the last record left out", framed(FORM_A[5:99]), 29),
    ("the last record left out, and not counted", with_bytes(framed(FORM_A[5:99]), 38, [0]), 0),
    ("an empty record", framed(b"\0\0"), 29),
    ("a record cut, the others whole: 28 before 29", with_bytes(FORM_A, 99, [0, 9]), 28),
    ("29 before and 28 behind", with_bytes(with_bytes(FORM_A, 40, [0]), 100, [9]), 28),
    ("a length that takes the next record in", with_bytes(FORM_A, 50, [8 + 12]), 29),
    ("name's length 0", with_bytes(FORM_A, 40, [0]), 29),
    ("no name", changed(A, ("file", 0, 8, b"")), 29),
    ("`*` in a name", with_bytes(FORM_A, 43, b"*"), 29),
    ("`\\` in a name", with_bytes(FORM_A, 43, b"\\"), 29),
    ("a space in a name", with_bytes(FORM_A, 43, b" "), 29),
    ("a tab in a name", with_bytes(FORM_A, 46, b"\t"), 29),
    ("a CR at a name's end", with_bytes(FORM_A, 46, b"\r"), 29),
    ("a LF at a name's end", with_bytes(FORM_A, 46, b"\n"), 29),
    ("0x7f in a name", with_bytes(FORM_A, 43, b"\x7f"), 29),
    ("0x00 in a name", with_bytes(FORM_A, 41, b"\0"), 29),
    ("0x80 in a name", with_bytes(FORM_A, 41, b"\x80"), 29),
    ("`!` and `~` in a name", with_bytes(FORM_A, 43, b"!~"), 0),
    ("`//` in a name", with_bytes(FORM_A, 43, b"//"), 0),
    ("a comment in a name", changed(A, ("file", 0, 8, b"a/**/")), 29),
    ("lines in a name", changed(A, ("file", 0, 9, b"v\nsegment\t1")), 29),
    ("a date in a version", changed(A, ("file", 0, 9, b"v\ncreation_date\td")), 29),
    ("a name of 128", changed(A, ("file", 0, 8, b"n" * 128)), 0),
    ("a name of 129", changed(A, ("file", 0, 8, b"n" * 129)), 29),
    ("a version of 128", changed(A, ("file", 0, 9, b"n" * 128)), 0),
    ("a version of 129", changed(A, ("file", 0, 9, b"n" * 129)), 29),
    ("a version of 65,000", changed(A, ("file", 0, 9, b"n" * 65000)), 29),
    ("a segment's name of 128", changed(Z, ("segments", 0, 2, b"n" * 128)), 0),
    ("a segment's name of 129", changed(Z, ("segments", 0, 2, b"n" * 129)), 29),
    ("a zone's name of 129", changed(Z, ("zones", 0, 4, b"n" * 129)), 29),
    ("a zone's name with `*`", changed(Z, ("zones", 0, 4, b"*")), 29),
    ("a segment's name goes", changed(Z, ("segments", 0, 2, b"")), 0),
    ("width 40,000", with_bytes(FORM_A, 67, [0x9c, 0x40]), 29),
    ("width 32,768", with_bytes(FORM_A, 67, [0x80, 0]), 0),
    ("width 32,769", with_bytes(FORM_A, 67, [0x80, 1]), 29),
    ("width 65,534", with_bytes(FORM_A, 67, [0xff, 0xfe]), 29),
    ("width 0", with_bytes(FORM_A, 67, [0, 0]), 0),
    ("left 4", with_bytes(FORM_A, 69, [4]), 0),
    ("left 5", with_bytes(FORM_A, 69, [5]), 29),
    ("right 5", with_bytes(FORM_A, 70, [5]), 29),
    ("solid_yellow", with_bytes(FORM_A, 70, [2]), 0),
    ("latitude 90,000,000", changed(A, ("points", 0, 0, 90_000_000)), 0),
    ("latitude 90,000,001", changed(A, ("points", 0, 0, 90_000_001)), 29),
    ("latitude -90,000,001", changed(A, ("points", 0, 0, -90_000_001)), 29),
    ("longitude 180,000,000", changed(A, ("points", 1, 1, 180_000_000)), 0),
    ("longitude 180,000,001", changed(A, ("points", 1, 1, 180_000_001)), 29),
    ("longitude -180,000,001", changed(A, ("points", 1, 1, -180_000_001)), 29),
    ("the largest latitude", changed(A, ("points", 0, 0, 2**31 - 1)), 29),
    ("the smallest latitude", changed(A, ("points", 0, 0, -2**31)), 29),
    ("count of points 3", with_bytes(FORM_A, 66, [3]), 29),
    ("count of points 1", with_bytes(FORM_A, 66, [1]), 29),
    ("count of points 0", with_bytes(FORM_A, 66, [0]), 29),
    ("rows of points 3", with_bytes(FORM_A, 26, [3]), 29),
    ("rows of points 1, of checkpoints 2", changed(A, ("file", 0, 4, 1), ("file", 0, 5, 2)), 29),
    ("rows of points 4,294,967,295", with_bytes(FORM_A, 23, [255] * 4), 29),
    ("rows that sum up by going round", changed(A, ("file", 0, 4, 2**32 - 1), ("file", 0, 5, 4)), 29),
    ("first point 1", with_bytes(FORM_A, 64, [1]), 29),
    ("first lane 1", with_bytes(FORM_A, 54, [1]), 29),
    ("lanes 2", with_bytes(FORM_A, 56, [2]), 29),
    ("lanes 0", with_bytes(FORM_A, 56, [0]), 29),
    ("checkpoint number 0", with_bytes(FORM_A, 93, [0, 0]), 29),
    ("checkpoint number 32,768", with_bytes(FORM_A, 93, [0x80, 0]), 0),
    ("checkpoint number 32,769", with_bytes(FORM_A, 93, [0x80, 1]), 29),
    ("checkpoint number twice", changed(Z, ("checkpoints", 1, 0, 1)), 29),
    ("checkpoint number twice, far apart", changed(Z, ("checkpoints", 3, 0, 1)), 29),
    ("checkpoint's point 0", with_bytes(FORM_A, 98, [0]), 0),
    ("checkpoint's point 2", with_bytes(FORM_A, 98, [2]), 29),
    ("checkpoint's point 4,294,967,295", with_bytes(FORM_A, 95, [255] * 4), 29),
    ("entry 2 of two points", with_bytes(FORM_A, 108, [2]), 29),
    ("entry 1", with_bytes(FORM_A, 108, [1]), 0),
    ("checkpoints of two lanes swapped", swapped(Z, "checkpoints", 1, 2), 29),
    ("checkpoints of one lane swapped", swapped(Z, "checkpoints", 0, 1), 0),
    ("checkpoints of a lane and a spot swapped", swapped(Z, "checkpoints", 2, 3), 29),
    ("stops of two lanes swapped", swapped(Z, "stops", 0, 1), 29),
    ("exits of one lane swapped", swapped(Z, "exits", 0, 1), 0),
    ("exits of a lane and a perimeter swapped", swapped(Z, "exits", 1, 2), 29),
    ("a checkpoint on a perimeter", changed(Z, ("checkpoints", 2, 1, 3)), 29),
    ("a stop on a perimeter", changed(Z, ("stops", 1, 0, 3)), 29),
    ("a stop on a spot", changed(Z, ("stops", 1, 0, 6)), 29),
    ("a stop on no point", changed(Z, ("stops", 1, 0, 8)), 29),
    ("a stop again", more(Z, "stops", 0, 1), 0),
    ("an exit again", more(Z, "exits", 0, 1, 2), 0),
    ("an exit to itself", changed(Z, ("exits", 0, 1, 1)), 0),
    ("an exit to a spot's point", changed(Z, ("exits", 0, 1, 5)), 29),
    ("an exit to a spot's second point", changed(Z, ("exits", 0, 1, 6)), 29),
    ("an exit to no point", changed(Z, ("exits", 0, 1, 8)), 29),
    ("an exit to the last perimeter's point", changed(Z, ("exits", 0, 1, 7)), 0),
    ("an exit from a spot", changed(Z, ("exits", 2, 0, 5)), 29),
    ("an exit from no point", changed(Z, ("exits", 2, 0, 8)), 29),
    ("a perimeter's exit to a perimeter point", changed(Z, ("exits", 2, 1, 3)), 29),
    ("a perimeter's exit to another's point", changed(Z, ("exits", 2, 1, 7)), 29),
    ("a perimeter's exit to another lane", changed(Z, ("exits", 2, 1, 2)), 0),
    ("a spot with no checkpoint", without(Z, "checkpoints", 3), 29),
    ("a spot with two checkpoints", more(Z, "checkpoints", 4, 9, 6), 29),
    ("a spot's checkpoint on its first point", changed(Z, ("checkpoints", 3, 1, 5)), 29),
    ("a spot with one on its first point too", more(Z, "checkpoints", 3, 9, 5), 29),
    ("a lane's checkpoint goes", without(Z, "checkpoints", 0), 0),
    ("spot width 0", changed(Z, ("spots", 0, 1, 0)), 29),
    ("spot width 1", changed(Z, ("spots", 0, 1, 1)), 0),
    ("spot width 32,769", changed(Z, ("spots", 0, 1, 32769)), 29),
    ("spot width missing", changed(Z, ("spots", 0, 1, 65535)), 0),
    ("a spot's first point 4", changed(Z, ("spots", 0, 0, 4)), 29),
    ("first spot 1 in a zone with the first spot", changed(Z, ("zones", 0, 2, 1)), 29),
    ("first spot 1 in a zone without spots", changed(Z, ("zones", 1, 2, 1)), 29),
    ("spots 0 and the spot of the next zone", changed(Z, ("zones", 0, 3, 0), ("zones", 1, 3, 1)), 29),
    ("a zone's first point", changed(Z, ("zones", 1, 0, 6)), 29),
    ("a perimeter without points", changed(Z, ("zones", 1, 1, 0)), 29),
    ("zones 3", changed(Z, ("file", 0, 2, 3)), 29),
    ("a lane of lane 1.1's points less, lane 1.2's more", changed(Z, ("lanes", 0, 1, 1), ("lanes", 1, 1, 2)), 29),
    ("the same with its first point", changed(Z, ("lanes", 0, 1, 1), ("lanes", 1, 1, 2), ("lanes", 1, 0, 1)), 29),
    ("the same and no mark out of order", changed(Z, ("lanes", 0, 1, 1), ("lanes", 1, 1, 2), ("lanes", 1, 0, 1),
                                                   ("checkpoints", 0, 1, 0), ("stops", 0, 0, 0)), 0),
    ("a segment without lanes behind one", small([(0, 1, b""), (1, 0, b"")], [(0, 1, *PLAIN)], [], 1), 29),
    ("the same with a lane", small([(0, 1, b""), (1, 1, b"")], [(0, 1, *PLAIN), (1, 1, *PLAIN)], [], 2), 0),
    ("a lane without points behind one", small([(0, 2, b"")], [(0, 1, *PLAIN), (1, 0, *PLAIN)], [], 1), 29),
    ("a zone without points behind a lane", small([(0, 1, b"")], [(0, 1, *PLAIN)], [(1, 0, 0, 0, b"")], 1), 29),
    ("the same with a point", small([(0, 1, b"")], [(0, 1, *PLAIN)], [(1, 1, 0, 0, b"")], 2), 0),
    ("the same and a point more", small([(0, 1, b"")], [(0, 1, *PLAIN)], [(1, 1, 0, 0, b"")], 3), 29),
    ("a lane that no segment has", small([(0, 1, b"")], [(0, 1, *PLAIN), (1, 1, *PLAIN)], [], 2), 29),
    ("a spot that no zone has", small([(0, 1, b"")], [(0, 1, *PLAIN)], [(1, 1, 0, 0, b"")], 2, [(2, 9)]), 29),
    ("the same and its points", small([(0, 1, b"")], [(0, 1, *PLAIN)], [(1, 1, 0, 0, b"")], 4, [(2, 9)]), 29),
    ("no segment, a lane", small([], [(0, 1, *PLAIN)], [], 1), 29),
    ("segments 0", no_segments(), 29),
    ("rows of segments 0", with_bytes(FORM_A, 10, [0]), 29),
    ("nothing but a file's record", nothing_but_a_file(), 29),
    ("the file's record a byte longer", framed(b"\0\x2b" + FORM_A[7:49] + b"\0" + FORM_A[49:]), 29),
    ("a lane's record a byte longer", framed(FORM_A[5:59] + b"\0\x0b" + FORM_A[61:71] + b"\0" + FORM_A[71:]), 29),
    ("a lane's record a byte shorter", framed(FORM_A[5:59] + b"\0\x09" + FORM_A[61:70] + FORM_A[71:]), 29),
    ("a name that takes in the next field", with_bytes(FORM_A, 40, [8]), 29),
    ("a name that runs past its record", with_bytes(FORM_A, 40, [200]), 29),
    ("a text", text(YARD_A), 27),
    ("16,777,216 bytes", bytes(16_777_216), 1),
    ("16,777,215 bytes", bytes(16_777_215), 27),
]


def largest():
    """More of them, each of up to 16,777,216 bytes: those of 28 and 29 take a minute or two."""
    yield "8,388,605 empty records", framed(bytes(16_777_210)), 29
    yield "one less, and a byte behind them", framed(bytes(16_777_209)), 28
    yield "a network's, 16,777,215 bytes", largest_form(), 0
    yield "the same with a latitude off at its end", largest_form()[:-8] + b"\x7f" + largest_form()[-7:], 29
    yield "a network's, 16,777,216 bytes", largest_form(1), 1
    yield "its text has over 16,777,215 bytes", points_form(17, 30500), 0


def rows_needed(form):
    """How many numbers each table has of a form that is a network's."""
    counts = struct.unpack_from(">8I", form, 7)
    return {t: STRIDE[t] * n for t, n in zip(RNDF_TABLES, counts)}


def many(which, n):
    """A network in which one part comes n times: 32,768 times is the most that may be."""
    segments, lanes, zones, spots, checkpoints, points = [(0, 1, b"")], [(0, 1, *PLAIN)], [], [], [], n + 1
    if which == "waypoints":
        lanes, points = [(0, n, *PLAIN)], n
    elif which == "lanes":
        segments, lanes, points = [(0, n, b"")], [(i, 1, *PLAIN) for i in range(n)], n
    elif which == "segments":
        segments, lanes, points = [(i, 1, b"") for i in range(n)], [(i, 1, *PLAIN) for i in range(n)], n
    elif which == "segments and zones":
        zones, points = [(1 + i, 1, 0, 0, b"") for i in range(n - 1)], n
    elif which == "perimeter points":
        zones = [(1, n, 0, 0, b"")]
    elif which == "spots":
        zones, spots, points = [(1, 1, 0, n, b"")], [(2 + 2 * i, 9) for i in range(n)], 2 + 2 * n
        checkpoints = [(i + 1, 3 + 2 * i) for i in range(n)]
    return assemble(records_of(oracle.Network(b"m", b"", b"", segments, lanes, zones, spots, [(0, 0)] * points, checkpoints, [], [])))


MANY = [(which, n) for which in ("waypoints", "lanes", "segments", "segments and zones", "perimeter points", "spots") for n in (32768, 32769)]


def points_form(lanes, points):
    """The form of a segment of so many lanes of so many points; 518,500 points have a text of over
    16,777,215 bytes, and a form of 5 MB."""
    out = [struct.pack(">HIHH", 8, 0, lanes, 0)]
    out += [struct.pack(">HIHHBB", 10, n * points, points, 65535, 0, 0) for n in range(lanes)]
    out += [struct.pack(">Hii", 8, -45_000_000 - p, -120_000_000 - p) for p in range(lanes * points)]
    file = struct.pack(">8IH", 1, lanes, 0, 0, lanes * points, 0, 0, 0, 1) + b"p" + bytes(2)
    return framed(struct.pack(">H", len(file)) + file + b"".join(out))


def largest_form(more=0):
    """A network's form of 16,777,215 bytes, or some more: 32,768 segments of one lane with 36 points or 35, under
    names of 128 bytes but for those that make it fit."""
    segments, lanes, points = [], [], 0
    names = 32768 * 128
    spare = 16_777_215 + more - 5 - (38 + 1) - 32768 * (10 + 12) - names
    count, less = divmod(spare, 10)
    count, less = count + 1, 10 - less          # one point more, and as many bytes of names less
    for s in range(32768):
        mine = count // 32768 + (s < count % 32768)
        cut = min(less, 100)
        less -= cut
        segments.append(struct.pack(">HIHH", 8 + 128 - cut, s, 1, 128 - cut) + b"n" * (128 - cut))
        lanes.append(struct.pack(">HIHHBB", 10, points, mine, 12, 1, 4))
        points += mine
    file = struct.pack(">8IH", 32768, 32768, 0, 0, points, 0, 0, 0, 1) + b"l" + bytes(2)
    return framed(struct.pack(">H", len(file)) + file + b"".join(segments + lanes)
                  + struct.pack(">Hii", 8, -90_000_000, 180_000_000) * points)


# --------------------------------------------------- forms, good and damaged

NUMBERS = [0, 1, 2, 3, 4, 5, 6, 7, 127, 128, 129, 255, 256, 32767, 32768, 32769, 40000, 65534, 65535, 65536,
           2**31 - 1, 2**31, 2**32 - 2, 2**32 - 1]
NAMES = [b"", b"*", b"\\", b" ", b"\x7f", b"\x80", b"\0", b"\t", b"\n", b"\r", b"a b", b"a/**/", b"a/*", b"a*/", b"!", b"~", b"/",
         b"a\r", b"a\n", b"n" * 127, b"n" * 128, b"n" * 129, b"n" * 130, b"n" * 256, b"n" * 384, b"end_file", b"a\tb"]
DEGREES = [0, 1, -1] + [sign * (edge + more) for edge in (90_000_000, 180_000_000) for sign in (1, -1) for more in (-1, 0, 1)] + [2**31 - 1, -2**31]


def some(rng, records, *tables):
    """A record of one of these tables, of any where none is named; or None."""
    found = [r for r in records if r[0] in tables or not tables]
    return rng.choice(found) if found else None


def points_in(records):
    return sum(r[0] == "points" for r in records)


def d_number(rng, records):
    """Any number of any record: another, or a little more or less."""
    record = some(rng, records, rng.choice(list(FIELDS)))
    if record:
        k = rng.choice([k for k, v in enumerate(record[1]) if not isinstance(v, bytes)])
        record[1][k] = rng.choice([rng.choice(NUMBERS), record[1][k] + rng.choice([-2, -1, 1, 2]), rng.randrange(points_in(records) + 2)])


def d_first(rng, records):
    record = some(rng, records, rng.choice(["segments", "lanes", "zones", "spots"]))
    if record:
        k = 2 if record[0] == "zones" and rng.random() < 0.5 else 0
        record[1][k] += rng.choice([-1, 1, 1, 2, 256, 1 << 24])


def d_first_spot(rng, records):
    """A zone without spots has 0, also where spots stand before it."""
    before = 0
    for table, values in records:
        if table == "zones":
            if values[3] == 0 and before and rng.random() < 0.7:
                values[2] = before
            before += values[3]


def d_count(rng, records):
    """A count of the file's record, of a segment, lane or zone."""
    record = some(rng, records, rng.choice(["file", "segments", "lanes", "zones"]))
    if record:
        k = {"file": rng.randrange(8), "segments": 1, "lanes": 1, "zones": rng.choice([1, 3])}[record[0]]
        record[1][k] = rng.choice([record[1][k] - 1, record[1][k] + 1, record[1][k] + 1, 0, rng.choice(NUMBERS)])


def d_counts_shifted(rng, records):
    """One more here and one less there, so that the sum is as before."""
    j, k = rng.sample(range(8), 2)
    by = rng.choice([1, 1, 1, 2, 1 << 31])
    records[0][1][j] += by
    records[0][1][k] -= by


def d_border_moved(rng, records):
    """A point, lane or spot goes from one part to the next, first rows with it: no fault but for marks."""
    table, k, first = rng.choice([("lanes", 1, 0), ("segments", 1, 0), ("zones", 3, 2)])
    mine = [r for r in records if r[0] == table]
    if len(mine) > 1:
        i = rng.randrange(len(mine) - 1)
        by = rng.choice([1, -1])
        mine[i][1][k] += by
        mine[i + 1][1][k] -= by
        if rng.random() < 0.85:
            mine[i + 1][1][first] += by


def d_name(rng, records):
    record = some(rng, records, rng.choice(["file", "segments", "zones"]))
    if record:
        k = rng.choice([k for k, v in enumerate(record[1]) if isinstance(v, bytes)])
        old = record[1][k]
        at = rng.randrange(len(old) + 1)
        record[1][k] = rng.choice([rng.choice(NAMES), old[:at] + rng.choice(NAMES)[:2] + old[at + 1:], old + b"n" * max(0, rng.choice([128, 129]) - len(old)),
                                   g.some_name(rng)])


def d_width(rng, records):
    record = some(rng, records, rng.choice(["lanes", "spots"]))
    if record:
        record[1][2 if record[0] == "lanes" else 1] = rng.choice([0, 0, 1, 32767, 32768, 32769, 40000, 65534, 65535])


def d_side(rng, records):
    record = some(rng, records, "lanes")
    record[1][rng.choice([3, 4])] = rng.choice([0, 1, 2, 3, 4, 5, 6, 128, 255])


def d_degrees(rng, records):
    record = some(rng, records, "points")
    record[1][rng.randrange(2)] = rng.choice(DEGREES)


def d_checkpoint_number(rng, records):
    record, other = some(rng, records, "checkpoints"), some(rng, records, "checkpoints")
    if record:
        record[1][0] = rng.choice([0, 1, 32767, 32768, 32769, 65535, other[1][0], other[1][0], rng.randint(1, 32768)])


def d_point_of_mark(rng, records):
    """The point of a checkpoint, stop or exit: any, or one behind the last."""
    record = some(rng, records, rng.choice(["checkpoints", "stops", "exits", "exits"]))
    if record:
        k = {"checkpoints": 1, "stops": 0, "exits": rng.randrange(2)}[record[0]]
        points = points_in(records)
        record[1][k] = rng.choice([rng.randrange(points), rng.randrange(points), record[1][k] - 1, record[1][k] + 1, points, points - 1, 2**32 - 1])


def d_exit(rng, records):
    """An exit of a part, or to one, that is drawn by its kind, so that spots and perimeters have their turn."""
    record = some(rng, records, "exits")
    part = some(rng, records, rng.choice(["lanes", "zones", "spots"]))
    if record and part:
        record[1][rng.choice([0, 1, 1])] = part[1][0] + rng.randrange(2 if part[0] == "spots" else max(1, part[1][1] % 100))


def d_mark_more(rng, records):
    """A checkpoint, stop or exit more, counted, at a place where it may belong or not."""
    table = rng.choice(["checkpoints", "stops", "exits"])
    point, entry = rng.randrange(points_in(records)), rng.randrange(points_in(records))
    before = [k for k, r in enumerate(records) if RNDF_TABLES.index(r[0] if r[0] != "file" else "segments") < RNDF_TABLES.index(table)]
    mine = [k for k, r in enumerate(records) if r[0] == table]
    column = 1 if table == "checkpoints" else 0
    fits = [k for k in mine if records[k][1][column] <= point]
    start = max(before) + 1
    at = rng.choice([fits[-1] + 1 if fits else start, rng.randint(start, start + len(mine))])
    records.insert(at, [table, {"checkpoints": [rng.randint(1, 32768), point], "stops": [point], "exits": [point, entry]}[table]])
    records[0][1][COUNT[table]] += 1


def d_spot_checkpoint(rng, records):
    """L8: a spot's checkpoint goes, comes twice, or is on the first waypoint."""
    spot = some(rng, records, "spots")
    if not spot:
        return
    k = next((k for k, r in enumerate(records) if r[0] == "checkpoints" and r[1][1] == spot[1][0] + 1), None)
    if k is None:
        return
    how = rng.randrange(4)
    if how == 0:
        del records[k]
        records[0][1][COUNT["checkpoints"]] -= 1
    elif how == 1:
        records[k][1][1] -= 1
    else:
        records.insert(rng.choice([k, k + 1]), ["checkpoints", [rng.randint(1, 32768), spot[1][0] + how - 2]])
        records[0][1][COUNT["checkpoints"]] += 1


def d_rows_swapped(rng, records):
    """Two rows of a table, mostly neighbours, and mostly of one with order of its own."""
    table = rng.choice(["checkpoints", "checkpoints", "stops", "exits", "exits"] + RNDF_TABLES)
    mine = [k for k, r in enumerate(records) if r[0] == table]
    if len(mine) > 1:
        i = rng.randrange(len(mine) - 1)
        j = i + 1 if rng.random() < 0.7 else rng.randrange(len(mine))
        records[mine[i]], records[mine[j]] = records[mine[j]], records[mine[i]]


def d_column_swapped(rng, records):
    table = rng.choice(RNDF_TABLES)
    a, b = some(rng, records, table), some(rng, records, table)
    if a:
        k = rng.randrange(len(a[1]))
        a[1][k], b[1][k] = b[1][k], a[1][k]


def d_row_dropped(rng, records):
    record = some(rng, records, rng.choice(RNDF_TABLES))
    if record:
        records.remove(record)
        if rng.random() < 0.7:
            records[0][1][COUNT[record[0]]] -= 1


def d_row_doubled(rng, records):
    record = some(rng, records, rng.choice(RNDF_TABLES))
    if record:
        records.insert(records.index(record), [record[0], list(record[1])])
        if rng.random() < 0.7:
            records[0][1][COUNT[record[0]]] += 1


def d_record_moved(rng, records):
    record = records.pop(rng.randrange(len(records)))
    records.insert(rng.randrange(len(records) + 1), record)


def d_record_behind(rng, records):
    """A whole record behind the last, that nothing counts: one of the form's, an empty one, one of any bytes."""
    records.append(rng.choice([some(rng, records), ["raw", [b""]], ["raw", [bytes(rng.randrange(256) for _ in range(rng.randint(1, 12)))]]]))


def d_records_cut(rng, records):
    del records[rng.randrange(len(records)):]


def d_record_length(rng, records):
    """A record with a byte more or less than its fields, and its length says so."""
    k = rng.randrange(len(records))
    whole = encoded(records)[k][2:]
    at = rng.randrange(len(whole) + 1)
    records[k] = ["raw", [rng.choice([whole[:-1], whole + b"\0", whole[:at] + whole[at + 1:], whole[:at] + b"\0" + whole[at:], whole + whole, b""])]]


def d_date(rng, records):
    """L12: the file's record with a third name, as version 1 had it, missing or not."""
    date = rng.choice([b"", b"", b"d", g.some_name(rng)])
    records[0] = ["raw", [encoded(records)[0][2:] + struct.pack(">H", len(date)) + date]]


def d_no_segment(rng, records):
    """Segments, their lanes and all marks go; zones without spots stay, with first rows to match."""
    gone = {"segments", "lanes", "spots", "checkpoints", "stops", "exits"}
    zones = [r for r in records if r[0] == "zones"]
    points = [r for r in records if r[0] == "points"]
    records[1:] = [r for r in records[1:] if r[0] not in gone and r[0] != "points"]
    need = 0
    for zone in zones:
        zone[1][0], zone[1][2], zone[1][3] = need, 0, 0
        need += zone[1][1]
    records += points[:need]
    records[0][1][:8] = [sum(r[0] == t for r in records) for t in RNDF_TABLES]


ROWS = [(d_number, 14), (d_first, 6), (d_first_spot, 5), (d_count, 8), (d_counts_shifted, 4), (d_border_moved, 8), (d_name, 14), (d_width, 9), (d_side, 7),
        (d_degrees, 12), (d_checkpoint_number, 9), (d_point_of_mark, 12), (d_exit, 10), (d_mark_more, 14), (d_spot_checkpoint, 12), (d_rows_swapped, 12),
        (d_column_swapped, 6), (d_row_dropped, 5), (d_row_doubled, 5), (d_record_moved, 3), (d_record_behind, 5), (d_records_cut, 3),
        (d_record_length, 6), (d_no_segment, 2), (d_date, 4)]


def places_of_lengths(data):
    """Where each record begins, as far as they can be followed."""
    places, at = [], 5
    while at + 2 <= len(data):
        places.append(at)
        at += 2 + int.from_bytes(data[at:at + 2], "big")
    return places


def b_bytes(rng, data):
    """One to four bytes become others."""
    data = bytearray(data)
    for _ in range(rng.randint(1, 4) if data else 0):
        at = rng.randrange(len(data))
        data[at] = rng.choice([rng.randrange(256), data[at] ^ 1 << rng.randrange(8), data[at] + 1 & 255, data[at] - 1 & 255])
    return bytes(data)


def b_one_byte(rng, data):
    """One byte behind the frame."""
    if len(data) < 6:
        return data
    at = rng.randrange(5, len(data))
    return data[:at] + bytes([rng.randrange(256)]) + data[at + 1:]


def b_length(rng, data):
    """A record's length, often the last one's."""
    places = places_of_lengths(data)
    if not places:
        return data
    at = rng.choice([rng.choice(places), places[-1]])
    old = int.from_bytes(data[at:at + 2], "big")
    new = rng.choice([old - 1, old + 1, old + 2, old - 2, 0, 65535, old + 10, old << 8])
    return data[:at] + struct.pack(">H", new & 0xFFFF) + data[at + 2:]


def b_first_length(rng, data):
    new = rng.choice([len(data) - 4, len(data) - 6, len(data), 0, 2**32 - 1, len(data) - 5 + 2**24, len(data) - 5 << 8, rng.randrange(2**32)])
    return data[:1] + struct.pack(">I", new & 0xFFFFFFFF) + data[5:]


def b_version(rng, data):
    return bytes([rng.choice([0, 1, 1, 3, 0x32, 0x82, 255])]) + data[1:]


def b_cut(rng, data):
    return data[:rng.choice([rng.randrange(len(data) + 1), rng.randrange(min(8, len(data) + 1)), max(0, len(data) - rng.randint(1, 12))])]


def b_cut_to_match(rng, data):
    places = places_of_lengths(data) or [5]
    return framed(data[5:rng.choice([rng.randrange(len(data) + 1), rng.choice(places), rng.choice(places) + 1, len(data) - 1])])


def b_behind(rng, data):
    return data + bytes(rng.choice([0, 1, rng.randrange(256)]) for _ in range(rng.choice([1, 1, 2, 3, 10])))


def b_behind_to_match(rng, data):
    return framed(data[5:] + rng.choice([b"\0", b"\0\0", b"\0\1", b"\0\1\0", b"\1", bytes(rng.randrange(256) for _ in range(rng.randint(1, 12)))]))


def b_byte_more_or_less(rng, data):
    """Everything behind it moves; the first length matches."""
    at = rng.randrange(5, len(data) + 1) if len(data) > 5 else 0
    return framed(rng.choice([data[5:at] + data[at + 1:], data[5:at] + bytes([rng.choice([0, 1, rng.randrange(256)])]) + data[at:]]))


def b_any(rng, data):
    """Bytes that were never a form's."""
    rest = bytes(rng.choice([0, 0, 0, 1, 2, rng.randrange(256)]) for _ in range(rng.randrange(60)))
    return rng.choice([rest, b"\x02" + rest, framed(rest), framed(struct.pack(">H", len(rest)) + rest), b""])


BYTES = [(b_bytes, 30), (b_one_byte, 30), (b_length, 8), (b_first_length, 4), (b_version, 5), (b_cut, 7), (b_cut_to_match, 6), (b_behind, 3), (b_behind_to_match, 5),
         (b_byte_more_or_less, 6), (b_any, 3)]
KINDS = ROWS + BYTES
OF_ROWS = {kind for kind, _ in ROWS}


def random_form(rng, network=None, times=None):
    """(bytes, numbers lent, kinds of damage) of a form damaged in so many ways: where not
    said mostly one, often none, two or three.  Every table has room for the rows that
    stand there; one in twelve has a table a row or a number short, one in twenty-five no
    tables at all."""
    network = network or g.make(rng, rng.choice([1, 2, 4, 4, 9])).network
    records = records_of(network)
    times = rng.choices([0, 1, 2, 3], [14, 62, 17, 7])[0] if times is None else times
    drawn = rng.choices([k for k, _ in KINDS], [w for _, w in KINDS], k=times)
    for kind in drawn:
        tables = [r[0] for r in records]
        # a second damage finds what it takes for granted, or is left out
        if kind in OF_ROWS and tables[:1] == ["file"] and "points" in tables and "lanes" in tables and "raw" not in tables:
            kind(rng, records)
    rows = {t: sum(r[0] == t for r in records) for t in RNDF_TABLES}
    data = assemble(records)
    for kind in drawn:
        if kind not in OF_ROWS:
            data = kind(rng, data)
    room = {t: STRIDE[t] * rows[t] + rng.choice([0, 0, 0, 1, STRIDE[t], 9]) for t in RNDF_TABLES}
    how = rng.random()
    if how < 0.08:
        short = rng.choice([t for t in RNDF_TABLES if rows[t]] or ["points"])
        room[short] = max(0, STRIDE[short] * rows[short] - rng.choice([1, 1, STRIDE[short]]))
    elif how < 0.12:
        room = dict.fromkeys(RNDF_TABLES, 0)
    return data, room, [kind.__name__.partition("_")[2] for kind in drawn]


# ------------------------------------------- every prefix, every byte's change

ONE_BYTE_FORMS = sum(len(form) + 1 + 255 * len(form) for form in (FORM_A, FORM_Z))


def one_byte_form(k):
    """The k-th of ONE_BYTE_FORMS as (form, what was done, bytes): of yard A's form and then of
    yard Z's every prefix, the form itself last, and every change of one byte."""
    form = FORM_A
    if k > len(form) + 255 * len(form):
        form, k = FORM_Z, k - (len(form) + 1 + 255 * len(form))
    if k <= len(form):
        return form, "prefix", form[:k]
    at, byte = divmod(k - len(form) - 1, 255)
    return form, "one byte", with_bytes(form, at, [byte + (byte >= form[at])])


# Small mistakes in the oracle's packing and unpacking, each of which the damage run's forms notice (tests/damage/compare.py --mutants).
MUTANTS = [
    ("PACKED_VERSION = 2\n", "PACKED_VERSION = 1\n"),
    ("data[0] != PACKED_VERSION:", "data[0] not in (1, PACKED_VERSION):"),
    ("data[0] != PACKED_VERSION:", "data[0] < PACKED_VERSION:"),
    ('"lanes": (4, 2, 2, 1, 1),\n    "zones"', '"lanes": (4, 2, 2, 1, 2),\n    "zones"'),
    ('len(value).to_bytes(2, "big") + value', 'len(value).to_bytes(2, "little") + value'),
    ('out.append(value.to_bytes(size, "big", signed=value < 0))', 'out.append(abs(value).to_bytes(size, "big"))'),
    ('[network.name, network.version]\n    records', '[network.name, network.date]\n    records'),
    ('[network.name, network.version]\n    records', '[network.version, network.name]\n    records'),
    ('len(rest).to_bytes(4, "big") + rest', '(len(rest) + 5).to_bytes(4, "big") + rest'),
    ("        if len(data) > LARGEST_TEXT:\n            raise Refused(1, 0, 1)\n        # \"27", "        # \"27"),
    ("if len(data) == 0 or data[0] != PACKED_VERSION:", "if len(data) > 0 and data[0] != PACKED_VERSION:"),
    ("if len(data) == 0 or data[0] != PACKED_VERSION:", "if len(data) == 0:"),
    ("raise Refused(0, 0, 27)", "raise Refused(1, 0, 27)"),
    ('!= len(data) - 5:', '> len(data) - 5:'),
    ('!= len(data) - 5:', '< len(data) - 5:'),
    ("        if begin > len(data) or at > len(data):\n", "        if at > len(data) + 1:\n"),
    ("        if begin > len(data) or at > len(data):\n            raise Refused(0, 0, 28)\n        records.append((begin, at))\n", "        if at <= len(data):\n            records.append((begin, at))\n"),
    ("names += [at, length] if length else MISSING_NAME", "names += [at, length]"),
    ("names += [at, length] if length else MISSING_NAME", "names += [at - 2, length] if length else MISSING_NAME"),
    ("n - (1 << 32) if n >= 1 << 31 else n", "n"),
    ("if again is None or pack(again) != data:", "if again is None:"),
    ("if rows_in(room[table], table) < len(getattr(network, table)):", "if False:"),
    ("if rows_in(room[table], table) < len(getattr(network, table)):", "if rows_in(room[table], table) < len(getattr(network, table)) - 1:"),
    ("row[:-1] + name for row, name in zip(rows[table], names[table])", "row[:-1] + (0, 0) for row in rows[table]"),
    ("        reply.file = names[\"file\"] + MISSING_NAME\n", "        reply.file = names[\"file\"][:2] + (0,) * 4\n"),
    ("        reply.file = names[\"file\"] + MISSING_NAME\n", "        reply.file = names[\"file\"] * 2\n"),
    ("pack(network_of(reply, text)), 1,", "pack(network_of(reply, text)), 0,"),
]

# Small mistakes in the rules above: each lets something through that is no network's, or refuses one that is. The forms notice each.
RULES_LOST = [
    "    yield good_name(name)\n", "    yield version == b\"\" or good_name(version)\n", "    yield len(segments) > 0\n",
    "        yield first == next_lane\n", "        yield first == len(kind)\n", "        yield label == b\"\" or good_name(label)\n", "        yield 1 <= count <= 32768\n", "    yield next_lane == len(lanes)\n",
    "        yield width <= 32768 or width == 65535\n", "        yield left <= 4\n", "        yield right <= 4\n",
    "        yield first_spot == (next_spot if number > 0 else 0)\n", "            yield spots[row][0] == len(kind)\n",
    "            yield 1 <= spots[row][1] <= 32768 or spots[row][1] == 65535\n", "    yield next_spot == len(spots)\n", "    yield len(kind) == len(points)\n",
    "        yield -90_000_000 <= latitude <= 90_000_000\n", "        yield -180_000_000 <= longitude <= 180_000_000\n", "            yield part[a] <= part[b]\n",
    "        yield 1 <= number <= 32768\n", "        yield kind[point] in (LANE, SPOT_2)\n", "    yield len({number for number, _ in checkpoints}) == len(checkpoints)\n",
    "    yield in_spots == [point for point, what in enumerate(kind) if what == SPOT_2]\n", "        yield kind[point] == LANE\n", "        yield kind[point] in (LANE, PERIMETER)\n",
    "        yield kind[entry] == LANE or kind[entry] == PERIMETER and kind[point] == LANE\n",
]
