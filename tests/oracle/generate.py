"""Random pairs, well-formed and damaged, with the oracle's answers.

    python3 generate.py --count 20000 --seed 1 [--directory D]

writes random.bin and random.txt (the formats of casefile.py) into the
directory, and prints how often each refusal number came.  Same seed and count,
same bytes.
"""

import argparse
import os
import random
import re
import sys

import oracle
from casefile import OLDER, TABLE_BOUND, TEXT_BOUND, Writer, full_room

WORDS = [b"double_yellow", b"solid_yellow", b"solid_white", b"broken_white"]
NAME_BYTES = bytes(b for b in range(33, 127) if b not in (0x2A, 0x5C))


# --------------------------------------------------- well-formed networks

def random_name(rng, largest=128):
    size = rng.choice([1, 2, 3, 5, 8, 13, 20, rng.randint(1, largest), largest])
    while True:
        name = bytes(rng.choice(NAME_BYTES) for _ in range(size))
        if b"/*" not in name:
            return name


def plain_name(rng):
    return b"".join(rng.choice([b"a", b"b", b"_", b"1", b"x/", b"-."])
                    for _ in range(rng.randint(1, 6)))


def some_name(rng):
    return random_name(rng) if rng.random() < 0.15 else plain_name(rng)


def random_degrees(rng, most):
    """A coordinate as (spelling, value)."""
    edge = rng.random()
    if edge < 0.15:
        value = rng.choice([0, 1, -1, most, -most, most - 1, 1 - most, -500_000,
                            500_000, 999_999, -999_999, 1_000_000, -1_000_000])
    else:
        value = rng.randint(-most, most)
        if rng.random() < 0.3:
            value //= rng.choice([10, 100, 1000, 100_000])
    size = abs(value)
    minus = value < 0 or (value == 0 and rng.random() < 0.4)
    spelling = "%s%d.%06d" % ("-" if minus else "", size // 1_000_000,
                              size % 1_000_000)
    return spelling.encode(), value


class Made:
    """A random pair: lines of fields, and the network and mission they mean."""


def make(rng, largest=4):
    made = Made()
    segments = [[rng.randint(1, largest) for _ in range(rng.choice([1, 1, 1, 2, 3]))]
                for _ in range(rng.choice([1, 1, 2, 3]))]
    zones = [(rng.randint(1, largest), rng.choice([0, 1, 1, 2]))
             for _ in range(rng.choice([0, 1, 1, 2]))]
    m, n = len(segments), len(zones)

    # where each entry's point stands
    row = {}
    points = 0
    targets = []
    lane_targets = []
    for s, lanes in enumerate(segments, 1):
        for l, count in enumerate(lanes, 1):
            for p in range(1, count + 1):
                row[s, l, p] = points
                targets.append((s, l, p))
                lane_targets.append((s, l, p))
                points += 1
    for z, (count, spots) in enumerate(zones, m + 1):
        for p in range(1, count + 1):
            row[z, 0, p] = points
            targets.append((z, 0, p))
            points += 1
        for s in range(1, spots + 1):
            row[z, s, 1], row[z, s, 2] = points, points + 1
            points += 2

    def dotted(parts):
        return ".".join(map(str, parts)).encode()

    def num(value):
        return str(value).encode()

    name = some_name(rng)
    version = some_name(rng) if rng.random() < 0.4 else b""
    date = some_name(rng) if rng.random() < 0.4 else b""
    numbers = set()

    def fresh():
        while True:
            number = rng.choice([rng.randint(1, 30), rng.randint(1, 32768), 32768, 1])
            if number not in numbers:
                numbers.add(number)
                return number

    lines = [[b"RNDF_name", name], [b"num_segments", num(m)], [b"num_zones", num(n)]]
    header = []
    if version:
        header.append([b"format_version", version])
    if date:
        header.append([b"creation_date", date])
    rng.shuffle(header)
    lines += header
    t_segments, t_lanes, t_zones, t_spots = [], [], [], []
    t_points, t_checkpoints, t_stops, t_exits = [], [], [], []

    def emit_points(prefix, count):
        for p in range(1, count + 1):
            lat, lat_value = random_degrees(rng, 90_000_000)
            lon, lon_value = random_degrees(rng, 180_000_000)
            lines.append([dotted(prefix + (p,)), lat, lon])
            t_points.append((lat_value, lon_value))

    for s, lanes in enumerate(segments, 1):
        lines += [[b"segment", num(s)], [b"num_lanes", num(len(lanes))]]
        label = b""
        if rng.random() < 0.3:
            label = some_name(rng)
            lines.append([b"segment_name", label])
        t_segments.append((len(t_lanes), len(lanes), label))
        for l, count in enumerate(lanes, 1):
            lines += [[b"lane", dotted((s, l))], [b"num_waypoints", num(count)]]
            first = len(t_points)
            width, left, right = oracle.MISSING_WIDTH, 0, 0
            options = []
            if rng.random() < 0.4:
                width = rng.choice([0, 1, 12, 32768, rng.randint(0, 32768)])
                options.append([b"lane_width", num(width)])
            if rng.random() < 0.4:
                left = rng.randint(1, 4)
                options.append([b"left_boundary", WORDS[left - 1]])
            if rng.random() < 0.4:
                right = rng.randint(1, 4)
                options.append([b"right_boundary", WORDS[right - 1]])
            own = lambda: (s, l, rng.randint(1, count))
            for _ in range(rng.choice([0, 0, 1, 1, 2])):
                options.append([b"checkpoint", dotted(own()), num(fresh())])
            for _ in range(rng.choice([0, 0, 0, 1, 2])):
                options.append([b"stop", dotted(own())])
            for _ in range(rng.choice([0, 0, 1, 1, 2, 3])):
                options.append([b"exit", dotted(own()), dotted(rng.choice(targets))])
            repeats = [o for o in options if o[0] in (b"stop", b"exit")]
            if repeats and rng.random() < 0.2:
                options.append(list(rng.choice(repeats)))
            rng.shuffle(options)
            for option in options:
                lines.append(option)
                parts = [tuple(map(int, f.split(b"."))) for f in option[1:]
                         if option[0] in (b"checkpoint", b"stop", b"exit")]
                if option[0] == b"checkpoint":
                    t_checkpoints.append((parts[1][0], row[parts[0]]))
                elif option[0] == b"stop":
                    t_stops.append((row[parts[0]],))
                elif option[0] == b"exit":
                    t_exits.append((row[parts[0]], row[parts[1]]))
            t_lanes.append((first, count, width, left, right))
            emit_points((s, l), count)
            lines.append([b"end_lane"])
        lines.append([b"end_segment"])
    for z, (count, spots) in enumerate(zones, m + 1):
        lines += [[b"zone", num(z)], [b"num_spots", num(spots)]]
        label = b""
        if rng.random() < 0.4:
            label = some_name(rng)
            lines.append([b"zone_name", label])
        lines += [[b"perimeter", dotted((z, 0))],
                  [b"num_perimeterpoints", num(count)]]
        t_zones.append((len(t_points), count, len(t_spots) if spots else 0,
                        spots, label))
        for _ in range(rng.choice([0, 1, 1, 2])):
            point, entry = (z, 0, rng.randint(1, count)), rng.choice(lane_targets)
            lines.append([b"exit", dotted(point), dotted(entry)])
            t_exits.append((row[point], row[entry]))
        emit_points((z, 0), count)
        lines.append([b"end_perimeter"])
        for s in range(1, spots + 1):
            lines.append([b"spot", dotted((z, s))])
            width = oracle.MISSING_WIDTH
            options = []
            if rng.random() < 0.5:
                width = rng.choice([1, 9, 32768, rng.randint(1, 32768)])
                options.append([b"spot_width", num(width)])
            # L8: the second waypoint is a checkpoint
            point, number = (z, s, 2), fresh()
            options.append([b"checkpoint", dotted(point), num(number)])
            t_checkpoints.append((number, row[point]))
            rng.shuffle(options)
            lines += options
            t_spots.append((len(t_points), width))
            emit_points((z, s), 2)
            lines.append([b"end_spot"])
        lines.append([b"end_zone"])
    lines.append([b"end_file"])

    if not t_checkpoints:
        # a mission needs a goal, so a checkpoint
        at = next(i for i, f in enumerate(lines) if f[0] == b"num_waypoints") + 1
        number = fresh()
        lines.insert(at, [b"checkpoint", b"1.1.1", num(number)])
        t_checkpoints.append((number, 0))
    made.rndf_lines = lines
    made.network = oracle.Network(name, version, date, t_segments, t_lanes,
                                  t_zones, t_spots, t_points, t_checkpoints,
                                  t_stops, t_exits)

    mission_name = some_name(rng)
    version = some_name(rng) if rng.random() < 0.4 else b""
    date = some_name(rng) if rng.random() < 0.4 else b""
    header = []
    if version:
        header.append([b"format_version", version])
    if date:
        header.append([b"creation_date", date])
    rng.shuffle(header)
    known = [number for number, _ in t_checkpoints]
    goals = [(rng.choice(known),) for _ in range(rng.randint(1, 5))]
    limits = []
    for identifier in rng.sample(range(1, m + n + 1), m + n):
        low, high = sorted([rng.choice([0, 5, 32768, rng.randint(0, 80)]),
                            rng.choice([0, 5, 32768, rng.randint(0, 80)])])
        if rng.random() < 0.3:
            low, high = rng.choice([high, high, low]), 0    # L1: no ceiling
        limits.append((identifier, low, high))
    made.mdf_lines = ([[b"MDF_name", mission_name], [b"RNDF", name]] + header
                      + [[b"checkpoints"], [b"num_checkpoints", num(len(goals))]]
                      + [[num(g)] for g, in goals]
                      + [[b"end_checkpoints"], [b"speed_limits"],
                         [b"num_speed_limits", num(len(limits))]]
                      + [[num(v) for v in row] for row in limits]
                      + [[b"end_speed_limits"], [b"end_file"]])
    made.mission = oracle.Mission(mission_name, name, version, date, goals, limits)
    return made


# ------------------------------------------------------------- rendering

COMMENT_BYTES = bytes([9] + list(range(32, 127)))


def comment(rng):
    while True:
        body = rng.choice([b"", b" ", b" note ", b"*", b"/", b" a * b \\ c ",
                           b"/*", bytes(rng.choice(COMMENT_BYTES)
                                        for _ in range(rng.randint(0, 12)))])
        # the first */ behind the opening must be the closing one
        if (b"/*" + body + b"*/").find(b"*/", 2) == 2 + len(body):
            return b"/*" + body + b"*/"


def run_of(rng, most=3):
    """L3: a run of tabs and spaces."""
    return bytes(rng.choice(b"\t ") for _ in range(rng.randint(1, most)))


def render(rng, lines, rough):
    """The text; rough from 0 (house spacing) to 1 (blanks, comments, CRs)."""
    crlf = rng.random() < rough * 0.5
    # L3: "an editor that turns tabs into spaces"
    usual = rng.choice([b"\t", b"\t", b" ", b" " * 4]) if rough else b"\t"
    out = []
    for fields in lines:
        while rng.random() < rough * 0.15:
            out.append(rng.choice([b"", b"\t", b" ", run_of(rng), comment(rng), b"\r",
                                   run_of(rng) + comment(rng) + run_of(rng)]) + b"\n")
        between = usual
        line = fields[0]
        for field in fields[1:]:
            if rng.random() < rough * 0.15:
                between = run_of(rng)
            line += between + field
        if rng.random() < rough * 0.12:
            line = run_of(rng) + line
        if rng.random() < rough * 0.12:
            line += run_of(rng)
        if rng.random() < rough * 0.12:
            line += rng.choice([b"", run_of(rng)]) + comment(rng) + rng.choice([b"", run_of(rng)])
        if crlf or rng.random() < rough * 0.05:
            line += b"\r"
        out.append(line + b"\n")
    while rng.random() < rough * 0.3:
        out.append(rng.choice([b"\n", run_of(rng) + b"\n", b"\r\n", b" /* end */ \n"]))
    whole = b"".join(out)
    if rng.random() < rough * 0.3:
        whole = whole[:-1]
    return whole


# --------------------------------------------------------------- damage

EDGES = [b"0", b"1", b"2", b"3", b"32767", b"32768", b"32769", b"65535",
         b"65536", b"65537", b"99999", b"100000", b"00", b"01", b"-1", b"+1",
         b"x", b"1.", b"4294967297", b"000001"]
COORDINATES = [b"0.000000", b"-0.000000", b"-0.500000", b"90.000000",
               b"90.000001", b"-90.000000", b"-90.000001", b"180.000000",
               b"180.000001", b"-180.000000", b"-180.000001", b"999.999999",
               b"1000.000000", b"00.000000", b"045.000000", b"45.00000",
               b"45.0000000", b"45", b".500000", b"-.500000", b"+1.000000",
               b"--1.000000", b"-"]
OTHER_RNDF = [b"MDF_name", b"RNDF", b"checkpoints", b"num_checkpoints",
              b"end_checkpoints", b"speed_limits", b"num_speed_limits",
              b"end_speed_limits"]
OTHER_MDF = [b"RNDF_name", b"num_segments", b"segment", b"lane", b"checkpoint",
             b"stop", b"exit", b"end_lane", b"zone", b"perimeter", b"spot"]
OPTIONS = [b"format_version", b"creation_date", b"segment_name", b"zone_name",
           b"lane_width", b"left_boundary", b"right_boundary", b"spot_width",
           b"checkpoint", b"stop", b"exit"]
SINGLE = OPTIONS[:8]
DOTTED = re.compile(rb"[0-9]+(\.[0-9]+)+")


def pick(rng, lines, wanted):
    found = [i for i, f in enumerate(lines) if wanted(f)]
    return rng.choice(found) if found else None


def is_digit_line(fields):
    return fields[0][:1].isdigit()


def d_field_edge(rng, lines, file):
    i = pick(rng, lines, lambda f: len(f) > 1 or is_digit_line(f))
    if i is None:
        return
    k = rng.randrange(0 if is_digit_line(lines[i]) else 1, len(lines[i]))
    old = lines[i][k]
    if re.fullmatch(rb"-?[0-9]+\.[0-9]{6}", old):
        new = rng.choice(COORDINATES)
    elif DOTTED.fullmatch(old):
        parts = old.split(b".")
        how = rng.random()
        if how < 0.7:
            parts[rng.randrange(len(parts))] = rng.choice(EDGES)
        elif how < 0.85:
            parts.pop()
        else:
            parts.append(b"1")
        new = b".".join(parts)
    elif old.isdigit():
        new = rng.choice(EDGES)
    else:
        new = rng.choice([b"x", old + b"x", old[:-1] or b"y", b"n" * 128,
                          b"n" * 129, b"solid_white", b"1"])
    lines[i][k] = new


def d_field_near(rng, lines, file):
    """One number somewhere changed by one."""
    i = pick(rng, lines, lambda f: any(x.isdigit() or DOTTED.fullmatch(x)
                                       for x in f))
    if i is None:
        return
    ks = [k for k, x in enumerate(lines[i]) if x.isdigit() or DOTTED.fullmatch(x)]
    k = rng.choice(ks)
    parts = lines[i][k].split(b".")
    j = rng.randrange(len(parts))
    parts[j] = str(max(0, int(parts[j]) + rng.choice([-1, 1, 1, 2]))).encode()
    lines[i][k] = b".".join(parts)


def d_field_count(rng, lines, file):
    i = rng.randrange(len(lines))
    if rng.random() < 0.5 and len(lines[i]) > 1:
        lines[i].pop()
    else:
        lines[i].append(rng.choice([b"1", b"x", lines[i][-1]]))


def d_field_swap(rng, lines, file):
    i = pick(rng, lines, lambda f: len(f) > 2)
    if i is not None:
        a, b = rng.sample(range(len(lines[i])), 2)
        lines[i][a], lines[i][b] = lines[i][b], lines[i][a]


def d_count(rng, lines, file):
    i = pick(rng, lines, lambda f: f[0].startswith(b"num_") and len(f) > 1)
    if i is None or not lines[i][1].isdigit():
        return
    lines[i][1] = rng.choice([str(max(0, int(lines[i][1]) + d)).encode()
                              for d in (-1, 1)] + [b"0", b"32768", b"32769"])


def d_delete(rng, lines, file):
    if len(lines) > 1:
        del lines[rng.randrange(len(lines))]


def d_double(rng, lines, file):
    i = rng.randrange(len(lines))
    lines.insert(i, list(lines[i]))


def d_swap(rng, lines, file):
    if len(lines) > 1:
        i = rng.randrange(len(lines) - 1)
        lines[i], lines[i + 1] = lines[i + 1], lines[i]


def d_move(rng, lines, file):
    line = lines.pop(rng.randrange(len(lines)))
    lines.insert(rng.randrange(len(lines) + 1), line)


def d_copy(rng, lines, file):
    """A copy of one line somewhere else."""
    lines.insert(rng.randrange(len(lines) + 1), list(rng.choice(lines)))


def d_cut(rng, lines, file):
    del lines[rng.randrange(len(lines)):]
    if not lines:
        lines.append([b"/**/"])


def d_other_keyword(rng, lines, file):
    word = rng.choice(OTHER_RNDF if file == 1 else OTHER_MDF)
    if rng.random() < 0.5:
        lines[rng.randrange(len(lines))][0] = word
    else:
        lines.insert(rng.randrange(len(lines) + 1), [word, b"1"])


def d_digit_line(rng, lines, file):
    new = rng.choice([[b"1"], [b"7", b"7"], [b"1", b"0", b"15"],
                      [b"1.1.1", b"1.000000", b"1.000000"], [b"0"], [b"7x"]])
    lines.insert(rng.randrange(len(lines) + 1), new)


def d_keyword(rng, lines, file):
    i = rng.randrange(len(lines))
    old = lines[i][0]
    lines[i][0] = rng.choice([old.upper(), old + b"x", old[1:] or b"q", old[:-1] or b"q",
                              b"x" + old, b"end_file", b"Segment"])


def d_option_again(rng, lines, file):
    i = pick(rng, lines, lambda f: f[0] in SINGLE)
    if i is None:
        i = pick(rng, lines, lambda f: f[0] in (b"num_zones", b"RNDF"))
        if i is None:
            return
        lines.insert(i + 1, [b"format_version", b"v"])
        i += 1
    again = list(lines[i])
    if rng.random() < 0.3:
        again = again + [b"x"] if rng.random() < 0.5 else again[:1]
    at = i + 1
    while rng.random() < 0.5 and at < len(lines) and lines[at][0] in OPTIONS:
        at += 1
    lines.insert(at, again)


def d_spot_checkpoint_again(rng, lines, file):
    i = pick(rng, lines, lambda f: f[0] == b"spot" and len(f) == 2)
    if i is not None:
        at = rng.choice([i + 1, i + 2])
        lines.insert(at, [b"checkpoint", lines[i][1] + rng.choice([b".1", b".2"]), b"31001"])


def d_spot(rng, lines, file):
    """L8: a spot without its checkpoint, or with one on waypoint 1; now and then
    with another fault on its first waypoint's line."""
    i = pick(rng, lines, lambda f: f[0] == b"spot" and len(f) == 2)
    if i is None:
        return
    end = next((j for j in range(i, len(lines)) if lines[j][0] == b"end_spot"), len(lines))
    own = [j for j in range(i, end) if lines[j][0] == b"checkpoint" and len(lines[j]) == 3]
    if own and rng.random() < 0.35:
        lines[own[0]][1] = lines[i][1] + b".1"
        return
    for j in reversed(own):
        del lines[j]
    if rng.random() < 0.3:
        lines.insert(i + 1, [b"spot_width", rng.choice([b"9", b"9", b"0"])])
    first = next((j for j in range(i, len(lines)) if is_digit_line(lines[j])), None)
    if first is not None and rng.random() < 0.3:
        lines[first][rng.randrange(len(lines[first]))] = rng.choice([b"x", b"91.000000", b"2.1.2", b"200.000000"])


def d_entry(rng, lines, file):
    i = pick(rng, lines, lambda f: f[0] == b"exit" and len(f) == 3)
    if i is None:
        i = pick(rng, lines, lambda f: f[0] == b"lane" and len(f) == 2)
        if i is None or i + 2 > len(lines):
            return
        lines.insert(i + 2, [b"exit", lines[i][1] + b".1", b"1.1.1"])
        i += 2
    how = rng.random()
    if how < 0.7:
        lines[i][2] = ("%d.%d.%d" % (rng.choice([1, 1, 2, 3, 4]),
                                     rng.choice([0, 1, 1, 2, 3]),
                                     rng.choice([1, 2, 3, 4, 5, 32768]))).encode()
    elif how < 0.85:
        lines[i][2] = rng.choice([b"32768.1.1", b"1.32768.1", b"1.1.32768",
                                  b"1.0.1", b"2.0.1", b"3.1.1"])
    else:
        lines[i][1] = ("%d.%d.%d" % (rng.choice([1, 2, 3]), rng.choice([0, 1, 2]),
                                     rng.choice([1, 2, 3]))).encode()


def d_same_checkpoint(rng, lines, file):
    i = pick(rng, lines, lambda f: f[0] == b"checkpoint" and len(f) == 3)
    if i is None:
        return
    j = pick(rng, lines, lambda f: f[0] == b"checkpoint" and len(f) == 3
             and f is not lines[i])
    if j is not None and rng.random() < 0.6:
        lines[j][2] = lines[i][2]
    else:
        lines.insert(i + 1, list(lines[i]))


def d_rndf_name(rng, lines, file):
    i = pick(rng, lines, lambda f: f[0] == b"RNDF" and len(f) == 2)
    if i is not None:
        old = lines[i][1]
        lines[i][1] = rng.choice([old[:-1] or b"q", old + b"x", b"x" + old[1:],
                                  old[:-1] + bytes([old[-1] ^ 1]), b"other"])
        if b"*" in lines[i][1] or b"\\" in lines[i][1]:
            lines[i][1] = b"other"


def d_goal(rng, lines, file):
    i = pick(rng, lines, lambda f: len(f) == 1 and f[0].isdigit())
    if i is not None:
        lines[i][0] = rng.choice([b"1", b"2", b"32768", b"32767", b"12345", b"0",
                                  b"29", b"30", b"32769"])


def limit_lines(lines):
    return [i for i, f in enumerate(lines) if len(f) == 3 and f[0].isdigit()]


def d_limit_id(rng, lines, file):
    found = limit_lines(lines)
    if found:
        i = rng.choice(found)
        lines[i][0] = str(rng.choice([len(found) + 1, len(found) + 2, 32768,
                                      rng.randint(1, len(found)), 0])).encode()


def recount_limits(lines):
    for i, fields in enumerate(lines):
        if fields[0] == b"num_speed_limits" and len(fields) == 2:
            fields[1] = str(len(limit_lines(lines))).encode()
            return


def d_limit_missing(rng, lines, file):
    found = limit_lines(lines)
    if len(found) > 1:
        del lines[rng.choice(found)]
        recount_limits(lines)


def d_limit_more(rng, lines, file):
    found = limit_lines(lines)
    if found:
        i = rng.choice(found)
        new = list(lines[i])
        if rng.random() < 0.4:
            new[0] = str(len(found) + rng.randint(1, 2)).encode()
        lines.insert(rng.choice(found), new)
        recount_limits(lines)


def d_limit_speeds(rng, lines, file):
    found = limit_lines(lines)
    if found:
        i = rng.choice(found)
        low, high = rng.choice([(b"1", b"0"), (b"5", b"0"), (b"32768", b"0"),
                                (b"32769", b"0"), (b"5", b"00"), (b"5", b"1"),
                                (b"10", b"5"), (b"32768", b"32767"),
                                (b"0", b"32769"), (b"x", b"5"), (b"5", b"05"),
                                (b"5", b"5"), (b"0", b"0")])
        lines[i][1:] = [low, high]


def d_long_line(rng, lines, file):
    i = rng.randrange(len(lines))
    size = len(b"\t".join(lines[i]))
    want = rng.choice([511, 512, 513, 514])
    if size + 4 <= want:
        lines[i][-1] += b"/*" + b"l" * (want - size - 4) + b"*/"


def d_long_name(rng, lines, file):
    i = pick(rng, lines, lambda f: f[0] in (b"RNDF_name", b"MDF_name", b"RNDF",
                                            b"format_version", b"creation_date",
                                            b"segment_name", b"zone_name")
             and len(f) == 2)
    if i is not None:
        lines[i][1] = b"n" * rng.choice([127, 128, 129, 130])


def d_comment(rng, lines, file):
    i = rng.randrange(len(lines))
    lines[i] = lines[i] + []
    lines[i][-1] += rng.choice([b"/*", b"/*/", b"/* x", b"/* x */y", b"/*x*/ ", b"/*x*/ y", b" *",
                                b"/*a*//*b*/", b"*/", b"/*\x01*/", b"/*\r*/",
                                b"/*\x80*/", b"/**/\r", b"/**/\r\r", b" /**/",
                                b"/*x*/\ty", b"/* * /", b"  /*x*/ \t ", b" /* x",
                                b"/*x*/ /*y*/", b"/*x*/ \x0b", b" \x0b", b"/ *"])


def d_blank(rng, lines, file):
    """L3: a blank inside a field, a name most often: two fields."""
    named = [f for f in lines if len(f) == 2 and len(f[1]) > 1 and (b"name" in f[0] or f[0] in (b"RNDF", b"format_version", b"creation_date"))]
    fields = rng.choice(named if named and rng.random() < 0.6 else lines)
    k = rng.randrange(len(fields))
    at = rng.randint(0, len(fields[k]))
    fields[k] = fields[k][:at] + rng.choice([b" ", b" ", b"  ", b"\t", b" \t"]) + fields[k][at:]


def d_tail(rng, lines, file):
    for _ in range(rng.randint(1, 2)):
        lines.append([rng.choice([b"end_file", b"x", b"7", b"/*", b"/**/", b"*",
                                  b"\x00", b"segment", b"/**/x", b" ", b" x", b" /**/ "])])


STRUCTURE = [
    (d_field_edge, 10), (d_field_near, 8), (d_field_count, 5), (d_field_swap, 2),
    (d_count, 4), (d_delete, 3), (d_double, 3), (d_swap, 3), (d_move, 2),
    (d_copy, 2), (d_cut, 4), (d_other_keyword, 2), (d_digit_line, 2),
    (d_keyword, 2), (d_option_again, 7), (d_long_line, 5), (d_long_name, 3),
    (d_comment, 6), (d_blank, 4), (d_tail, 2),
]
ONLY_RNDF = [(d_spot_checkpoint_again, 2), (d_spot, 8), (d_entry, 14), (d_same_checkpoint, 9)]
ONLY_MDF = [(d_rndf_name, 9), (d_goal, 10), (d_limit_id, 10),
            (d_limit_missing, 12), (d_limit_more, 12), (d_limit_speeds, 4)]


def choose(rng, weighted):
    return rng.choices([f for f, _ in weighted], [w for _, w in weighted])[0]


def damage_lines(rng, lines, file):
    # often something meant for this file alone
    special = ONLY_RNDF if file == 1 else ONLY_MDF
    share = 0.4 if file == 1 else 0.6
    choose(rng, special if rng.random() < share else STRUCTURE)(rng, lines, file)


def damage_bytes(rng, whole):
    if not whole:
        return whole
    at = rng.randrange(len(whole))
    how = rng.randrange(9)
    if how == 0:        # another byte
        return whole[:at] + bytes([rng.randrange(256)]) + whole[at + 1:]
    if how == 1:        # a byte more
        return whole[:at] + bytes([rng.choice([0, 9, 10, 13, 32, 42, 47, 92, 126,
                                               127, 128, 255, 48, 45, 46])]) + whole[at:]
    if how == 2:        # a byte less
        return whole[:at] + whole[at + 1:]
    if how == 3:        # cut
        return whole[:at]
    if how == 4:        # something inside
        return whole[:at] + rng.choice([b"/*", b"*/", b"/**/", b"\r\n", b"\n",
                                        b"\t", b"\r", b" "]) + whole[at:]
    if how == 5:        # LF lost
        lf = whole.find(b"\n", at)
        return whole if lf < 0 else whole[:lf] + whole[lf + 1:]
    if how == 6:        # CR before an LF, once or twice
        lf = whole.find(b"\n", at)
        return whole if lf < 0 else (whole[:lf] + b"\r" * rng.randint(1, 2) + whole[lf:])
    if how == 7:        # one bit
        return whole[:at] + bytes([whole[at] ^ (1 << rng.randrange(8))]) + whole[at + 1:]
    lf = whole.find(b"\n", at)      # tabs up to a long line
    if lf < 0:
        return whole
    start = whole.rfind(b"\n", 0, lf) + 1
    want = rng.choice([511, 512, 513])
    return whole[:lf] + b"\t" * max(0, want - (lf - start)) + whole[lf:]


# ------------------------------------------------------------------ cases

def random_room(rng, made, mode):
    net, mis = made.network, made.mission
    rows = {t: len(getattr(net, t)) for t in oracle.RNDF_TABLES}
    rows.update(goals=len(mis.goals), limits=len(mis.limits))
    room = {}
    how = rng.random()
    for table, count in rows.items():
        stride = oracle.STRIDE[table]
        if how < 0.3:
            extra = 0
        elif how < 0.6:
            extra = rng.randint(0, stride)
        else:
            extra = rng.randint(0, 4 * stride)
        room[table] = min(count * stride + extra, TABLE_BOUND - 1)
    if rng.random() < 0.08:
        choices = [t for t in (oracle.RNDF_TABLES if mode == 1 else oracle.TABLES)
                   if rows[t]]
        if mode == 2 and rng.random() < 0.5:
            choices = oracle.MDF_TABLES
        table = rng.choice(choices)
        stride = oracle.STRIDE[table]
        room[table] = max(0, rows[table] * stride - rng.choice([1, stride, 2 * stride]))
    return full_room(room, mode)


def one_case(rng):
    while True:
        mode = 1 if rng.random() < 0.35 else 2
        made = make(rng)
        room = random_room(rng, made, mode)
        texts = {1: [list(f) for f in made.rndf_lines],
                 2: [list(f) for f in made.mdf_lines]}
        times = rng.choices([0, 1, 2, 3], [12, 62, 18, 8])[0]
        late = []
        for _ in range(times):
            file = 1 if mode == 1 or rng.random() < 0.45 else 2
            if rng.random() < 0.15:
                late.append(file)
            else:
                damage_lines(rng, texts[file], file)
        if rng.random() < 0.35:
            # damage that may change the rows needed shouldn't mostly give 11
            room = full_room({t: min(TABLE_BOUND - 1, room[t] + 3 * oracle.STRIDE[t])
                              for t in room}, mode)
        rough = rng.choice([0, 0, 0.3, 1])
        rndf = render(rng, texts[1], rough)
        mdf = render(rng, texts[2], rough) if mode == 2 else b""
        for file in late:
            if file == 1:
                rndf = damage_bytes(rng, rndf)
            else:
                mdf = damage_bytes(rng, mdf)
        if len(rndf) < TEXT_BOUND and len(mdf) < TEXT_BOUND:
            return mode, rndf, mdf, room


def main():
    parser = argparse.ArgumentParser()
    parser.add_argument("--count", type=int, default=20000)
    parser.add_argument("--seed", type=int, default=1)
    parser.add_argument("--directory", default=".")
    parser.add_argument("--bin", default="random.bin")
    parser.add_argument("--expected", default="random.txt")
    options = parser.parse_args()
    rng = random.Random(options.seed)
    writer = Writer(os.path.join(options.directory, options.bin),
                    os.path.join(options.directory, options.expected))
    for k in range(options.count):
        mode, *case = one_case(rng)
        writer.add("", mode + (OLDER if k % 4 == 0 else 0), *case)     # L10
    writer.close()
    writer.print_histogram()


if __name__ == "__main__":
    sys.exit(main())
