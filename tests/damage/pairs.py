"""Pairs of texts for tests/damage.sh: well-formed ones, and ones damaged in one to three places.

The well-formed pairs, their spelling with blanks, comments and CRs, and many kinds of damage are the oracle's (tests/oracle/generate.py); what it lacks stands here.
LINES and BYTES list every kind of damage, in which file it is done and how often it is drawn: one of LINES changes a file before it is spelled (a list of lines, each a list of
fields), one of BYTES its text.
"""
import os
import sys

sys.path.insert(0, os.path.join(os.path.dirname(os.path.dirname(os.path.abspath(__file__))), "oracle"))
import generate as g    # noqa: E402
import maps             # noqa: E402
import mending          # noqa: E402
import oracle           # noqa: E402
import missions         # noqa: E402
import packed           # noqa: E402
import routes           # noqa: E402

LARGEST = oracle.LARGEST_TEXT
PARTS = {b"segment": b"end_segment", b"lane": b"end_lane", b"zone": b"end_zone", b"perimeter": b"end_perimeter", b"spot": b"end_spot",
         b"checkpoints": b"end_checkpoints", b"speed_limits": b"end_speed_limits"}


# ---- fields and numbers

def field_dropped(rng, lines, file):
    i = g.pick(rng, lines, lambda f: len(f) > 1)
    if i is not None:
        del lines[i][rng.randrange(len(lines[i]))]


def field_doubled(rng, lines, file):
    fields = rng.choice(lines)
    k = rng.randrange(len(fields))
    fields.insert(k, fields[k])


def field_of_elsewhere(rng, lines, file):
    fields = rng.choice(lines)
    fields[rng.randrange(len(fields))] = rng.choice(rng.choice(lines))


def number_spelled_otherwise(rng, lines, file):
    """Leading zeros, signs, points, and digits that are none."""
    i = g.pick(rng, lines, lambda f: any(x[-1:].isdigit() for x in f))
    if i is None:
        return
    k = rng.choice([k for k, x in enumerate(lines[i]) if x[-1:].isdigit()])
    old = lines[i][k]
    at = rng.choice([0] + [j + 1 for j, b in enumerate(old) if b in b".-"])
    lines[i][k] = rng.choice([old[:at] + rng.choice([b"0", b"00", b"-", b"+", b".", b"9", b"99999"]) + old[at:], old + rng.choice([b"0", b".", b".0", b"x", b"e0", b"-"]),
                              old.replace(b".", b",", 1), old.replace(b".", b"..", 1), old.replace(b".", b"", 1), old[:-1] or b"-", b"-" + old, old.lstrip(b"-")])


def fields_off(rng, lines, file):
    """In one line a value that is not permitted and, mostly behind it, one that is not spelled right."""
    i = g.pick(rng, lines, lambda f: len(f) > 2)
    if i is not None:
        first = 0 if g.is_digit_line(lines[i]) else 1
        j, k = rng.choice([(first, len(lines[i]) - 1), (first, len(lines[i]) - 1), (len(lines[i]) - 1, first)])
        lines[i][j] = b".".join(rng.choice([b"0", b"32769", b"99999"]) for _ in lines[i][j].split(b".")) if b"." in lines[i][j] else b"32769"
        lines[i][k] += b"x"


def several_in_line(rng, lines, file):
    """L7: several faults in one line, of one sort or of several, so that the lowest number and then the leftmost field is asked for."""
    i = g.pick(rng, lines, lambda f: len(f) > 2)
    fields = rng.choice(lines) if i is None else lines[i]
    sorts = rng.choice([["value"], ["value"], ["value", "spelling"], ["value", "spelling", "byte", "comment", "count", "keyword"]])
    for k in rng.sample(range(len(fields)), rng.randint(1, len(fields))):
        sort, at = rng.choice(sorts), rng.randrange(len(fields[k]) + 1)
        if sort == "value":                                 # well spelled, if it is a number, and mostly not permitted
            whole, dot, rest = fields[k].partition(b".")
            fields[k] = b"999.000000" if len(rest) == 6 else b".".join(rng.choice([b"0", b"32769", x]) if x.isdigit() else x for x in fields[k].split(b"."))
        elif sort == "spelling":
            fields[k] += rng.choice([b"x", b".", b"00000"])
        elif sort == "byte":
            fields[k] = fields[k][:at] + rng.choice([b"\\", b"*", b"\x00", b"\x7f", b"\r"]) + fields[k][at:]
        elif sort == "comment":
            fields[k] += rng.choice([b"/*", b"/*x*/y", b"/*\x01*/"])
        elif sort == "count":
            fields.append(fields[k])
        else:
            fields[0] = rng.choice(rng.choice(lines))


def number_at_edge(rng, lines, file):
    """A number, or a part of an identifier, of a statement that is drawn first, so that rare statements have their turn."""
    keyword = rng.choice(sorted({f[0] for f in lines if len(f) > 1 and f[-1][-1:].isdigit() and not g.is_digit_line(f)}) or [b""])
    i = g.pick(rng, lines, lambda f: f[0] == keyword and len(f) > 1)
    if i is not None:
        k = rng.randrange(1, len(lines[i]))
        parts = lines[i][k].split(b".")
        parts[rng.randrange(len(parts))] = rng.choice(g.EDGES)
        lines[i][k] = b".".join(parts)


def width_or_number(rng, lines, file):
    keyword = rng.choice(sorted({f[0] for f in lines} & {b"lane_width", b"spot_width", b"checkpoint"}) or [b""])
    i = g.pick(rng, lines, lambda f: f[0] == keyword and len(f) > 1)
    if i is not None:
        lines[i][-1] = rng.choice([b"0", b"0", b"1", b"32768", b"32769", b"65535", b"65536", b"99999", b"100000"])


def identifier_off(rng, lines, file):
    """The identifier of a segment, lane, zone, perimeter, spot or point: one part of it is another."""
    keyword = rng.choice([b"segment", b"lane", b"zone", b"perimeter", b"spot", b""])
    i = g.pick(rng, lines, lambda f: f[0] == keyword and len(f) > 1)
    i = g.pick(rng, lines, lambda f: f[0].count(b".") == 2) if i is None else i
    if i is not None:
        k = 0 if g.is_digit_line(lines[i]) else 1
        parts = lines[i][k].split(b".")
        j = rng.randrange(len(parts))
        parts[j] = b"%d" % max(0, int(parts[j]) + rng.choice([-1, 1])) if parts[j].isdigit() else b"1"
        lines[i][k] = b".".join(parts)


def coordinate_at_edge(rng, lines, file):
    i = g.pick(rng, lines, lambda f: len(f) == 3 and f[0].count(b".") == 2)
    if i is not None:
        column = rng.choice([1, 2])
        edges = [b"%d.000000", b"-%d.000000", b"%d.000001", b"-%d.000001"]
        edge = rng.choice(edges * 3 + [b"1000.000000", b"1000.000000", b"0.000000", b"-0.000000", b"-0.000001", b"-0.500000"] + g.COORDINATES)
        lines[i][column] = edge.replace(b"%d", b"%d" % (90 * column))


def count_off(rng, lines, file):
    i = g.pick(rng, lines, lambda f: f[0].startswith(b"num_") and len(f) == 2 and f[1].isdigit())
    if i is not None:
        lines[i][1] = b"%d" % max(0, int(lines[i][1]) + rng.choice([-1, 1]))


def counts_together(rng, lines, file):
    """num_segments and num_zones at the largest sum, and one above."""
    i = g.pick(rng, lines, lambda f: f[0] == b"num_zones" and len(f) == 2)
    j = g.pick(rng, lines, lambda f: f[0] == b"num_segments" and len(f) == 2 and f[1].isdigit())
    if i is not None and j is not None:
        lines[i][1] = b"%d" % max(0, 32768 - int(lines[j][1]) + rng.choice([0, 1]))


# ---- lines and parts

def stretch(rng, lines):
    i = rng.randrange(len(lines))
    return i, min(len(lines), i + rng.randint(2, 10))


def lines_dropped(rng, lines, file):
    i, j = stretch(rng, lines)
    del lines[i:j]
    lines[i:i] = [] if lines else [[b"end_file"]]


def lines_doubled(rng, lines, file):
    i, j = stretch(rng, lines)
    lines[j:j] = [list(f) for f in lines[i:j]]


def lines_swapped(rng, lines, file):
    i, j = rng.randrange(len(lines)), rng.randrange(len(lines))
    lines[i], lines[j] = lines[j], lines[i]


def part(rng, lines):
    """A whole lane, zone, .. from its first line to behind its last."""
    i = g.pick(rng, lines, lambda f: f[0] in PARTS)
    if i is None:
        return None
    j = next((j for j in range(i, len(lines)) if lines[j][0] == PARTS[lines[i][0]]), None)
    return None if j is None else (i, j + 1)


def part_dropped(rng, lines, file):
    found = part(rng, lines)
    if found:
        del lines[found[0]:found[1]]


def part_doubled(rng, lines, file):
    found = part(rng, lines)
    if found:
        lines[found[1]:found[1]] = [list(f) for f in lines[found[0]:found[1]]]


def option_moved(rng, lines, file):
    i = g.pick(rng, lines, lambda f: f[0] in g.OPTIONS)
    if i is not None:
        line = lines.pop(i)
        lines.insert(rng.choice([rng.randrange(len(lines) + 1), max(0, i - rng.randint(1, 4)), min(len(lines), i + rng.randint(1, 4))]), line)


def long_line(rng, lines, file):
    """Lines of 511 to 514 bytes before their CR: by a comment, tabs, spaces, or a field."""
    fields = rng.choice(lines)
    missing = rng.choice([511, 512, 512, 513, 513, 514]) - len(b"\t".join(fields))
    if missing > 4:
        fields[-1] += rng.choice([b"/*" + b"l" * (missing - 4) + b"*/", b"\t" * missing, b" " * missing, b"\t" + b"f" * (missing - 1), b"/*" + b"l" * (missing - 2), b"\t/**/" + b"\t" * (missing - 5)])
        fields[-1] += rng.choice([b"", b"", b"\r", b"\r\r"])


# ---- references

def own_point_off(rng, lines, file):
    """The point of a checkpoint, stop or exit: not of its lane, perimeter or spot, point 0, its last point or one behind that."""
    i = g.pick(rng, lines, lambda f: f[0] in (b"checkpoint", b"stop", b"exit") and len(f) > 1 and f[1].count(b".") == 2)
    if i is not None:
        parts = lines[i][1].split(b".")
        counts = [f[1] for f in lines[:i] if f[0] in (b"num_waypoints", b"num_perimeterpoints") and len(f) == 2 and f[1].isdigit()]
        last = int(counts[-1]) if counts else 1
        k = rng.choice([0, 1, 2, 2, 2])
        parts[k] = rng.choice([b"0", b"1", b"2", b"3"] + ([b"%d" % last, b"%d" % (last + 1), b"0", b"3"] if k == 2 else []))
        lines[i][1] = b".".join(parts)


def entry_elsewhere(rng, lines, file):
    """An entry with a part 0, a spot's waypoint, a point of a segment, or one point, lane, segment or zone too far."""
    i = g.pick(rng, lines, lambda f: f[0] == b"exit" and len(f) == 3)
    named = [f for f in lines if f[0] in (b"lane", b"perimeter", b"spot", b"segment", b"zone") and len(f) == 2]
    if i is None or not named:
        return
    keyword, name = rng.choice(named)
    ids = sum(f[0] in (b"segment", b"zone") for f in lines)
    counts = [f[1] for f in lines if f[0] in (b"num_waypoints", b"num_perimeterpoints", b"num_lanes") and len(f) == 2 and f[1].isdigit()]
    beyond = b"%d" % (int(rng.choice(counts)) + 1) if counts else b"1"
    parts = lines[i][2].split(b".")
    parts[rng.randrange(len(parts))] = b"0"
    zero, x = b".".join(parts), name.split(b".")[0]
    lines[i][2] = rng.choice([zero, zero, name + b".1", name + b"." + beyond, x + b".0.1", x + b"." + beyond + b".1", b"%d.1.1" % (ids + 1), b"%d.0.1" % (ids + 1)])


def two_references(rng, lines, file):
    """12 and 13 in one text, in either order."""
    entry_elsewhere(rng, lines, file)
    g.d_same_checkpoint(rng, lines, file)


# ---- texts

def cut_anywhere(rng, text):
    return text[:rng.randrange(len(text) + 1)]


def bytes_changed(rng, text):
    """One to three times any of the oracle's changes of bytes."""
    for _ in range(rng.randint(1, 3)):
        text = g.damage_bytes(rng, text)
    return text


def stretch_dropped(rng, text):
    i = rng.randrange(len(text) + 1)
    return text[:i] + text[i + rng.randint(1, 40):]


def stretch_doubled(rng, text):
    i = rng.randrange(len(text) + 1)
    j = i + rng.randint(1, 40)
    return text[:j] + text[i:j] + text[j:]


def separators_changed(rng, text):
    """One tab, CR or LF becomes another, or something that looks like one."""
    found = [i for i, b in enumerate(text) if b in b"\t\r\n"]
    if not found:
        return text
    i = rng.choice(found)
    return text[:i] + rng.choice([b"\t", b"\r", b"\n", b"\r\n", b"\n\r", b" ", b"\x0b", b"\x0c", b"\x00", b"\xa0", b"\t\t", b""]) + text[i + 1:]


def tabs_to_spaces(rng, text):
    """L3: an editor turns the tabs of a stretch, mostly of the whole text, into spaces."""
    i, j = rng.choice([(0, len(text)), (0, len(text)), tuple(sorted(rng.randrange(len(text) + 1) for _ in "ab"))])
    return text[:i] + text[i:j].replace(b"\t", b" " * rng.choice([1, 1, 2, 4, 8])) + text[j:]


def spaces_put(rng, text):
    """L3: a run of tabs and spaces, now and then with a byte that only looks like one, at the start or end of some lines, before or behind their comments, or inside a field."""
    lines = text.split(b"\n")
    for _ in range(rng.randint(1, 4)):
        i = rng.randrange(len(lines))
        line = lines[i]
        at = rng.choice([0, len(line), len(line.rstrip(b"\r")), max(0, line.find(b"/*")), line.rfind(b"*/") + 2 if b"*/" in line else 0, rng.randrange(len(line) + 1)])
        lines[i] = line[:at] + g.run_of(rng, 4) + (rng.choice([b"\x0b", b"\xa0", b"*", b"y"]) if rng.random() < 0.1 else b"") + line[at:]
    return b"\n".join(lines)


def indented(rng, text):
    """L7: every line begins with a run of tabs and spaces, so that columns are not the usual ones. No damage by itself."""
    return b"\n".join(g.run_of(rng, 6) + line for line in text.split(b"\n"))


def byte_at_edge(rng, text):
    """A byte that is only just allowed, or only just not, in a field or a comment."""
    byte = bytes([rng.choice([0, 8, 9, 11, 13, 31, 32, 33, 41, 42, 43, 46, 47, 91, 92, 93, 125, 126, 127, 128, 255])])
    i = rng.randrange(len(text) + 1)
    opened = text.find(b"/*", i)
    if opened >= 0 and rng.random() < 0.5:
        i = opened + 2
    elif rng.random() < 0.5:
        i = text.find(b"\n", i) if b"\n" in text[i:] else i
        byte = b"/*" + byte + b"*/"
    return text[:i] + byte + text[i:]


def comment_broken(rng, text):
    """One byte of a comment's marks lost or doubled, or a mark put anywhere."""
    found = [i for i in range(len(text) - 1) if text[i:i + 2] in (b"/*", b"*/")]
    if not found or rng.random() < 0.4:
        i = rng.randrange(len(text) + 1)
        return text[:i] + rng.choice([b"/*", b"*/", b"/**/", b"/*/", b"/*x*/", b"//", b"/ *", b"/*\t*/\t"]) + text[i:]
    i = rng.choice(found) + rng.randrange(2)
    return text[:i] + rng.choice([b"", text[i:i + 1] * 2]) + text[i + 1:]


EVERY, RNDF, MDF = (1, 2), (1,), (2,)
# (kind, files, how often)
LINES = [
    (g.d_field_edge, EVERY, 6), (number_at_edge, EVERY, 9), (g.d_field_near, EVERY, 6), (g.d_field_count, EVERY, 3), (g.d_field_swap, EVERY, 3), (field_dropped, EVERY, 5), (field_doubled, EVERY, 5),
    (field_of_elsewhere, EVERY, 4), (number_spelled_otherwise, EVERY, 7), (fields_off, EVERY, 5), (several_in_line, EVERY, 10), (width_or_number, RNDF, 9), (identifier_off, RNDF, 9),
    (coordinate_at_edge, RNDF, 11), (count_off, EVERY, 5), (g.d_count, EVERY, 3), (counts_together, RNDF, 1),
    (g.d_delete, EVERY, 4), (g.d_double, EVERY, 4), (g.d_swap, EVERY, 4), (g.d_move, EVERY, 3), (g.d_copy, EVERY, 3), (g.d_cut, EVERY, 6), (g.d_tail, EVERY, 3),
    (lines_dropped, EVERY, 3), (lines_doubled, EVERY, 3), (lines_swapped, EVERY, 3), (part_dropped, EVERY, 3), (part_doubled, EVERY, 3),
    (g.d_other_keyword, EVERY, 4), (g.d_digit_line, EVERY, 3), (g.d_keyword, EVERY, 4), (g.d_option_again, EVERY, 8), (option_moved, EVERY, 5), (g.d_spot_checkpoint_again, RNDF, 4), (g.d_spot, RNDF, 24),
    (g.d_long_name, EVERY, 5), (g.d_long_line, EVERY, 4), (long_line, EVERY, 8), (g.d_comment, EVERY, 8), (g.d_blank, EVERY, 6),
    (own_point_off, RNDF, 9), (g.d_entry, RNDF, 10), (entry_elsewhere, RNDF, 12), (g.d_same_checkpoint, RNDF, 14), (two_references, RNDF, 6),
    (g.d_rndf_name, MDF, 14), (g.d_goal, MDF, 18), (g.d_limit_id, MDF, 22), (g.d_limit_missing, MDF, 20), (g.d_limit_more, MDF, 24), (g.d_limit_speeds, MDF, 16),
]
BYTES = [
    (bytes_changed, EVERY, 12), (byte_at_edge, EVERY, 12), (cut_anywhere, EVERY, 8), (stretch_dropped, EVERY, 3), (stretch_doubled, EVERY, 3), (separators_changed, EVERY, 6), (tabs_to_spaces, EVERY, 5), (spaces_put, EVERY, 8), (comment_broken, EVERY, 6),
]
BY_FILE = {file: [(kind, often) for kind, files, often in LINES + BYTES if file in files] for file in EVERY}
OF_TEXT = {kind for kind, _, _ in BYTES}


def label(kind):
    return kind.__name__.removeprefix("d_")


# ---- cases

class Case:
    """Two texts, how long each is said to be, how many numbers each table has (`room`), what was done to the texts, how many bytes are lent for the map (`out`), a
    route with its start, or a work space; of the second of two texts that are written, whether they are the same (`same`, request L14); of a text to be mended (request L9)
    what is listed and comes out, if that is known (`comes_out`), its list standing in place of the segments."""
    __slots__ = ("rndf", "mdf", "rndf_length", "mdf_length", "room", "kinds", "out", "start", "route", "same", "comes_out")


class Long(bytes):
    """A text that is longer than what is given of it: the oracle asks for its length first."""
    length = 0

    def __len__(self):
        return self.length


def small_pair(rng):
    """Both files as lines, and tables for them (now and then one that is too short)."""
    made = g.make(rng, rng.choice([1, 2, 4, 4, 4, 12]))
    return {1: [list(f) for f in made.rndf_lines], 2: [list(f) for f in made.mdf_lines]}, g.random_room(rng, made, 2)


def wide_pair(rng, which=None):
    """The same of a pair in which one part comes 32,768 times, the most that may be: an exit leads to the last point, a checkpoint has the largest number."""
    many = dict.fromkeys(["segments", "lanes", "waypoints", "zones", "spots", "perimeterpoints", "checkpoints"], 1)
    which = which or rng.choice(sorted(many))
    many[which] = 32768 if which != "zones" else 32767
    if which not in ("spots", "perimeterpoints"):
        many["spots"] = 0
        many["zones"] *= which == "zones"
    if which == "spots":
        many["checkpoints"] = 0                             # each spot has its own, so all 32,768 numbers are taken
    m, n = many["segments"], many["zones"]

    def points(x, y, count):
        return [[b"%d.%d.%d" % (x, y, z), g.random_degrees(rng, 90_000_000)[0], g.random_degrees(rng, 180_000_000)[0]] for z in range(1, count + 1)]
    rndf = [[b"RNDF_name", b"wide"], [b"num_segments", b"%d" % m], [b"num_zones", b"%d" % n]]
    last = (b"%d.%d.%d" % (m, many["lanes"], many["waypoints"]), b"%d.0.%d" % (m + n, many["perimeterpoints"]))[n > 0]
    for x in range(1, m + 1):
        rndf += [[b"segment", b"%d" % x], [b"num_lanes", b"%d" % many["lanes"]]]
        for y in range(1, many["lanes"] + 1):
            rndf += [[b"lane", b"%d.%d" % (x, y)], [b"num_waypoints", b"%d" % many["waypoints"]]]
            if x == y == 1:
                rndf += [[b"exit", b"1.1.1", last]] + [[b"checkpoint", b"1.1.%d" % many["waypoints"], b"%d" % (32768 - i)] for i in range(many["checkpoints"])]
            rndf += points(x, y, many["waypoints"]) + [[b"end_lane"]]
        rndf.append([b"end_segment"])
    for x in range(m + 1, m + n + 1):
        rndf += [[b"zone", b"%d" % x], [b"num_spots", b"%d" % many["spots"]], [b"perimeter", b"%d.0" % x], [b"num_perimeterpoints", b"%d" % many["perimeterpoints"]]]
        rndf += points(x, 0, many["perimeterpoints"]) + [[b"end_perimeter"]]
        for y in range(1, many["spots"] + 1):
            rndf += [[b"spot", b"%d.%d" % (x, y)], [b"checkpoint", b"%d.%d.2" % (x, y), b"%d" % y]] + points(x, y, 2) + [[b"end_spot"]]
        rndf.append([b"end_zone"])
    goals, limits = [[b"%d" % (32768 - i)] for i in range(max(1, many["checkpoints"]))], [[b"%d" % x, *rng.choice([(b"0", b"32768"), (b"32768", b"0")])] for x in rng.sample(range(1, m + n + 1), m + n)]
    mdf = [[b"MDF_name", b"all"], [b"RNDF", b"wide"], [b"checkpoints"], [b"num_checkpoints", b"%d" % len(goals)]] + goals + [[b"end_checkpoints"], [b"speed_limits"]]
    mdf += [[b"num_speed_limits", b"%d" % len(limits)]] + limits + [[b"end_speed_limits"], [b"end_file"]]
    rows = {"segments": m, "lanes": m * many["lanes"], "zones": n, "spots": n * many["spots"], "checkpoints": many["checkpoints"] + n * many["spots"], "stops": 0, "exits": 1, "goals": len(goals),
            "limits": len(limits), "points": m * many["lanes"] * many["waypoints"] + n * many["perimeterpoints"] + 2 * n * many["spots"]}
    room = {t: oracle.STRIDE[t] * rows[t] + rng.choice([0, 1, 7]) for t in rows}
    if rng.random() < 0.1:
        room[rng.choice([t for t in rows if rows[t] > 0])] -= 8
    return {1: rndf + [[b"end_file"]], 2: mdf}, {t: max(0, length) for t, length in room.items()}


def crowded_pair(rng):
    """The same in which all 32,768 checkpoint numbers are taken, and one more checkpoint has one of them (L7: the column is the number's)."""
    lines, room = wide_pair(rng, "checkpoints")
    last = max(i for i, fields in enumerate(lines[1]) if fields[0] == b"checkpoint")
    lines[1].insert(last + 1, [b"checkpoint", b"1.1.1", b"%d" % rng.randint(1, 32768)])
    return lines, {t: n + oracle.STRIDE[t] + 8 for t, n in room.items()}


def make_case(rng, places=None, pair=small_pair):
    """A pair damaged in so many places: where not said, mostly one, often none, two or three."""
    lines, room = pair(rng)
    case = Case()
    case.kinds = []
    case.room = room
    late = []
    for _ in range(rng.choices([0, 1, 2, 3], [8, 64, 20, 8])[0] if places is None else places):
        file = rng.choice([1, 2])
        kind = rng.choices([k for k, _ in BY_FILE[file]], [w for _, w in BY_FILE[file]])[0]
        case.kinds.append(label(kind))
        if kind in OF_TEXT:
            late.append((file, kind))
        elif lines[file]:
            kind(rng, lines[file], file)
    if rng.random() < 0.3:                                  # damage that asks for more rows should not mostly give 11
        case.room = {t: n + 5 * oracle.STRIDE[t] for t, n in case.room.items()}
    rough = rng.choice([0, 0, 0.3, 1])
    texts = {1: g.render(rng, lines[1], rough), 2: g.render(rng, lines[2], rough)}
    if rng.random() < 0.2:
        texts = {file: indented(rng, text) for file, text in texts.items()}
    for file, kind in late:
        texts[file] = kind(rng, texts[file])
    case.rndf, case.mdf = texts[1], texts[2]
    case.rndf_length, case.mdf_length = len(case.rndf), len(case.mdf)
    if rng.random() < 0.015:                                # said to be over 16,777,215 bytes, up to lengths that 32 bits don't hold
        case.kinds.append("text_too_long")
        length = rng.choice([LARGEST + 1, LARGEST + 1, LARGEST + 2, 1 << 25, 1 << 31, (1 << 32) - 1, 1 << 32, (1 << 32) + rng.randint(1, 5000), rng.randint(LARGEST + 1, 1 << 33)])
        if rng.random() < 0.5:
            case.rndf_length = max(length, case.rndf_length)
        else:
            case.mdf_length = max(length, case.mdf_length)
    return case


def aged(case):
    """The same with another boundary for each `solid_yellow`, so that the older edition (L10) does not mostly give 8."""
    older = Case()
    for name in Case.__slots__:
        if hasattr(case, name):
            setattr(older, name, getattr(case, name))
    older.rndf = case.rndf.replace(b"solid_yellow", b"broken_white")
    return older


def padded(text, length):
    """The text, made that long by blank lines in front of it."""
    missing = length - len(text)
    lines, rest = divmod(missing, 512)
    return (b"/*" + b"p" * 507 + b"*/\n") * lines + b"\n" * rest + text


def large_cases(rng):
    """Wide and crowded pairs; and pairs of which a text really has 16,777,215 bytes, or one byte more. Half of them are damaged as well."""
    cases = [make_case(rng, places, pair) for places, pair in ((0, wide_pair), (1, wide_pair), (0, crowded_pair))]
    for case, kind in zip(cases, ("wide_pair", "wide_pair", "crowded_pair")):
        case.kinds.append(kind)
    for rndf_length, mdf_length, places in [(LARGEST, None, 0), (None, LARGEST, 0), (LARGEST + 1, None, 0), (None, LARGEST + 1, 0), (LARGEST, LARGEST, 1), (LARGEST, LARGEST + 1, 1)]:
        case = make_case(rng, places)
        case.rndf = padded(case.rndf, rndf_length) if rndf_length else case.rndf
        case.mdf = padded(case.mdf, mdf_length) if mdf_length else case.mdf
        case.rndf_length, case.mdf_length = len(case.rndf), len(case.mdf)
        case.kinds.append("padded_to_largest")
        cases.append(case)
    return cases


# ---- maps (request L2)

def map_case(rng):
    """A whole RNDF, with quotation marks in half of the names that its map shows."""
    lines, room = small_pair(rng)
    for fields in lines[1]:
        if fields[0] in (b"segment_name", b"zone_name") and rng.random() < 0.5:
            at = rng.randrange(len(fields[1]) + 1)
            fields[1] = (fields[1][:at] + rng.choice([b'"', b'"', b'""', b'"<b>&"', b'</script>"']) + fields[1][at:])[:128]
    return rndf_case(g.render(rng, lines[1], rng.choice([0, 0.3, 1])), room, "whole")


def maps_by_hand():
    """The RNDFs whose maps were worked out by hand, each three times (compare.py draws the output's length), and the longest maps: one that is taken and one that is not, by size."""
    longest = [("%d segments of 32,768 lanes" % n, maps.longest(n)) for n in (1, 2)]
    return [rndf_case(rndf, {t: oracle.STRIDE[t] * (66000 if t in ("lanes", "points") else 100) for t in oracle.TABLES}, label)
            for label, rndf, *_ in [hand for hand in maps.HAND for _ in range(3)] + longest]


def rndf_case(rndf, room, label):
    return text_case(rndf, b"", room, [label])


def text_case(rndf, mdf, room, kinds):
    case = Case()
    case.rndf, case.mdf, case.room, case.kinds = rndf, mdf, room, kinds
    case.rndf_length, case.mdf_length = len(rndf), len(mdf)
    return case


# ---- line ends

SIGNS = b"/* \t\r\nx\\\x7f"       # of comments, separators, line ends; a byte of a field; one that may stand in comments alone, and one that may not stand anywhere
ENDED = b"RNDF_name\ta\nnum_segments\t1\nnum_zones\t0\nsegment\t1\nnum_lanes\t1\nlane\t1.1\nnum_waypoints\t1\nlane_width\t12%s\n1.1.1\t1.000000\t2.000000%s\nend_lane%s\nend_segment\nend_file\n%s"
PLACES = ENDED.count(b"%s")


def end_case(k):
    """An RNDF with a line end of these signs behind a number, a coordinate, a keyword or nothing: the first PLACES * (9 + 9^2 + .. + 9^n) have every end of 1 to n signs at every place."""
    k, place = divmod(k, PLACES)
    end = b""
    while k >= 0:
        k, sign = divmod(k, len(SIGNS))
        end, k = SIGNS[sign:sign + 1] + end, k - 1
    return rndf_case(ENDED % tuple(end if i == place else b"" for i in range(PLACES)), {t: 4 * oracle.STRIDE[t] for t in oracle.TABLES}, "line end")


# ---- routes (request L5)

def route_case(rng):
    """A route over a pair, one pair in twenty damaged."""
    made, start, route, kinds = routes.random_case(rng)
    return over_pair(rng, made, start, route, kinds)


def over_pair(rng, made, start, route, kinds):
    lines = {1: made.rndf_lines, 2: made.mdf_lines}
    if rng.random() < 0.05:
        file = rng.choice([1, 2])
        kind = rng.choice([k for k, _ in BY_FILE[file] if k not in OF_TEXT])
        kind(rng, lines[file], file)
        kinds = kinds + ["texts damaged"]
    rows = {t: len(getattr(made.mission if t in oracle.MDF_TABLES else made.network, t)) for t in oracle.TABLES}
    room = {t: oracle.STRIDE[t] * rows[t] + rng.choice([0, 0, 1, 9]) for t in rows}
    if rng.random() < 0.02:
        short = rng.choice([t for t in rows if rows[t]])
        room[short] = oracle.STRIDE[short] * rows[short] - 1
        kinds = kinds + ["a table too short"]
    rough = rng.choice([0, 0, 0.3])
    case = text_case(g.render(rng, lines[1], rough), g.render(rng, lines[2], rough), room, kinds or ["none"])
    case.start, case.route = start, route
    return case


def routes_by_hand():
    cases = []
    for _, rndf, mdf, start, route, _ in routes.HAND:
        case = text_case(rndf, mdf, {t: 40 * oracle.STRIDE[t] for t in oracle.TABLES}, ["by hand"])
        case.start, case.route = start, route
        cases.append(case)
    return cases


# ---- missions (request L13): the case's route is the work space, with other numbers in it

def mission_case(rng, older):
    """A mission over a pair, one pair in twenty damaged. In the older edition zones have spots, mostly."""
    made, start, rows, kinds = missions.random_case(rng, not older or rng.random() < 0.1)
    likely = [0, 1, 2, max(rows - 1, 0), rows, rng.randrange(rows + 2), 1 << 31, routes.LARGEST]
    case = over_pair(rng, made, start, [rng.choice(likely) for _ in range(rows)], kinds)
    if rng.random() < 0.005:
        file = rng.choice(["rndf_length", "mdf_length"])
        setattr(case, file, LARGEST + rng.choice([1, 2, 1 << 20, (1 << 32) - LARGEST]))
        case.kinds = case.kinds + ["a text too long"]
    return case


def missions_by_hand():
    cases = []
    for _, rndf, mdf, start, rows, _ in missions.HAND:
        case = text_case(rndf, mdf, {t: 40 * oracle.STRIDE[t] for t in oracle.TABLES}, ["by hand"])
        case.start, case.route = start, [5] * rows
        cases.append(case)
    return cases


# ---- packed forms (request L11)

def packing_case(rng):
    """An RNDF to be packed, whole or damaged."""
    return map_case(rng) if rng.random() < 0.6 else make_case(rng)


def form_case(form, room, kinds):
    """Bytes to be unpacked: they stand in place of the RNDF."""
    return text_case(form, b"", {**dict.fromkeys(oracle.TABLES, 0), **room}, list(kinds))


def unpacking_case(rng, network=None, times=None):
    """A form, good or damaged; one in a hundred and fifty is said to be over 16,777,215 bytes."""
    form, room, kinds = packed.random_form(rng, network, times)
    case = form_case(form, room, kinds or ["none"])
    if rng.random() < 0.007:
        case.kinds.append("too long")
        case.rndf_length = rng.choice([LARGEST + 1, LARGEST + 1, LARGEST + 2, 1 << 25, 1 << 32, (1 << 32) + len(form), rng.randint(LARGEST + 1, 1 << 33)])
    return case


def large_packings(rng):
    """RNDFs in which one part comes 32,768 times, to be packed."""
    return [make_case(rng, 0, wide_pair)]


def large_forms(rng):
    """Forms of networks in which one part comes 32,768 times, one of them damaged; and one more checkpoint where all 32,768 numbers are taken."""
    cases = []
    for times, which in ((0, None), (1, None), (0, "checkpoints")):
        network = oracle.network_of_text(g.render(rng, wide_pair(rng, which)[0][1], 0))
        if which:
            network.checkpoints.append((rng.randint(1, 32768), 0))
        cases.append(unpacking_case(rng, network, times))
        cases[-1].kinds.append("all numbers taken" if which else "wide")
    return cases


def forms_by_hand():
    """The forms worked out by hand: with tables for as many rows as it takes, and with none at all."""
    enough = {t: 20 * oracle.STRIDE[t] for t in oracle.RNDF_TABLES}
    none = dict.fromkeys(enough, 0)
    short = [(packed.FORM_Z, dict(packed.rows_needed(packed.FORM_Z), **{t: n - 1})) for t, n in packed.rows_needed(packed.FORM_Z).items()]
    return ([form_case(form, room, ["by hand"]) for _, form, _ in packed.HAND if len(form) < 1 << 20 for room in (enough, none)]
            + [form_case(form, room, ["by hand, a number short"]) for form, room in short])


def forms_of_edge_size():
    """Forms with 32,768 of a part and with one more; of 16,777,215 bytes, in which 28 and 29 are soon found; and a network's whose text has over 16,777,215 bytes."""
    cases = []
    for which, n in packed.MANY:
        form = packed.many(which, n)
        cases.append(form_case(form, packed.rows_needed(form), ["%d %s" % (n, which)]))
    one = b"\xff\xff" + bytes(65535)
    whole, rest = divmod(LARGEST - 5, len(one))
    filled = packed.framed(one * whole + (rest - 2).to_bytes(2, "big") + bytes(rest - 2))
    none = dict.fromkeys(oracle.RNDF_TABLES, 0)
    points = packed.points_form(17, 30500)
    return cases + [form_case(filled, none, ["16,777,215 bytes"]), form_case(b"\x02" + bytes(LARGEST - 1), none, ["16,777,215 bytes"]),
            form_case(points, packed.rows_needed(points), ["text over 16,777,215 bytes"])]


def form_of_largest_size():
    """A network's form of 16,777,215 bytes."""
    form = packed.largest_form()
    return form_case(form, packed.rows_needed(form), ["a network's, 16,777,215 bytes"])


def one_byte_case(form, kind, data, k):
    """Each is unpacked twice: with just the rows that it takes, and with fewer (none at all, or one table that is a number short)."""
    room = packed.rows_needed(form)
    if k % 2:
        short = [t for t in room if room[t]]
        room = dict.fromkeys(room, 0) if k % 4 == 1 else dict(room, **{short[k // 4 % len(short)]: room[short[k // 4 % len(short)]] - 1})
    return form_case(data, room, [kind])
