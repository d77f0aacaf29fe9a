"""Twins for tests/damage.sh (request L14): two texts that mean one network, or one mission, and two that nearly do.

A twin is spelled anew in one to four ways of SPELLINGS (lines) and TEXTS (bytes), none of which changes what the text means but for its creation date; half of them are then changed in one way of NEAR
(RNDFs) or NEAR_MDF (missions). So each twin is the same or not by construction: RNDFs are never the same after a change; missions are, after a change of their RNDF alone. Each of the two has an edition of its own
where the older one accepts it too. A change gives False where it finds nothing to be done, and another is drawn.
"""
import pairs
from pairs import g, oracle

FILE, SEGMENT, LANE, ZONE, PERIMETER, SPOT = "file", "segment", "lane", "zone", "perimeter", "spot"
# the line behind which a part's options stand
BEHIND = {b"num_zones": FILE, b"RNDF": FILE, b"num_lanes": SEGMENT, b"num_waypoints": LANE, b"num_spots": ZONE, b"num_perimeterpoints": PERIMETER, b"spot": SPOT}
BOUNDARIES = (b"left_boundary", b"right_boundary")


def blocks(lines):
    """The options of each part as (part, first, behind the last)."""
    found = []
    for i, fields in enumerate(lines):
        if fields[0] in BEHIND:
            j = i + 1
            while lines[j][0] in g.OPTIONS:
                j += 1
            found.append((BEHIND[fields[0]], i + 1, j))
    return found


def changed_name(rng, name):
    """Another name: by a byte, its case, its length."""
    at = rng.randrange(len(name))
    other = rng.choice([name[:at] + bytes([rng.choice(g.NAME_BYTES)]) + name[at + 1:], (name + b"x")[-128:], name[:-1] or b"y", name.swapcase(), name[::-1], (name + b"/")[-128:], b"0" + name[1:]])
    return other if other != name and b"/*" not in other else b"z" + name[1:] if name[:1] != b"z" else b"y" + name[1:]


# ---- spellings: the same network and mission

def options_in_another_order(rng, lines):
    """Kinds in any order; repeats stay in file order within their kind."""
    for part, i, j in blocks(lines):
        kinds = [fields[0] for fields in lines[i:j]]
        by_kind = {kind: [fields for fields in lines[i:j] if fields[0] == kind] for kind in kinds}
        rng.shuffle(kinds)
        lines[i:j] = [by_kind[kind].pop(0) for kind in kinds]


def date_spelled(rng, lines):
    """The date is added, removed, changed, or goes to the other side of the version."""
    _, i, j = blocks(lines)[0]
    had = [fields for fields in lines[i:j] if fields[0] == b"creation_date"]
    if len(had) > 1:
        return False                            # two_dates, below: it is to stay refused
    rest = [fields for fields in lines[i:j] if fields[0] != b"creation_date"]
    if not had or rng.random() < 0.6:
        version = [fields[1] for fields in rest if fields[0] == b"format_version"]
        rest.insert(rng.randint(0, len(rest)), [b"creation_date", rng.choice([g.some_name(rng), g.random_name(rng), b"14-Mar-07", b"-0.000000", b"creation_date", *version, *(changed_name(rng, f[1]) for f in had)])])
    lines[i:j] = rest


def zeros_signed(rng, lines):
    """`-0.000000` and `0.000000`, each the other way or either way."""
    found = [(fields, k) for fields in lines if g.is_digit_line(fields) for k in (1, 2) if len(fields) == 3 and fields[k] in (b"0.000000", b"-0.000000")]
    if not found:
        return False
    for fields, k in found:
        fields[k] = rng.choice([b"0.000000", b"-0.000000"])
    fields[k] = b"-0.000000" if rng.random() < 0.5 else b"0.000000"


SPELLINGS = [options_in_another_order, date_spelled, zeros_signed]


def comments(rng, text):
    return b"\n".join(line + rng.choice([b"", g.run_of(rng)]) + g.comment(rng) if line and b"/*" not in line and not line.endswith(b"\r") and rng.random() < 0.4 else line for line in text.split(b"\n"))


def crs(rng, text):
    often = rng.choice([0.2, 1])
    return b"\n".join(line + b"\r" if not line.endswith(b"\r") and rng.random() < often and (line or rng.random() < 0.5) else line for line in text.split(b"\n"))


def blank_lines(rng, text):
    out = []
    for line in text.split(b"\n"):
        while rng.random() < 0.2:
            out.append(rng.choice([b"", b"\t", b" ", g.run_of(rng), g.comment(rng), b"\r", b"/* creation_date\tx */", b"/* end_file */\r"]))
        out.append(line)
    return b"\n".join(out)


def spaces_for_tabs(rng, text):
    return b"\n".join(line if b"/*" in line else line.replace(b"\t", rng.choice([b" ", b"  ", b" \t", b"    "])) for line in text.split(b"\n"))


def indented(rng, text):
    return pairs.indented(rng, text)


def last_lf_missing(rng, text):
    return text[:-1] if text.endswith(b"\n") else text


TEXTS = [comments, crs, blank_lines, spaces_for_tabs, indented, last_lf_missing]


# ---- near networks: changes of an RNDF's lines

def points_of(lines, i):
    """The identifiers of the points of the part whose options stand from line i on."""
    out = []
    for fields in lines[i:]:
        if g.is_digit_line(fields):
            out.append(fields[0])
        elif out:
            return out


def entries(lines):
    """The waypoints of lanes."""
    spots = {fields[1] for fields in lines if fields[0] == b"spot"}
    return [fields[0] for fields in lines if g.is_digit_line(fields) and b".0." not in fields[0] and fields[0].rsplit(b".", 1)[0] not in spots]


def fresh_number(rng, lines):
    taken = {fields[2] for fields in lines if fields[0] == b"checkpoint"}
    while True:
        number = b"%d" % rng.randint(1, 32768)
        if number not in taken:
            return number


def new_option(rng, lines, part, i, kind):
    point = rng.choice(points_of(lines, i))
    if kind in (b"format_version", b"segment_name", b"zone_name"):
        return [kind, g.some_name(rng)]
    if kind in (b"lane_width", b"spot_width"):
        return [kind, b"%d" % rng.choice([1, 9, 12, 32768] + [0] * (kind == b"lane_width"))]
    if kind in BOUNDARIES:
        return [kind, rng.choice(g.WORDS)]
    if kind == b"checkpoint":
        return [kind, point, fresh_number(rng, lines)]
    return [kind, point] + [rng.choice(entries(lines))] * (kind == b"exit")


MAY = {FILE: [b"format_version"], SEGMENT: [b"segment_name"], ZONE: [b"zone_name"], PERIMETER: [b"exit"], SPOT: [b"spot_width"],
       LANE: [b"lane_width", *BOUNDARIES, b"checkpoint", b"stop", b"exit"]}


def option_more(rng, lines):
    part, i, j = rng.choice(blocks(lines))
    given = {fields[0] for fields in lines[i:j]}
    kinds = [kind for kind in MAY[part] if kind not in given or kind in (b"checkpoint", b"stop", b"exit")]
    if not kinds:
        return False
    lines.insert(rng.randint(i, j), new_option(rng, lines, part, i, rng.choice(kinds)))


def option_again(rng, lines):
    """A stop or exit comes twice: equal repeats are kept."""
    k = g.pick(rng, lines, lambda fields: fields[0] in (b"stop", b"exit"))
    if k is None:
        return False
    lines.insert(k, list(lines[k]))


def option_less(rng, lines):
    found = [k for part, i, j in blocks(lines) for k in range(i, j) if lines[k][0] != b"creation_date" and (part != SPOT or lines[k][0] != b"checkpoint")]
    if not found:
        return False
    del lines[rng.choice(found)]


def option_changed(rng, lines):
    """Its value, number, point or entry."""
    found = [(part, i, k) for part, i, j in blocks(lines) for k in range(i, j) if lines[k][0] != b"creation_date"]
    if not found:
        return False
    part, i, k = rng.choice(found)
    old = list(lines[k])
    if old[0] in (b"checkpoint", b"exit") and (part == SPOT or rng.random() < 0.5):
        lines[k][2] = new_option(rng, lines, part, i, old[0])[2]
    elif old[0] in (b"checkpoint", b"stop", b"exit"):
        lines[k][1] = rng.choice(points_of(lines, i))
    elif old[0] in (b"lane_width", b"spot_width"):
        lines[k][1] = b"%d" % rng.choice([int(old[1]) + 1, max(1, int(old[1]) - 1), 12])
    elif old[0] in BOUNDARIES:
        lines[k][1] = rng.choice(g.WORDS)
    else:
        lines[k][1] = changed_name(rng, old[1])
    return lines[k] != old


def sides_exchanged(rng, lines):
    k = g.pick(rng, lines, lambda fields: fields[0] in BOUNDARIES)
    if k is None:
        return False
    part, i, j = next(block for block in blocks(lines) if block[1] <= k < block[2])
    before = {fields[0]: fields[1] for fields in lines[i:j] if fields[0] in BOUNDARIES}
    for fields in lines[i:j]:
        if fields[0] in BOUNDARIES:
            fields[0] = BOUNDARIES[1 - BOUNDARIES.index(fields[0])]
    return len(set(before.values())) == len(before)


def coordinate_digit(rng, lines):
    fields = rng.choice([fields for fields in lines if g.is_digit_line(fields)])
    k = rng.choice([1, 2])
    digits = [i for i, byte in enumerate(fields[k]) if byte not in b"-."]
    at = rng.choice(digits + digits[-1:] * 2)
    fields[k] = fields[k][:at] + b"%d" % ((fields[k][at] - 48 + rng.randint(1, 9)) % 10) + fields[k][at + 1:]


def coordinate_sign(rng, lines):
    found = [(fields, k) for fields in lines if g.is_digit_line(fields) for k in (1, 2) if fields[k].strip(b"-0.")]
    if not found:
        return False
    fields, k = rng.choice(found)
    fields[k] = fields[k][1:] if fields[k].startswith(b"-") else b"-" + fields[k]


def worth(coordinate):
    return oracle.spell_coordinate(coordinate, 0)


def points_swapped(rng, lines):
    """The coordinates of two points, or of one."""
    a, b = (rng.choice([fields for fields in lines if g.is_digit_line(fields)]) for _ in "ab")
    before = [worth(x) for x in a[1:] + b[1:]]
    if a is b:
        a[1:] = a[:0:-1]
    else:
        a[1:], b[1:] = b[1:], a[1:]
    return before != [worth(x) for x in a[1:] + b[1:]]


def swapped(kind):
    def swap(rng, lines):
        found = [(a, b) for _, i, j in blocks(lines) for a in range(i, j) for b in range(a + 1, j) if lines[a][0] == lines[b][0] == kind and lines[a] != lines[b]]
        if not found:
            return False
        a, b = rng.choice(found)
        lines[a], lines[b] = lines[b], lines[a]
    swap.__name__ = kind.decode() + "s_swapped"
    return swap


def name_changed(rng, lines):
    fields = rng.choice([fields for fields in lines if fields[0] in (b"RNDF_name", b"segment_name", b"zone_name")])
    fields[1] = changed_name(rng, fields[1])


def name_moved(rng, lines):
    """A segment's name goes to another segment, or a zone's to another zone."""
    keyword, behind = rng.choice([(b"segment_name", b"num_lanes"), (b"zone_name", b"num_spots")])
    k = g.pick(rng, lines, lambda fields: fields[0] == keyword)
    if k is None:
        return False
    line = lines.pop(k)
    places = [i + 1 for i, fields in enumerate(lines) if fields[0] == behind and lines[i + 1][0] != keyword]
    at = rng.choice(places)
    lines.insert(at, line)
    return at != k


def version_changed(rng, lines):
    """Added, removed, changed."""
    _, i, j = blocks(lines)[0]
    k = next((k for k in range(i, j) if lines[k][0] == b"format_version"), None)
    if k is None:
        lines.insert(rng.randint(i, j), [b"format_version", g.some_name(rng)])
    elif rng.random() < 0.5:
        lines[k][1] = changed_name(rng, lines[k][1])
    else:
        del lines[k]


def version_for_date(rng, lines):
    """What was the date is the version, and the other way round: 'apart from creation dates' is not 'apart from such names'."""
    _, i, j = blocks(lines)[0]
    found = {fields[0]: fields[1] for fields in lines[i:j]}
    if not found or found.get(b"format_version") == found.get(b"creation_date"):
        return False
    for fields in lines[i:j]:
        fields[0] = b"creation_date" if fields[0] == b"format_version" else b"format_version"


def two_dates(rng, lines):
    """No near network, since a second date is 6 (request L12): neither equal nor another."""
    _, i, j = blocks(lines)[0]
    if not any(fields[0] == b"creation_date" for fields in lines[i:j]):
        return False
    lines.insert(rng.randint(i, j), [b"creation_date", g.some_name(rng)])


def border_moved(rng, lines):
    """A lane's last point is the first of the next lane, or the other way round; so of lanes between segments."""
    network = oracle.network_of_text(g.render(rng, lines, 0))
    table, k, first = rng.choice([("lanes", 1, 0), ("segments", 1, 0)])
    rows = [list(row) for row in getattr(network, table)]
    found = [(i, by) for i in range(len(rows) - 1) for by in (1, -1) if rows[i][k] + by > 0 and rows[i + 1][k] - by > 0]
    if not found:
        return False
    i, by = rng.choice(found)
    rows[i][k] += by
    rows[i + 1][k] -= by
    rows[i + 1][first] += by
    setattr(network, table, [tuple(row) for row in rows])
    text = oracle.text_of_rows(network)
    if text is None:
        return False
    lines[:] = [line.split(b"\t") for line in text.split(b"\n")[:-1]]


NEAR = [(option_more, 6), (option_again, 3), (option_less, 6), (option_changed, 8), (sides_exchanged, 2), (coordinate_digit, 8), (coordinate_sign, 2), (points_swapped, 3), (swapped(b"stop"), 5), (swapped(b"exit"), 5),
        (swapped(b"checkpoint"), 5), (name_changed, 5), (name_moved, 2), (version_changed, 5), (version_for_date, 3), (border_moved, 3), (two_dates, 1)]
# those that leave a mission's pair accepted: its goals and limits find what they name
NEAR_OTHER_RNDF = [option_again, sides_exchanged, coordinate_digit, coordinate_sign, points_swapped, swapped(b"stop"), swapped(b"exit"), swapped(b"checkpoint"), name_moved, version_changed, version_for_date, border_moved]


# ---- near missions

def stretch(lines, begin, end):
    """The lines between a count and its end word."""
    return range(next(i for i, f in enumerate(lines) if f[0] == begin) + 1, next(i for i, f in enumerate(lines) if f[0] == end))


def goals(lines):
    return stretch(lines, b"num_checkpoints", b"end_checkpoints")


def limits(lines):
    return stretch(lines, b"num_speed_limits", b"end_speed_limits")


def goal_more(rng, lines):
    found = goals(lines)
    lines.insert(rng.randint(found[0], found[-1] + 1), list(lines[rng.choice(found)]))
    lines[found[0] - 1][1] = b"%d" % (len(found) + 1)


def goal_less(rng, lines):
    found = goals(lines)
    if len(found) == 1:
        return False
    del lines[rng.choice(found)]
    lines[found[0] - 1][1] = b"%d" % (len(found) - 1)


def goal_changed(rng, lines):
    a, b = (rng.choice(goals(lines)) for _ in "ab")
    if lines[a] == lines[b]:
        return False
    lines[a] = list(lines[b])


def rows_swapped(rows):
    def swap(rng, lines):
        a, b = (rng.choice(rows(lines)) for _ in "ab")
        if lines[a] == lines[b]:
            return False
        lines[a], lines[b] = lines[b], lines[a]
    swap.__name__ = rows.__name__ + "_swapped"
    return swap


def speed_changed(rng, lines):
    """One figure, or 0 for both."""
    fields = lines[rng.choice(limits(lines))]
    old = list(fields)
    low, high = int(fields[1]), int(fields[2])
    fields[1:] = rng.choice([[b"%d" % max(0, low - 1), fields[2]], [fields[1], b"%d" % min(32768, high + 1)], [fields[1], b"0"], [b"0", fields[2]], [b"0", b"0"], [fields[2], fields[2]]])
    return fields != old


def mission_name_changed(rng, lines):
    lines[0][1] = changed_name(rng, lines[0][1])


def mission_version_changed(rng, lines):
    return version_changed(rng, lines)


def mission_version_for_date(rng, lines):
    return version_for_date(rng, lines)


NEAR_MDF = [(goal_more, 4), (goal_less, 4), (goal_changed, 4), (rows_swapped(goals), 4), (rows_swapped(limits), 4), (speed_changed, 6), (mission_name_changed, 4), (mission_version_changed, 4), (mission_version_for_date, 3), (two_dates, 1)]


# ---- twins

def copied(lines):
    return [list(fields) for fields in lines]


def drawn(rng, weighted, lines):
    """One of the changes that find something to be done: its name, and the lines."""
    while True:
        kind = g.choose(rng, weighted)
        other = copied(lines)
        if kind(rng, other) is not False:
            return kind.__name__, other


def spelled(rng, lines):
    """The lines in one to four other ways, the text, and what was done."""
    ways = rng.sample(SPELLINGS + TEXTS, rng.choice([1, 1, 2, 3, 4]))
    kinds = [way.__name__ for way in ways if way in SPELLINGS and way(rng, lines) is not False]
    text = g.render(rng, lines, 0)
    for way in TEXTS:                           # always in this order, so that a line's CR is its last byte
        if way in ways:
            before = text
            text = way(rng, text)
            kinds += [way.__name__] * (text != before)
    return text, kinds or ["as it was"]


def base(rng):
    """A pair with some zeros among its coordinates; often one that the older edition accepts."""
    made = g.make(rng, rng.choice([1, 2, 4, 4, 9]))
    rndf, mdf = copied(made.rndf_lines), copied(made.mdf_lines)
    points = [fields for fields in rndf if g.is_digit_line(fields)]
    for _ in range(rng.choice([0, 1, 3])):
        rng.choice(points)[rng.choice([1, 2])] = b"0.000000"
    if rng.random() < 0.6:
        for fields in rndf:
            fields[:] = [b"broken_white" if field == b"solid_yellow" else field for field in fields]
    return rndf, mdf


def room_for(*texts):
    """Tables that are long enough for each of the texts: a row for each line."""
    rows = max(text.count(b"\n") + 1 for text in texts)
    return {t: oracle.STRIDE[t] * rows for t in oracle.TABLES}


def in_older(rng, rndf):
    """Whether it is to be read in the older edition: half of those that this one accepts."""
    return rng.random() < 0.5 and oracle.read_rndf(rndf, room_for(rndf), oracle.DECEMBER_2006).accepted


def twin(rng):
    """Two RNDFs as [(whether in the older edition, case), (.., case)]; the second knows whether the two are the same (`same`) and how it came from the first (`kinds`)."""
    lines, _ = base(rng)
    first, _ = spelled(rng, copied(lines))
    near = rng.random() < 0.5
    kinds = []
    if near:
        kind, lines = drawn(rng, NEAR, lines)
        kinds = ["near: " + kind]
    second, ways = spelled(rng, lines)
    return put_together(rng, [(first, b""), (second, b"")], kinds or ways, not near)


def mission_twin(rng):
    """The same of two MDFs, each with an RNDF of its own."""
    rndf, mdf = base(rng)
    first, first_mdf = spelled(rng, copied(rndf))[0], spelled(rng, copied(mdf))[0]
    how = rng.random()
    kinds = []
    if how < 0.45:
        kind, mdf = drawn(rng, NEAR_MDF, mdf)
        kinds = ["near: " + kind]
    elif how < 0.5:
        name = changed_name(rng, mdf[1][1])         # of the RNDF, in both
        rndf[0][1] = mdf[1][1] = name
        kinds = ["near: name of both RNDFs"]
    elif how < 0.65:
        kind, rndf = drawn(rng, [(near, 1) for near in NEAR_OTHER_RNDF], rndf)
        kinds = ["another RNDF: " + kind]
    second, (second_mdf, ways) = spelled(rng, rndf)[0], spelled(rng, mdf)
    return put_together(rng, [(first, first_mdf), (second, second_mdf)], kinds or ways, how >= 0.5)


def put_together(rng, texts, kinds, same):
    room = room_for(*(text for both in texts for text in both))
    out = []
    for rndf, mdf in texts:
        case = pairs.text_case(rndf, mdf, room, kinds)
        case.same = None
        out.append((in_older(rng, rndf), case))
    out[1][1].same = same
    return out


def wide_twin(rng):
    """Two spellings of an RNDF in which one part comes 32,768 times."""
    lines, _ = pairs.wide_pair(rng)
    (first, _), (second, _) = spelled(rng, copied(lines[1])), spelled(rng, lines[1])
    return put_together(rng, [(first, b""), (second, b"")], ["wide"], True)
