"""An independent reader, writer, look-up and summary for RNDF and MDF texts.

Written from document 01 ("The yard reader, its writer and their rules"), the
agreed readings (READINGS.md, quoted as R1..R18) and source 004 alone, only for
testing.  It is plain on purpose: a descent through the grammar, line by line,
in the words of document 01.  Quoted sentences are document 01's or, where a
request of document 02 is named (L1, ..), that request's.
"""

import re

# ---------------------------------------------------------------- constants

LARGEST_TEXT = 16_777_215          # "text over 16,777,215 bytes" is refusal 1
LARGEST_LINE = 512                 # "What is left is at most 512 bytes."
LARGEST_INTEGER = 32_768           # "at most 32,768"
LARGEST_NAME = 128                 # "Name: 1 to 128 bytes."
MISSING_WIDTH = 65_535             # "A missing width is 65,535"
NO_POINT = 4_294_967_295           # the look-up's answer for "none"

# How many numbers make one row of a lent table (R16).
STRIDE = {
    "segments": 4, "lanes": 5, "zones": 6, "spots": 2, "points": 2,
    "checkpoints": 2, "stops": 1, "exits": 2, "goals": 1, "limits": 3,
}
RNDF_TABLES = ["segments", "lanes", "zones", "spots", "points",
               "checkpoints", "stops", "exits"]
MDF_TABLES = ["goals", "limits"]
TABLES = RNDF_TABLES + MDF_TABLES
# The order in which row counts are told: "`ok`, then segments, zones, lanes,
# points, spots, checkpoints, stops, exits, goals, limits".
COUNT_ORDER = ["segments", "zones", "lanes", "points", "spots",
               "checkpoints", "stops", "exits", "goals", "limits"]

# L10: "The caller says which edition."  1 is December 6, 2006; any other number
# is the present one.
DECEMBER_2006, PRESENT = 1, 0

# "each of `double_yellow`, `solid_yellow`, `solid_white`, `broken_white`",
# "left and right (1 to 4 in the order above)".  0 stands for a missing one.
BOUNDARIES = [None, b"double_yellow", b"solid_yellow", b"solid_white",
              b"broken_white"]

TAB = b"\t"                         # L3: "The house writing keeps its single tab."
SPACING = b"\t "                    # L3: "any run of tabs and spaces"

# "Outside comments the bytes are 33 to 126 and tab, but no backslash and no
# `*`.  Inside, 32 to 126 and tab."  L3: "4 is no longer given for a space".
ALLOWED_OUTSIDE = bytes(b for b in [9] + list(range(32, 127))
                        if b not in (0x5C, 0x2A))
ALLOWED_INSIDE = bytes([9] + list(range(32, 127)))

# "Integer: 1 to 5 digits, no leading zero but `0` itself".
_INTEGER = rb"(?:0|[1-9][0-9]{0,4})"
INTEGER = re.compile(_INTEGER)
# "Identifiers: integers joined by dots."
IDENTIFIER_2 = re.compile(rb"(%s)\.(%s)" % (_INTEGER, _INTEGER))
IDENTIFIER_3 = re.compile(rb"(%s)\.(%s)\.(%s)" % (_INTEGER, _INTEGER, _INTEGER))
# "Coordinate: optional `-`, 1 to 3 digits with no leading zero but a single
# `0`, a point, exactly six digits."
COORDINATE = re.compile(rb"(-?)(0|[1-9][0-9]{0,2})\.([0-9]{6})")

FIELD = re.compile(rb"[^\t ]+")

DIGIT_LINE = "a line whose first field begins with a digit"


class Refused(Exception):
    """Each refusal "gives file (1 RNDF, 2 MDF), line, number".  L7: "Add a
    column to the refusal record, counted in bytes from 1." "Where the line is
    0, for 10, and from 20 on unless said otherwise, it is 0."""

    def __init__(self, file, line, number, column=0):
        super().__init__("refused %d %d %d %d" % (file, line, number, column))
        self.reply = (file, line, number, column)


# ------------------------------------------------------- lines and statements

class Line:
    __slots__ = ("number", "start", "fields", "starts", "off")

    def __init__(self, number, start, fields, starts):
        self.number = number        # "Lines count from 1."
        self.start = start          # where the line begins in the text
        self.fields = fields        # the bytes of each field
        self.starts = starts        # where each field begins in the text
        self.off = []               # the fields met that give 9

    def place(self, field):
        """Line and column of a field."""
        return self.number, self.starts[field] - self.start + 1


def first_other(part, allowed):
    """Where the first byte stands that is not allowed."""
    return next(i for i, byte in enumerate(part) if byte not in allowed)


class Lines:
    """The lines of one text, one at a time; only those with fields come out."""

    def __init__(self, file, text, edition=PRESENT):
        self.file = file
        self.text = text
        self.older = edition == DECEMBER_2006
        self.at = 0                 # where the next line begins
        self.count = 0              # the lines met so far
        self.line = None            # the last line with fields

    def raw(self):
        """The next line as (start, bytes), or None behind the last one."""
        # "A text is cut at each LF. An unfinished last line counts; after a
        # final LF there is no further line."
        if self.at >= len(self.text):
            return None
        start = self.at
        lf = self.text.find(b"\n", start)
        if lf < 0:
            end = len(self.text)
            self.at = end
        else:
            end = lf
            self.at = lf + 1
        self.count += 1
        line = self.text[start:end]
        # "One CR as a line's last byte is dropped."  (R4: also at the end of
        # an unfinished last line.)
        if line.endswith(b"\r"):
            line = line[:-1]
        return start, line

    def next_or_none(self):
        """The next line with fields; blank lines are passed over."""
        self.settle()
        while True:
            got = self.raw()
            if got is None:
                return None
            start, line = got
            number = self.count
            # 2 "line over 512 bytes" (R5: counted after the CR was dropped)
            if len(line) > LARGEST_LINE:
                raise Refused(self.file, number, 2, 513)    # L7: "For 2 it is 513"
            # 3 "comment not closed, or followed by more than tabs":
            # "A comment begins at the first `/*` and must close with the
            # first `*/` after those two bytes, with only tabs behind it".
            # L3: "nor 3 for spaces behind a comment".
            opened = line.find(b"/*")
            if opened >= 0:
                closed = line.find(b"*/", opened + 2)
                # L7: "for 3 the place of `/*`"
                if closed < 0:
                    raise Refused(self.file, number, 3, opened + 1)
                if line[closed + 2:].strip(SPACING) != b"":
                    raise Refused(self.file, number, 3, opened + 1)
                outside = line[:opened]
                inside = line[opened + 2:closed]
            else:
                outside = line
                inside = b""
            # 4 "byte not allowed"; L7: "for 4 the first such byte"
            if outside.translate(None, ALLOWED_OUTSIDE) != b"":
                raise Refused(self.file, number, 4,
                              first_other(outside, ALLOWED_OUTSIDE) + 1)
            if inside.translate(None, ALLOWED_INSIDE) != b"":
                raise Refused(self.file, number, 4,
                              opened + 2 + first_other(inside, ALLOWED_INSIDE) + 1)
            # "A line without fields is blank and may stand anywhere, also
            # after `end_file`."  L3: "a separator shall be any run of tabs and
            # spaces, and such a run is nothing at a line's start and end, also
            # before and behind a comment."
            fields = []
            starts = []
            for found in FIELD.finditer(outside):
                fields.append(found.group())
                starts.append(start + found.start())
            if fields:
                self.line = Line(number, start, fields, starts)
                return self.line

    def next(self):
        line = self.next_or_none()
        if line is None:
            # 10 "text ends before `end_file`", line "lines + 1"
            raise Refused(self.file, self.count + 1, 10)
        return line

    def statement(self, permitted, given=()):
        """The next line made out as one of the permitted statements.

        `given` are the single options already met at this place.
        Answers (what, line), `what` being a keyword or DIGIT_LINE.
        """
        line = self.next()
        first = line.fields[0]
        # "A first field that begins with a digit makes a point line in an
        # RNDF and, by its place, a goal or limit line in an MDF (5 where none
        # is due). Any other first field is a keyword of that file, byte for
        # byte, or the line gets 5."
        if 0x30 <= first[0] <= 0x39:
            what = DIGIT_LINE
        else:
            what = first
        # 5 "statement unknown, or not at this place (also a wrong count of
        # items)".  R1: whatever its fields are.
        if what not in permitted:
            self.refuse(line, 0, 5)
        # 6 "single option given again"
        if what in given:
            self.refuse(line, 0, 6)
        return what, line

    def refuse(self, line, field, number):
        """L7: "for 5, 6, 7 and 18 the first field; for 8, 9 and 12 to 17 the
        field at fault, leftmost first"."""
        at, column = line.place(field)
        raise Refused(self.file, at, number, column)

    def values(self, line, kinds):
        """The line's field values; tests 7, then 8 for all, then ranges (9).

        `kinds` names a kind for each field behind the keyword (for a digit
        line: for each field).  Everything else that gives 9 is tested by the
        caller, on this same line, hence after 8 "over all fields".
        """
        first = 0 if 0x30 <= line.fields[0][0] <= 0x39 else 1
        # 7 "wrong number of fields"
        if len(line.fields) - first != len(kinds):
            self.refuse(line, 0, 7)
        # 8 "field not of its kind (spelling, name length, boundary word)";
        # "all fields tried for 8 before any for 9".
        values = []
        for field, kind in enumerate(kinds, first):
            value = KINDS[kind][0](line.fields[field], line.starts[field])
            if value is None:
                self.refuse(line, field, 8)
            values.append(value)
        # 9 "value not permitted here (range, ..)"
        for field, (kind, value) in enumerate(zip(kinds, values), first):
            self.permit(line, KINDS[kind][1](value), field)
        return values

    def permit(self, line, good, field=-1):
        """9 "value not permitted here" unless good: noted for its field, the
        last one if not said."""
        if not good:
            line.off.append(field % len(line.fields))

    def settle(self):
        """Raises 9 for the last line, now that all its fields have been looked
        at: L7, "leftmost first"."""
        if self.line is not None and self.line.off:
            self.refuse(self.line, min(self.line.off), 9)


def spell_name(field, start):
    # "Name: 1 to 128 bytes."  "A name is its start and length in the lent
    # text".  (A field always has at least one byte.)
    return (start, len(field)) if len(field) <= LARGEST_NAME else None


def spell_integer(field, start):
    return int(field) if INTEGER.fullmatch(field) else None


def spell_identifier_2(field, start):
    # R2: the wrong number of parts is another kind of field, so 8.
    found = IDENTIFIER_2.fullmatch(field)
    return tuple(int(part) for part in found.groups()) if found else None


def spell_identifier_3(field, start):
    found = IDENTIFIER_3.fullmatch(field)
    return tuple(int(part) for part in found.groups()) if found else None


def spell_coordinate(field, start):
    # "Its value is a signed count of millionths of a degree".  "Taking the
    # sign from the whole degrees: `-0.500000` is -500,000" is the mistake to
    # shun; "`-0.000000` reads as 0."
    found = COORDINATE.fullmatch(field)
    if not found:
        return None
    minus, degrees, millionths = found.groups()
    size = int(degrees) * 1_000_000 + int(millionths)
    return -size if minus else size


def spell_boundary(field, start):
    for number in (1, 2, 3, 4):
        if field == BOUNDARIES[number]:
            return number
    return None


def spell_older_boundary(field, start):
    # L10: "`solid_yellow` was not yet a boundary"; "in the older edition 8 for
    # `solid_yellow`"
    return None if field == b"solid_yellow" else spell_boundary(field, start)


def any_value(value):
    return True


def range_integer(value):
    # "at most 32,768"; "32,769 gives 9"
    return value <= LARGEST_INTEGER


def range_identifier(value):
    # R3: "a part of 32,769 to 99,999 gives 9"
    return all(part <= LARGEST_INTEGER for part in value)


def range_latitude(value):
    return -90_000_000 <= value <= 90_000_000


def range_longitude(value):
    return -180_000_000 <= value <= 180_000_000


KINDS = {
    "name": (spell_name, any_value),
    "integer": (spell_integer, range_integer),
    "m.n": (spell_identifier_2, range_identifier),
    "x.y.z": (spell_identifier_3, range_identifier),
    "latitude": (spell_coordinate, range_latitude),
    "longitude": (spell_coordinate, range_longitude),
    "boundary": (spell_boundary, any_value),
    "older boundary": (spell_older_boundary, any_value),
}

MISSING_NAME = (0, 0)               # "a missing name is 0, 0"


# ----------------------------------------------------------- form of an RNDF

class RndfForm:
    """What a well-formed RNDF says, "entries still as identifiers"."""

    def __init__(self):
        self.name = self.version = self.date = MISSING_NAME
        self.segments = []      # [first lane, lanes, name start, name length]
        self.lanes = []         # [first point, points, width, left, right]
        self.zones = []         # [first point, points, first spot, spots, name..]
        self.spots = []         # [first point, width]
        self.points = []        # [latitude, longitude]
        self.checkpoints = []   # [number, point], and
        self.checkpoint_places = [] # line and column of each one's number
        self.stops = []         # [point]
        self.exits = []         # (point, entry (x, y, z), its line and column)


def form_of_rndf(text, edition):
    """Refusals 2 to 10 of an RNDF, or its form."""
    lines = Lines(1, text, edition)
    form = RndfForm()

    # "`RNDF_name` name; `num_segments` M > 0; `num_zones` N >= 0, with
    # M + N <= 32,768; options `format_version` and `creation_date` (names);
    # segments 1 to M; zones M+1 to M+N; `end_file`."
    _, line = lines.statement([b"RNDF_name"])
    form.name, = lines.values(line, ["name"])

    _, line = lines.statement([b"num_segments"])
    m, = lines.values(line, ["integer"])
    lines.permit(line, m > 0)

    _, line = lines.statement([b"num_zones"])
    n, = lines.values(line, ["integer"])
    lines.permit(line, m + n <= LARGEST_INTEGER)        # R10

    # "Options come in any order before the first .. (.. segment ..)."
    what, line = file_options(lines, form, b"segment")
    for identifier in range(1, m + 1):
        if identifier > 1:
            what, line = lines.statement([b"segment"])
        read_segment(lines, form, line, identifier)
    for identifier in range(m + 1, m + n + 1):
        what, line = lines.statement([b"zone"])
        read_zone(lines, form, line, identifier)
    end_of_file(lines)
    return form


def file_options(lines, form, closing):
    """`format_version`, `creation_date`, each once, up to the closing keyword."""
    given = set()
    while True:
        what, line = lines.statement(
            [b"format_version", b"creation_date", closing], given)
        if what == closing:
            return what, line
        name, = lines.values(line, ["name"])
        if what == b"format_version":
            form.version = name
        else:
            form.date = name
        given.add(what)


def end_of_file(lines):
    _, line = lines.statement([b"end_file"])
    lines.values(line, [])
    # R6: lines after `end_file` are still judged for 2, 3 and 4; one with
    # fields gives 5.
    line = lines.next_or_none()
    if line is not None:
        lines.refuse(line, 0, 5)


def read_segment(lines, form, line, segment):
    # "Segment: `segment` id; `num_lanes` > 0; option `segment_name`; lanes
    # 1, 2, ..; `end_segment`."
    identifier, = lines.values(line, ["integer"])
    lines.permit(line, identifier == segment)           # the due identifier

    _, line = lines.statement([b"num_lanes"])
    lanes, = lines.values(line, ["integer"])
    lines.permit(line, lanes > 0)

    name = MISSING_NAME
    given = set()
    what, line = lines.statement([b"segment_name", b"lane"])
    while what == b"segment_name":
        name, = lines.values(line, ["name"])
        given.add(what)
        what, line = lines.statement([b"segment_name", b"lane"], given)

    form.segments.append([len(form.lanes), lanes, name[0], name[1]])
    for lane in range(1, lanes + 1):
        if lane > 1:
            what, line = lines.statement([b"lane"])
        read_lane(lines, form, line, segment, lane)
    _, line = lines.statement([b"end_segment"])
    lines.values(line, [])


def read_lane(lines, form, line, segment, lane):
    # "Lane: `lane` m.n; `num_waypoints` > 0; options; waypoints m.n.1, m.n.2,
    # .. each with latitude and longitude; `end_lane`."
    identifier, = lines.values(line, ["m.n"])
    lines.permit(line, identifier == (segment, lane))

    _, line = lines.statement([b"num_waypoints"])
    points, = lines.values(line, ["integer"])
    lines.permit(line, points > 0)

    first = len(form.points)
    width, left, right = MISSING_WIDTH, 0, 0            # "A missing boundary is 0."
    boundary = "older boundary" if lines.older else "boundary"
    given = set()
    while True:
        what, line = lines.statement(
            [b"lane_width", b"left_boundary", b"right_boundary",
             b"checkpoint", b"stop", b"exit", DIGIT_LINE], given)
        if what == DIGIT_LINE:
            break
        if what == b"lane_width":
            width, = lines.values(line, ["integer"])    # >= 0
            given.add(what)
        elif what == b"left_boundary":
            left, = lines.values(line, [boundary])
            given.add(what)
        elif what == b"right_boundary":
            right, = lines.values(line, [boundary])
            given.add(what)
        elif what == b"checkpoint":
            read_checkpoint(lines, form, line, segment, lane, points, first)
        elif what == b"stop":
            waypoint, = lines.values(line, ["x.y.z"])
            own_point(lines, line, waypoint, segment, lane, points)
            form.stops.append([first + waypoint[2] - 1])
        else:
            waypoint, entry = lines.values(line, ["x.y.z", "x.y.z"])
            own_point(lines, line, waypoint, segment, lane, points)
            # "The entry is any point identifier x.y.z with x, z > 0; y = 0
            # names a perimeter point."
            lines.permit(line, entry[0] > 0 and entry[2] > 0)
            form.exits.append((first + waypoint[2] - 1, entry, line.place(2)))

    form.lanes.append([first, points, width, left, right])
    read_points(lines, form, line, segment, lane, points)
    _, line = lines.statement([b"end_lane"])
    lines.values(line, [])


def own_point(lines, line, waypoint, m, n, points):
    # "The waypoint named by a checkpoint or stop, and the first of an exit,
    # is one of this lane."  Likewise for a perimeter (n = 0) and a spot.
    lines.permit(line, waypoint[0] == m and waypoint[1] == n
                 and 1 <= waypoint[2] <= points, 1)


def read_checkpoint(lines, form, line, m, n, points, first):
    waypoint, number = lines.values(line, ["x.y.z", "integer"])
    own_point(lines, line, waypoint, m, n, points)
    lines.permit(line, number > 0)      # "Checkpoint numbers are > 0"
    form.checkpoints.append([number, first + waypoint[2] - 1])
    form.checkpoint_places.append(line.place(2))
    return waypoint


def read_points(lines, form, line, m, n, points):
    """The points m.n.1 to m.n.points; `line` is the first one's."""
    for z in range(1, points + 1):
        if z > 1:
            _, line = lines.statement([DIGIT_LINE])
        read_point(lines, form, line, (m, n, z))


def read_point(lines, form, line, due):
    identifier, latitude, longitude = lines.values(
        line, ["x.y.z", "latitude", "longitude"])
    lines.permit(line, identifier == due, 0)
    form.points.append([latitude, longitude])


def read_zone(lines, form, line, zone):
    # "Zone: `zone` id; `num_spots` >= 0; option `zone_name`; the perimeter;
    # spots 1, 2, ..; `end_zone`."
    identifier, = lines.values(line, ["integer"])
    lines.permit(line, identifier == zone)

    _, line = lines.statement([b"num_spots"])
    spots, = lines.values(line, ["integer"])
    # L10: "the note of February 20 is what allowed a zone without spots"; "9
    # for 0 spots"
    lines.permit(line, spots > 0 or not lines.older)

    name = MISSING_NAME
    given = set()
    what, line = lines.statement([b"zone_name", b"perimeter"])
    while what == b"zone_name":
        name, = lines.values(line, ["name"])
        given.add(what)
        what, line = lines.statement([b"zone_name", b"perimeter"], given)

    # "Perimeter: `perimeter` m.0; `num_perimeterpoints` > 0; any number of
    # `exit`, the first a point of this perimeter, the second x.y.z with all
    # three > 0; points m.0.1, ..; `end_perimeter`."
    identifier, = lines.values(line, ["m.n"])
    lines.permit(line, identifier == (zone, 0))
    _, line = lines.statement([b"num_perimeterpoints"])
    points, = lines.values(line, ["integer"])
    lines.permit(line, points > 0)

    first = len(form.points)
    what, line = lines.statement([b"exit", DIGIT_LINE])
    while what == b"exit":
        point, entry = lines.values(line, ["x.y.z", "x.y.z"])
        own_point(lines, line, point, zone, 0, points)
        lines.permit(line, entry[0] > 0 and entry[1] > 0 and entry[2] > 0)
        form.exits.append((first + point[2] - 1, entry, line.place(2)))
        what, line = lines.statement([b"exit", DIGIT_LINE])
    read_points(lines, form, line, zone, 0, points)
    _, line = lines.statement([b"end_perimeter"])
    lines.values(line, [])

    # "first spot (0 without spots)"
    first_spot = len(form.spots) if spots > 0 else 0
    form.zones.append([first, points, first_spot, spots, name[0], name[1]])
    for spot in range(1, spots + 1):
        _, line = lines.statement([b"spot"])
        read_spot(lines, form, line, zone, spot)
    _, line = lines.statement([b"end_zone"])
    lines.values(line, [])


def read_spot(lines, form, line, zone, spot):
    # "Spot: `spot` m.n; options `spot_width` > 0 (feet) and one `checkpoint`
    # on waypoint 1 or 2; two waypoints; `end_spot`."  L8: "From now on it is a
    # rule: a spot whose options give no checkpoint is refused at its first
    # waypoint's line, and a spot's checkpoint on waypoint 1 at its own line".
    identifier, = lines.values(line, ["m.n"])
    lines.permit(line, identifier == (zone, spot))

    first = len(form.points)
    width = MISSING_WIDTH
    given = set()
    while True:
        what, line = lines.statement(
            [b"spot_width", b"checkpoint", DIGIT_LINE], given)
        if what == DIGIT_LINE:
            break
        if what == b"spot_width":
            width, = lines.values(line, ["integer"])
            lines.permit(line, width > 0)
        else:
            waypoint = read_checkpoint(lines, form, line, zone, spot, 2, first)
            # L8: "9 for a spot's checkpoint on waypoint 1"
            lines.permit(line, waypoint[2] == 2, 1)
        given.add(what)         # R9: a second `checkpoint` in a spot is 6
    form.spots.append([first, width])
    read_point(lines, form, line, (zone, spot, 1))
    if b"checkpoint" not in given:
        # L8: "25, with file 1 and the line, at a first waypoint that has no
        # fault of 2 to 9"; "Its column is the first field."
        lines.settle()
        lines.refuse(line, 0, 25)
    _, line = lines.statement([DIGIT_LINE])
    read_point(lines, form, line, (zone, spot, 2))
    _, line = lines.statement([b"end_spot"])
    lines.values(line, [])


# ------------------------------------------------------------ form of an MDF

class MdfForm:
    def __init__(self):
        self.name = self.rndf = self.version = self.date = MISSING_NAME
        self.rndf_place = None  # line and column of the RNDF's name
        self.goals = []         # [number]
        self.goal_places = []
        self.limits = []        # [id, minimum, maximum]
        self.limit_places = []  # line and column of each id
        self.end_place = None   # of `end_speed_limits`


def form_of_mdf(text):
    """Refusals 2 to 10 of an MDF, or its form."""
    lines = Lines(2, text)
    form = MdfForm()
    # "`MDF_name`; `RNDF` name; options `format_version`, `creation_date`;
    # `checkpoints`; `num_checkpoints` > 0; so many numbers > 0;
    # `end_checkpoints`; `speed_limits`; `num_speed_limits` > 0; so many lines
    # id > 0, minimum, maximum (miles per hour); `end_speed_limits`;
    # `end_file`."
    _, line = lines.statement([b"MDF_name"])
    form.name, = lines.values(line, ["name"])
    _, line = lines.statement([b"RNDF"])
    form.rndf, = lines.values(line, ["name"])
    form.rndf_place = line.place(1)
    _, line = file_options(lines, form, b"checkpoints")
    lines.values(line, [])

    _, line = lines.statement([b"num_checkpoints"])
    goals, = lines.values(line, ["integer"])
    lines.permit(line, goals > 0)
    for _ in range(goals):
        _, line = lines.statement([DIGIT_LINE])
        number, = lines.values(line, ["integer"])
        lines.permit(line, number > 0)
        form.goals.append([number])         # "A goal may come again."
        form.goal_places.append(line.place(0))
    _, line = lines.statement([b"end_checkpoints"])
    lines.values(line, [])

    _, line = lines.statement([b"speed_limits"])
    lines.values(line, [])
    _, line = lines.statement([b"num_speed_limits"])
    limits, = lines.values(line, ["integer"])
    lines.permit(line, limits > 0)
    for _ in range(limits):
        _, line = lines.statement([DIGIT_LINE])
        identifier, minimum, maximum = lines.values(
            line, ["integer", "integer", "integer"])
        lines.permit(line, identifier > 0, 0)
        # L1: "minimum above maximum is a fault only where the maximum is not
        # 0."  L7: "and the maximum where it is below the minimum"
        lines.permit(line, maximum == 0 or minimum <= maximum)
        form.limits.append([identifier, minimum, maximum])
        form.limit_places.append(line.place(0))
    _, line = lines.statement([b"end_speed_limits"])
    lines.values(line, [])
    form.end_place = line.place(0)
    end_of_file(lines)
    return form


# ------------------------------------------------------------------- replies

class Reply:
    """The reader's answer and what is left in every lent table."""

    def __init__(self):
        self.accepted = False
        self.refusal = None     # (file, line, number, column)
        self.used = None        # rows used, by table
        self.file = None        # RNDF: name, version, date as start, length
        self.mission = None     # MDF: name, rndf, version, date
        self.tables = None      # by table: all the numbers lent

    def head(self):
        if self.accepted:
            return "ok " + " ".join(
                str(self.used.get(t, 0)) for t in COUNT_ORDER)
        # L7: "The summary program prints it last."
        return "refused %d %d %d %d" % self.refusal


def rows_in(length, table):
    # R16: "it has length / stride rows"
    return length // STRIDE[table]


def zero_tables(room, names):
    return {t: [0] * room[t] for t in names}


def lay_out(rows, length):
    """The rows from index 0 on, "rows beyond are zero", over the whole length."""
    flat = []
    for row in rows:
        flat.extend(row)
    flat.extend([0] * (length - len(flat)))
    return flat


def judge_rndf(text, room, edition):
    """1 to 13 of an RNDF in order, or (form, rows by table)."""
    # "Order: for the RNDF 1; then the first line with a fault of 2 to 9,
    # lowest number first ..; then 10; 11; then the first line with 12 or 13."
    if len(text) > LARGEST_TEXT:
        raise Refused(1, 0, 1)
    return judge_rndf_of_any_size(text, room, edition)


def judge_rndf_of_any_size(text, room, edition):
    """The same without 1 (L11: "text size apart")."""
    form = form_of_rndf(text, edition)
    # 11 "a table has fewer rows than needed".  "The rows of each table are as
    # many as its count lines declare together ..; checkpoints, stops and
    # exits have a row for each of their lines."
    needed = {"segments": len(form.segments), "lanes": len(form.lanes),
              "zones": len(form.zones), "spots": len(form.spots),
              "points": len(form.points),
              "checkpoints": len(form.checkpoints),
              "stops": len(form.stops), "exits": len(form.exits)}
    for table in RNDF_TABLES:
        if rows_in(room[table], table) < needed[table]:
            raise Refused(1, 0, 11)
    # 12 "entry is no declared lane waypoint or perimeter point": only now,
    # as "later segments are legal targets".
    first_fault = None
    exits = []
    for point, entry, (line, column) in form.exits:
        target = resolve(form, entry)
        if target is None:
            if first_fault is None:
                first_fault = (line, 12, column)
        else:
            exits.append([point, target])
    # 13 "checkpoint number already declared"
    met = set()
    for (number, _), (line, column) in zip(form.checkpoints, form.checkpoint_places):
        if number in met:
            if first_fault is None or line < first_fault[0]:
                first_fault = (line, 13, column)
            break
        met.add(number)
    if first_fault is not None:
        raise Refused(1, *first_fault)
    rows = {"segments": form.segments, "lanes": form.lanes,
            "zones": form.zones, "spots": form.spots, "points": form.points,
            "checkpoints": form.checkpoints, "stops": form.stops,
            "exits": exits}
    return form, rows


def resolve(form, entry):
    """The row of the point that an entry names, or None."""
    x, y, z = entry
    m = len(form.segments)
    if y > 0:
        # "An entry with y > 0 must be a lane's waypoint; a spot's is not an
        # entry."
        if not 1 <= x <= m:
            return None
        first_lane, lanes = form.segments[x - 1][:2]
        if y > lanes:
            return None
        first, points = form.lanes[first_lane + y - 1][:2]
    else:
        # "y = 0 names a perimeter point"
        if not m + 1 <= x <= m + len(form.zones):
            return None
        first, points = form.zones[x - m - 1][:2]
    if z > points:
        return None
    return first + z - 1


def judge_mdf(text, room, rndf_text, rndf_form, rndf_rows):
    """1 to 11 and 14 to 18 of an MDF in order, or (form, rows by table)."""
    # "Then the MDF likewise, 14 to 18 by first line, 16 before 17."
    if len(text) > LARGEST_TEXT:
        raise Refused(2, 0, 1)
    form = form_of_mdf(text)
    if (rows_in(room["goals"], "goals") < len(form.goals)
            or rows_in(room["limits"], "limits") < len(form.limits)):
        raise Refused(2, 0, 11)
    # The grammar puts these lines in this order, so the first fault met is
    # the one on the first line.
    # 14 "MDF's RNDF name is not this RNDF's"
    if name_of(text, *form.rndf) != name_of(rndf_text, *rndf_form.name):
        line, column = form.rndf_place
        raise Refused(2, line, 14, column)
    # 15 "goal not a checkpoint of the RNDF"
    numbers = {number for number, _ in rndf_rows["checkpoints"]}
    for (number,), (line, column) in zip(form.goals, form.goal_places):
        if number not in numbers:
            raise Refused(2, line, 15, column)
    # 16 "limit's id not in the RNDF", 17 "limit's id already given"
    ids = len(rndf_rows["segments"]) + len(rndf_rows["zones"])
    met = set()
    for (identifier, _, _), (line, column) in zip(form.limits, form.limit_places):
        if identifier > ids:
            raise Refused(2, line, 16, column)
        if identifier in met:
            raise Refused(2, line, 17, column)
        met.add(identifier)
    # 18 "some id has no limit", line `end_speed_limits`
    if len(met) != ids:
        line, column = form.end_place
        raise Refused(2, line, 18, column)
    return form, {"goals": form.goals, "limits": form.limits}


def accept(reply, rows, room):
    reply.accepted = True
    reply.used = {table: len(rows[table]) for table in rows}
    reply.tables = {table: lay_out(rows[table], room[table]) for table in rows}


def refuse(reply, refused, room, names):
    # "All lent tables .. are then zero over their whole length"
    reply.accepted = False
    reply.refusal = refused.reply
    reply.used = reply.file = reply.mission = None
    reply.tables = zero_tables(room, names)


def read_rndf(text, room, edition=PRESENT):
    """The reader for an RNDF alone; `room` gives each table's lent length."""
    reply = Reply()
    try:
        form, rows = judge_rndf(text, room, edition)
        accept(reply, rows, room)
        reply.file = form.name + form.version + form.date
    except Refused as refused:
        refuse(reply, refused, room, RNDF_TABLES)
    return reply


def read_pair(rndf, mdf, room, edition=PRESENT):
    """The reader for an RNDF with its MDF."""
    reply = Reply()
    try:
        # R13: everything about the RNDF comes before anything about the MDF.
        form, rows = judge_rndf(rndf, room, edition)
        mission, more = judge_mdf(mdf, room, rndf, form, rows)
        accept(reply, {**rows, **more}, room)
        reply.file = form.name + form.version + form.date
        reply.mission = (mission.name + mission.rndf + mission.version
                         + mission.date)
    except Refused as refused:
        refuse(reply, refused, room, TABLES)
    return reply


# -------------------------------------------------------- names and look-up

def name_of(text, start, length):
    """"Asking for a name returns that stretch of the caller's own text, or an
    empty part where start and length don't fit in it."""
    if start + length > len(text):
        return b""
    return text[start:start + length]


def lookup(checkpoints_table, number):
    """"the point of the first row with that number, or 4,294,967,295 if there
    is none or the number is 0."  Takes the flat table; a number left over
    behind the last whole row is no row."""
    if number == 0:
        return NO_POINT
    for row in range(len(checkpoints_table) // 2):
        if checkpoints_table[2 * row] == number:
            return checkpoints_table[2 * row + 1]
    return NO_POINT


def points_of(checkpoints_table, numbers, lent):
    """L4: "Take a list of numbers and a lent list for the points, over any
    checkpoint table, as the single look-up does."  `lent` is the lent list's
    length; answers (refusal or None, what the lent list then holds)."""
    # "20, the two lists differ in length, tested first; the lent list is then
    # zero. Numbers from 20 on give file 0 and line 0"
    if len(numbers) != lent:
        return (0, 0, 20, 0), [0] * lent
    # "The outcome equals the single question put for each number in turn; an
    # unknown number gives 4,294,967,295 in its place and doesn't stop the
    # rest."
    return None, [lookup(checkpoints_table, number) for number in numbers]


# ------------------------------------------------------------ house writing

class Network:
    """"A network or mission is its tables with each name's bytes in place of
    start and length."  Rows are tuples; a missing name is b""."""

    def __init__(self, name, version, date, segments, lanes, zones, spots,
                 points, checkpoints, stops, exits):
        self.name, self.version, self.date = name, version, date
        self.segments = segments        # (first lane, lanes, name)
        self.lanes = lanes              # (first point, points, width, left, right)
        self.zones = zones              # (first point, points, first spot, spots, name)
        self.spots = spots              # (first point, width)
        self.points = points            # (latitude, longitude)
        self.checkpoints = checkpoints  # (number, point)
        self.stops = stops              # (point,)
        self.exits = exits              # (point, entry point)

    def __eq__(self, other):
        return vars(self) == vars(other)

    def undated(self):
        """L12: "the same network .. but for a missing date"."""
        return Network(**dict(vars(self), date=b""))


class Mission:
    def __init__(self, name, rndf, version, date, goals, limits):
        self.name, self.rndf = name, rndf
        self.version, self.date = version, date
        self.goals = goals              # (number,)
        self.limits = limits            # (id, minimum, maximum)

    def __eq__(self, other):
        return vars(self) == vars(other)

    def undated(self):
        return Mission(**dict(vars(self), date=b""))


def table_rows(reply, table):
    stride = STRIDE[table]
    flat = reply.tables[table]
    return [tuple(flat[stride * i:stride * i + stride])
            for i in range(reply.used[table])]


def network_of(reply, text):
    def named(rows):
        return [row[:-2] + (name_of(text, row[-2], row[-1]),) for row in rows]
    f = reply.file
    return Network(name_of(text, f[0], f[1]), name_of(text, f[2], f[3]),
                   name_of(text, f[4], f[5]),
                   named(table_rows(reply, "segments")),
                   table_rows(reply, "lanes"),
                   named(table_rows(reply, "zones")),
                   table_rows(reply, "spots"), table_rows(reply, "points"),
                   table_rows(reply, "checkpoints"),
                   table_rows(reply, "stops"), table_rows(reply, "exits"))


def mission_of(reply, text):
    f = reply.mission
    return Mission(name_of(text, f[0], f[1]), name_of(text, f[2], f[3]),
                   name_of(text, f[4], f[5]), name_of(text, f[6], f[7]),
                   table_rows(reply, "goals"), table_rows(reply, "limits"))


def write_coordinate(value):
    # "`0.000000` has no sign."  The sign is the whole value's.
    sign = "-" if value < 0 else ""
    size = abs(value)
    return "%s%d.%06d" % (sign, size // 1_000_000, size % 1_000_000)


def point_ids(network):
    """What each point is called.  Points stand in file order."""
    called = [None] * len(network.points)
    for s, (first_lane, lanes, _) in enumerate(network.segments, 1):
        for l in range(1, lanes + 1):
            first, points = network.lanes[first_lane + l - 1][:2]
            for p in range(points):
                called[first + p] = "%d.%d.%d" % (s, l, p + 1)
    m = len(network.segments)
    for z, (first, points, first_spot, spots, _) in enumerate(network.zones, m + 1):
        for p in range(points):
            called[first + p] = "%d.0.%d" % (z, p + 1)
        for s in range(1, spots + 1):
            first = network.spots[first_spot + s - 1][0]
            called[first] = "%d.%d.1" % (z, s)
            called[first + 1] = "%d.%d.2" % (z, s)
    return called


def house_rndf(network):
    """"House writing: one tab between fields, LF after every line, no comment,
    blank line or CR; options in the order listed above, repeats in file order
    within their kind."""
    out = []

    def put(*fields):
        out.append(TAB.join(f if isinstance(f, bytes) else str(f).encode()
                            for f in fields) + b"\n")

    called = point_ids(network)
    m = len(network.segments)

    # The options on a part's points, by the part's first point; in file order.
    owner = {}
    for first, points, *_ in network.lanes:
        for p in range(points):
            owner[first + p] = first
    for first, points, *_ in network.zones:
        for p in range(points):
            owner[first + p] = first
    for first, _ in network.spots:
        owner[first] = owner[first + 1] = first

    def by_part(rows, which):
        parts = {}
        for row in rows:
            parts.setdefault(owner[row[which]], []).append(row)
        return parts
    checkpoints = by_part(network.checkpoints, 1)
    stops = by_part(network.stops, 0)
    exits = by_part(network.exits, 0)

    def put_checkpoints(first):
        for number, point in checkpoints.get(first, []):
            put(b"checkpoint", called[point], number)

    def put_exits(first):
        for point, entry in exits.get(first, []):
            put(b"exit", called[point], called[entry])

    def put_points(first, points):
        for p in range(first, first + points):
            latitude, longitude = network.points[p]
            put(called[p], write_coordinate(latitude),
                write_coordinate(longitude))

    put(b"RNDF_name", network.name)
    put(b"num_segments", len(network.segments))
    put(b"num_zones", len(network.zones))
    # L12: "the house writing and the packed form leave it out"
    if network.version:
        put(b"format_version", network.version)
    for s, (first_lane, lanes, name) in enumerate(network.segments, 1):
        put(b"segment", s)
        put(b"num_lanes", lanes)
        if name:
            put(b"segment_name", name)
        for l in range(1, lanes + 1):
            first, points, width, left, right = network.lanes[first_lane + l - 1]
            put(b"lane", "%d.%d" % (s, l))
            put(b"num_waypoints", points)
            if width != MISSING_WIDTH:
                put(b"lane_width", width)
            if left:
                put(b"left_boundary", BOUNDARIES[left])
            if right:
                put(b"right_boundary", BOUNDARIES[right])
            put_checkpoints(first)
            for point, in stops.get(first, []):
                put(b"stop", called[point])
            put_exits(first)
            put_points(first, points)
            put(b"end_lane")
        put(b"end_segment")
    for z, (first, points, first_spot, spots, name) in enumerate(network.zones, m + 1):
        put(b"zone", z)
        put(b"num_spots", spots)
        if name:
            put(b"zone_name", name)
        put(b"perimeter", "%d.0" % z)
        put(b"num_perimeterpoints", points)
        put_exits(first)
        put_points(first, points)
        put(b"end_perimeter")
        for s in range(1, spots + 1):
            first, width = network.spots[first_spot + s - 1]
            put(b"spot", "%d.%d" % (z, s))
            if width != MISSING_WIDTH:
                put(b"spot_width", width)
            put_checkpoints(first)
            put_points(first, 2)
            put(b"end_spot")
        put(b"end_zone")
    put(b"end_file")
    return b"".join(out)


def house_mdf(mission):
    out = []

    def put(*fields):
        out.append(TAB.join(f if isinstance(f, bytes) else str(f).encode()
                            for f in fields) + b"\n")
    put(b"MDF_name", mission.name)
    put(b"RNDF", mission.rndf)
    # L12, "in both files"
    if mission.version:
        put(b"format_version", mission.version)
    put(b"checkpoints")
    put(b"num_checkpoints", len(mission.goals))
    for number, in mission.goals:
        put(number)
    put(b"end_checkpoints")
    put(b"speed_limits")
    put(b"num_speed_limits", len(mission.limits))
    for identifier, minimum, maximum in mission.limits:
        put(identifier, minimum, maximum)
    put(b"end_speed_limits")
    put(b"end_file")
    return b"".join(out)


class Written:
    """The writer's answer: the reader's reply, the length written, the output."""

    def __init__(self, reply, written, output):
        self.reply = reply
        self.accepted = reply.accepted
        self.refusal = reply.refusal
        self.tables = reply.tables
        self.written = written      # bytes written, None when refused
        self.output = output        # the whole lent output


def write_out(reply, house, file, room, names, out_len):
    """"refuses as the reader does before any refusal of its own"; `house`
    makes the house writing of what was read."""
    if reply.accepted:
        text = house()
        # 19 "house writing over 16,777,215 bytes or longer than the lent
        # output", line 0; "19 gives the file written".
        if len(text) <= LARGEST_TEXT and len(text) <= out_len:
            # "A lent output is zero behind what was written."
            return Written(reply, len(text), text + bytes(out_len - len(text)))
        refuse(reply, Refused(file, 0, 19), room, names)
    # "All lent tables, and the writer's lent output, are then zero over their
    # whole length"
    return Written(reply, None, bytes(out_len))


def write_rndf(text, room, out_len, edition=PRESENT):
    reply = read_rndf(text, room, edition)
    return write_out(reply, lambda: house_rndf(network_of(reply, text)), 1,
                     room, RNDF_TABLES, out_len)


def write_mdf(rndf, mdf, room, out_len, edition=PRESENT):
    reply = read_pair(rndf, mdf, room, edition)
    return write_out(reply, lambda: house_mdf(mission_of(reply, mdf)), 2,
                     room, TABLES, out_len)


# ------------------------------------------------------------ the same yard

def same_yard(one, text, other, other_text):
    """L14: whether two accepted RNDFs "mean the same network apart from creation
    dates".  `one` and `other` are what the reader replied to the texts, in whatever
    edition: decided from their tables, each name by its bytes, and not from any
    writing."""
    return network_of(one, text).undated() == network_of(other, other_text).undated()


def same_mission(one, mdf, other, other_mdf):
    """"The same for missions": each was read with an RNDF of its own, of which a
    mission holds no more than the name."""
    return mission_of(one, mdf).undated() == mission_of(other, other_mdf).undated()


# ------------------------------------------------------------------ the map

def geojson(network):
    """L2: "Write an accepted network as one FeatureCollection: a LineString for
    each lane, a Polygon for each perimeter, a Point for each checkpoint, with
    identifiers and names as properties."  The bytes are those laid down by the
    team: no byte between tokens, none behind."""

    def position(row):
        # "Longitude stands first."
        latitude, longitude = network.points[row]
        return "[%s,%s]" % (write_coordinate(longitude), write_coordinate(latitude))

    def feature(shape, coordinates, kind, identifier, name=b"", number=None):
        properties = '"kind":"%s","id":"%s"' % (kind, identifier)
        if name:
            # "A quotation mark may occur in a name and is escaped."
            properties += ',"name":"%s"' % name.decode("latin-1").replace('"', '\\"')
        if number is not None:
            properties += ',"number":%d' % number
        return ('{"type":"Feature","geometry":{"type":"%s","coordinates":%s},"properties":{%s}}'
                % (shape, coordinates, properties))

    def line(first, points):
        # "A lane or perimeter of one point is a Point, a perimeter of two a
        # LineString."
        if points == 1:
            return "Point", position(first)
        return "LineString", "[%s]" % ",".join(position(first + p) for p in range(points))

    def ring(first, points):
        if points < 3:
            return line(first, points)
        # "so the order is reversed and the first position repeated"
        rows = list(range(first + points - 1, first - 1, -1))
        return "Polygon", "[[%s]]" % ",".join(position(row) for row in rows + rows[:1])

    features = []
    for s, (first_lane, lanes, name) in enumerate(network.segments, 1):
        for l in range(1, lanes + 1):
            shape = line(*network.lanes[first_lane + l - 1][:2])
            features.append(feature(*shape, "lane", "%d.%d" % (s, l), name))
    for z, (first, points, _, _, name) in enumerate(network.zones, len(network.segments) + 1):
        features.append(feature(*ring(first, points), "perimeter", "%d.0" % z, name))
    called = point_ids(network)
    for number, point in network.checkpoints:
        features.append(feature("Point", position(point), "checkpoint", called[point], number=number))
    return ('{"type":"FeatureCollection","features":[%s]}' % ",".join(features)).encode("latin-1")


def write_map(text, room, out_len, edition=PRESENT):
    # "19, with its zeros, where this or a later request's output is over
    # 16,777,215 bytes or longer than the lent one."
    reply = read_rndf(text, room, edition)
    return write_out(reply, lambda: geojson(network_of(reply, text)), 1,
                     room, RNDF_TABLES, out_len)


# ---------------------------------------------------------- the packed form

# L11: "The team fixes the fields of each record in docs/."  docs/PACKED.md: the
# words of a table's row in so many bytes, a name in place of its start and length.
# L12: "The packed form's version byte becomes 2"
PACKED_VERSION = 2
PACKED_FIELDS = {
    "segments": (4, 2, "name"), "lanes": (4, 2, 2, 1, 1),
    "zones": (4, 2, 4, 2, "name"), "spots": (4, 2), "points": (4, 4),
    "checkpoints": (2, 4), "stops": (4,), "exits": (4, 4),
}
# "rows of segments 4, of lanes 4, .. of exits 4; name; format version"; L12: no
# creation date
PACKED_FILE = (4,) * len(RNDF_TABLES) + ("name",) * 2


def pack(network):
    """L11: "a version byte, 1, at the front" (L12: 2); "then the length of all
    that follows in four bytes, big-endian; then records in table order, each with its
    length first in two bytes, big-endian, names included."""
    def record(row, fields):
        out = []
        for value, size in zip(row, fields):
            if size == "name":
                # "A name is its length in two bytes and then its bytes. A missing
                # name has the length 0 and no bytes."
                out.append(len(value).to_bytes(2, "big") + value)
            else:
                # "A coordinate below 0 is told as so much less than 2 to the 32nd"
                out.append(value.to_bytes(size, "big", signed=value < 0))
        whole = b"".join(out)
        return len(whole).to_bytes(2, "big") + whole

    file_row = [len(getattr(network, table)) for table in RNDF_TABLES]
    file_row += [network.name, network.version]
    records = [record(file_row, PACKED_FILE)]
    for table in RNDF_TABLES:
        for row in getattr(network, table):
            records.append(record(row, PACKED_FIELDS[table]))
    rest = b"".join(records)
    return bytes([PACKED_VERSION]) + len(rest).to_bytes(4, "big") + rest


def write_packed(text, room, out_len, edition=PRESENT):
    """"Pack an accepted network": read first, refused as the reader does, 19 last."""
    reply = read_rndf(text, room, edition)
    return write_out(reply, lambda: pack(network_of(reply, text)), 1,
                     room, RNDF_TABLES, out_len)


def unpack(data, room):
    """L11: "unpacking gives the network back, and bytes that are not some
    network's packed form are refused. Names then lie in the packed bytes."""
    reply = Reply()
    try:
        # "Refusals, in order: 1 over 16,777,215 bytes"
        if len(data) > LARGEST_TEXT:
            raise Refused(1, 0, 1)
        # "27 version not 1 or no bytes"; L12: "bytes of version 1 give 27 from then
        # on"
        if len(data) == 0 or data[0] != PACKED_VERSION:
            raise Refused(0, 0, 27)
        records = records_in(data)          # 28
        # "29 records that are not the packed form of a network by 01 and L8, text
        # size apart".  Some network packs to these bytes exactly if the RNDF
        # written of their rows is a network's and that network packs to them.
        taken = rows_in_records(data, records)
        if taken is None:
            raise Refused(0, 0, 29)
        network, names = taken
        again = network_of_text(text_of_rows(network))
        if again is None or pack(again) != data:
            raise Refused(0, 0, 29)
        # "then 11"
        for table in RNDF_TABLES:
            if rows_in(room[table], table) < len(getattr(network, table)):
                raise Refused(1, 0, 11)
        # "A name is its start and length": here in the packed bytes
        rows = {table: getattr(network, table) for table in RNDF_TABLES}
        for table in ("segments", "zones"):
            rows[table] = [row[:-1] + name for row, name in zip(rows[table], names[table])]
        accept(reply, rows, room)
        # L12: "Unpacking gives the network back but for the date."
        reply.file = names["file"] + MISSING_NAME
    except Refused as refused:
        refuse(reply, refused, room, RNDF_TABLES)
    return reply


def records_in(data):
    """The records as (where their fields begin, where they end), or "28 the first
    length is cut short or not the count of bytes behind it, or a record runs past
    the end"."""
    if len(data) < 5 or int.from_bytes(data[1:5], "big") != len(data) - 5:
        raise Refused(0, 0, 28)
    records = []
    at = 5
    while at < len(data):
        begin = at + 2
        at = begin + int.from_bytes(data[at:begin], "big")
        if begin > len(data) or at > len(data):
            raise Refused(0, 0, 28)
        records.append((begin, at))
    return records


def rows_in_records(data, records):
    """The rows that the records hold, as a Network whatever they say, and the
    places of their names; None where the records are not as many as the first one
    counts, or the fields of one don't fill it."""
    def fields_of(record, fields):
        """The row of a record, and its names as start, length."""
        at, end = record
        row, names = [], []
        for size in fields:
            if size == "name":
                length = int.from_bytes(data[at:at + 2], "big")
                at += 2
                row.append(data[at:at + length])
                names += [at, length] if length else MISSING_NAME
                at += length
            else:
                row.append(int.from_bytes(data[at:at + size], "big"))
                at += size
        return (tuple(row), tuple(names)) if at == end else None

    taken = fields_of(records[0], PACKED_FILE) if records else None
    if taken is None:
        return None
    (*counts, name, version), file_names = taken
    if 1 + sum(counts) != len(records):
        return None
    rows, names = {}, {"file": file_names}
    left = iter(records[1:])
    for table, count in zip(RNDF_TABLES, counts):
        rows[table], names[table] = [], []
        for _ in range(count):
            taken = fields_of(next(left), PACKED_FIELDS[table])
            if taken is None:
                return None
            rows[table].append(taken[0])
            names[table].append(taken[1])
    # two's complement
    rows["points"] = [tuple(n - (1 << 32) if n >= 1 << 31 else n for n in row)
                      for row in rows["points"]]
    return Network(name, version, b"", **rows), names


def text_of_rows(rows):
    """The RNDF of rows, whatever they say; None where it can't be written, since a
    part counts rows that are not there or a mark's point is none.  Parts take their
    rows in turn, by counts alone: identifiers are places, and what the rows say of
    first lanes, points and spots is not looked at."""
    called = []         # the identifier of each point
    part_of = []        # the part that it stands in
    lanes, spots = iter(rows.lanes), iter(rows.spots)

    def enough(count):
        return len(called) + count <= len(rows.points)

    def take(part, count):
        part_of.extend([part] * count)
        called.extend("%s.%d" % (part, p) for p in range(1, count + 1))

    parts = []          # for each segment and zone: what stands in it, with its row
    for s, (_, count, _) in enumerate(rows.segments, 1):
        parts.append([])
        for l in range(1, count + 1):
            lane = next(lanes, None)
            if lane is None or not enough(lane[1]):
                return None
            parts[-1].append(("%d.%d" % (s, l), len(called), lane))
            take("%d.%d" % (s, l), lane[1])
    for z, (_, points, _, count, _) in enumerate(rows.zones, len(rows.segments) + 1):
        if not enough(points):
            return None
        parts.append([("%d.0" % z, len(called), None)])
        take("%d.0" % z, points)
        for s in range(1, count + 1):
            spot = next(spots, None)
            if spot is None or not enough(2):
                return None
            parts[-1].append(("%d.%d" % (z, s), len(called), spot))
            take("%d.%d" % (z, s), 2)

    marks = {}          # for each part its lines, in the order of rows
    for number, point in rows.checkpoints:
        if point >= len(called):
            return None
        marks.setdefault(part_of[point], []).append((b"checkpoint", called[point], number))
    for point, in rows.stops:
        if point >= len(called):
            return None
        marks.setdefault(part_of[point], []).append((b"stop", called[point]))
    for point, entry in rows.exits:
        if point >= len(called) or entry >= len(called):
            return None
        marks.setdefault(part_of[point], []).append((b"exit", called[point], called[entry]))

    out = []

    def put(*fields):
        out.append(TAB.join(f if isinstance(f, bytes) else str(f).encode()
                            for f in fields) + b"\n")

    def put_option(keyword, value, missing):
        if value != missing:
            put(keyword, value)

    def put_boundary(keyword, side):
        if side:
            put(keyword, BOUNDARIES[side] if side < len(BOUNDARIES) else side)

    def put_marks_and_points(part, first, count):
        for mark in marks.get(part, []):
            put(*mark)
        for p in range(first, first + count):
            put(called[p], *map(write_coordinate, rows.points[p]))

    put(b"RNDF_name", rows.name)
    put(b"num_segments", len(rows.segments))
    put(b"num_zones", len(rows.zones))
    put_option(b"format_version", rows.version, b"")
    for s, (_, count, name) in enumerate(rows.segments, 1):
        put(b"segment", s)
        put(b"num_lanes", count)
        put_option(b"segment_name", name, b"")
        for part, first, (_, points, width, left, right) in parts[s - 1]:
            put(b"lane", part)
            put(b"num_waypoints", points)
            put_option(b"lane_width", width, MISSING_WIDTH)
            put_boundary(b"left_boundary", left)
            put_boundary(b"right_boundary", right)
            put_marks_and_points(part, first, points)
            put(b"end_lane")
        put(b"end_segment")
    for z, (_, points, _, count, name) in enumerate(rows.zones, len(rows.segments) + 1):
        put(b"zone", z)
        put(b"num_spots", count)
        put_option(b"zone_name", name, b"")
        for part, first, spot in parts[z - 1]:
            if spot is None:
                put(b"perimeter", part)
                put(b"num_perimeterpoints", points)
                put_marks_and_points(part, first, points)
                put(b"end_perimeter")
            else:
                put(b"spot", part)
                put_option(b"spot_width", spot[1], MISSING_WIDTH)
                put_marks_and_points(part, first, 2)
                put(b"end_spot")
        put(b"end_zone")
    put(b"end_file")
    return b"".join(out)


def network_of_text(text):
    """The network that a text of any size spells in the present edition, or None."""
    if text is None:
        return None
    try:
        form, rows = judge_rndf_of_any_size(
            text, {t: STRIDE[t] * len(text) for t in RNDF_TABLES}, PRESENT)
    except Refused:
        return None

    def named(rows):
        return [tuple(row[:-2]) + (name_of(text, *row[-2:]),) for row in rows]
    rows = {t: named(rows[t]) if t in ("segments", "zones") else [tuple(row) for row in rows[t]]
            for t in RNDF_TABLES}
    return Network(name_of(text, *form.name), name_of(text, *form.version),
                   name_of(text, *form.date), **rows)


# ------------------------------------------------------------------- routes

def is_move(network, a, b):
    """L5: "A move goes from a waypoint to the next in its lane; along an exit;
    or, in one zone, between any two different points among perimeter and
    spots."  a and b are rows of the point table; any other number has no move."""
    for first, points, *_ in network.lanes:
        if first <= a and b == a + 1 < first + points:
            return True
    for exit_point, entry in network.exits:
        if (exit_point, entry) == (a, b):
            return True
    for first, points, _, spots, _ in network.zones:
        # the spots' points stand behind their perimeter's
        zone = range(first, first + points + 2 * spots)
        if a in zone and b in zone and a != b:
            return True
    return False


def check_route(network, mission, start, route):
    """L5: None for a good route, else (file 0, place or goal's row, number,
    column 0)."""
    # "21 empty or not beginning at a declared start"
    if not route or start >= len(network.points) or route[0] != start:
        return 0, 0, 21, 0
    # "22 a step that is no move (the first)"; "the place in the route that the
    # step leads to .., from 0"
    for place in range(1, len(route)):
        if not is_move(network, route[place - 1], route[place]):
            return 0, place, 22, 0
    # "23 a goal not met in order (the first, each goal taken at the earliest
    # place)"; "each at a strictly later place than the one before"; "The start
    # itself may meet the first goal."
    points = dict(network.checkpoints)
    place = 0                           # the first place that is still free
    for row, (number,) in enumerate(mission.goals):
        while place < len(route) and route[place] != points[number]:
            place += 1
        if place == len(route):
            return 0, row, 23, 0
        place += 1
    # "24 wrong end": "it ends at the last goal's point"
    if route[-1] != points[mission.goals[-1][0]]:
        return 0, 0, 24, 0
    return None


def drive(rndf, mdf, room, start, route, edition=PRESENT):
    """The checker "over an accepted pair": the texts are read first and refused
    as the reader does; a refusal leaves every lent table zero."""
    reply = read_pair(rndf, mdf, room, edition)
    if reply.accepted:
        fault = check_route(network_of(reply, rndf), mission_of(reply, mdf), start, route)
        if fault is not None:
            refuse(reply, Refused(*fault), room, TABLES)
    return reply


# ---------------------------------------------------------------- missions

def moves_from(network, a):
    """The points to which one move leads from the point a (L5)."""
    found = []
    # "A move goes from a waypoint to the next in its lane;"
    for first, points, *_ in network.lanes:
        if first <= a and a + 1 < first + points:
            found.append(a + 1)
    # "along an exit;"
    for exit_point, entry in network.exits:
        if exit_point == a:
            found.append(entry)
    # "or, in one zone, between any two different points among perimeter and
    # spots."
    for first, points, _, spots, _ in network.zones:
        zone = range(first, first + points + 2 * spots)
        if a in zone:
            found += [b for b in zone if b != a]
    return found


def led_to(network, begin):
    """The points to which no move or more lead from some point of begin."""
    found, due = set(), list(begin)
    while due:
        a = due.pop(0)
        if a not in found:
            found.add(a)
            due += moves_from(network, a)
    return found


def check_mission(network, mission, start, rows):
    """L13: None where the mission can be driven, else (file 0, 0 or the goal's
    row, number, column 0).  rows: those of the lent work space."""
    # "Work space is lent, one row a point"; "11 (file 0) for the work space"
    if rows < len(network.points):
        return 0, 0, 11, 0
    # "30 start is no declared point"
    if start >= len(network.points):
        return 0, 0, 30, 0
    points = dict(network.checkpoints)
    before = None                       # the point of the goal before
    for row, (number,) in enumerate(mission.goals):
        if row == 0:
            # "the first goal must be reachable from the start by no move or
            # more,"
            near = led_to(network, [start])
        else:
            # "each later goal from the one before by one move or more"
            near = led_to(network, moves_from(network, before))
        # "refused with the first goal that has none"; "31 a goal that can't be
        # reached, its row in place of the line"
        if points[number] not in near:
            return 0, row, 31, 0
        before = points[number]
    return None


def can_drive(rndf, mdf, room, start, rows, edition=PRESENT):
    """Over a pair: the texts are read first and refused as the reader does; a
    refusal leaves every lent table zero.  rows: those of the work space, which
    "is zero afterwards either way"."""
    reply = read_pair(rndf, mdf, room, edition)
    if reply.accepted:
        fault = check_mission(network_of(reply, rndf), mission_of(reply, mdf), start, rows)
        if fault is not None:
            refuse(reply, Refused(*fault), room, TABLES)
    return reply


# ----------------------------------------------------------------- summary

SUMMARY_LARGEST = 8192              # "each up to 8,192 bytes"
# "with 256 point rows and 128 of every other table"
SUMMARY_ROOM = {t: STRIDE[t] * (256 if t == "points" else 128) for t in TABLES}


def summary(network, mission):
    """The line printed for the bytes of `network.rndf` and `mission.mdf`
    (None: can't be opened), without the line's end."""
    # R15: both files are loaded before either is judged.
    for loaded in (network, mission):
        if loaded is None:
            return "no file"
        if len(loaded) > SUMMARY_LARGEST:
            return "file too big"
    return read_pair(network, mission, SUMMARY_ROOM).head()
