"""The judge of 'what may stand here' (issue 38): are these words true of this refusal?

    judge(edition, rndf, mdf, (file, line, number, column), words)

Written from document 01, requests L1, L7, L8 and L10, the readings (R1 ..) and the 25 worked
sentences alone, without a look at what tells the words.  It makes no sentence of its own to
compare with.  It takes the words apart into what they list, puts that and much else in place of
the line or field at fault, and asks the oracle's reader, each time, whether it is taken there.
What the words list must be taken; what they don't list must be refused.

A line is judged by the lines before it and itself, so the text is cut behind it; what is left of
the text before is written with one tab between fields, without comments and blank lines, since
these "may stand anywhere".  L is the line's number in that text.

What 'taken' and 'refused' mean, by number:

 5, 6, 25  Statement forms, in place of the line.  Taken: the cut text gives 10 at L + 1, or is a
       whole file.  Refused: 5, 6, 7, 8, 9 or 25 at L.  25 counts as refused ("It counts as
       form"), so a spot's first waypoint is not listed before its checkpoint was.  What only
       references find fault with (12, 13) is taken: "references are apart from it".  So ENTRY is
       any x.y.z in range, and a checkpoint's NUMBER may be one that was declared before.
       Behind `end_file` nothing is listed: every line with fields must be refused, and blank
       lines and comments taken.
10     The same, with the line put at the text's end.
 7     The form of the statement that the line makes, and how many fields that has.  In place of
       the whole line.  Taken: no 2 to 9 at L; 25 is let pass, as 7 comes before it and is told
       of the line alone.  Only lines of that statement are tried (another statement may well
       stand there and is not what is told): refused means 7, 8 or 9 at L.
 8, 9  The field at fault, which the column gives.  Fields behind it are made good first, as a
       later 8 or 9 would hide its own; taken: no 2 to 9 at L, 25 let pass; refused: 8 or 9 at
       L in that field's column.  Fields before it stay if they are permitted, so a maximum's
       range begins at its minimum.  With 8 one of them may not be (9 comes only behind every 8):
       then nothing makes the line good, the field is told by itself, and all others are made
       good (a maximum's range is then 0 to 32768).  Where the first field is at fault only fields that
       begin with a digit are tried, since any other makes another statement.
12     Entries, put in the field, and the whole RNDF read.  Taken: nothing at this line (a later
       line may well give 12 or 13).  Refused: 12, or 8 or 9 by form, at this line and column.
       The list is held to the one made from the declared parts: lanes, and from a lane
       perimeters too, in file order, six of them and how many more.
13     Numbers, likewise.  Those declared by a line before give 13; one that only a later line
       declares is taken here (that line gets the 13).  Refused: 13, or 8 or 9 by form.
14     The RNDF's name.  Refused: 14 at this line, or 8 where it is too long.
15     Goals, with the whole pair read.  Refused: 15, or 8 or 9.  The list is the RNDF's checkpoint
       numbers in file order.  'Nothing' exactly where there are none.
16, 17 Ids, likewise.  An id that may stand has neither fault.  Refused: 16, 17, 8 or 9.  The list
       is those without a limit in a line before, rising.  'Nothing' exactly where all have one.
18     Not what may stand, but what is missing.  With a limit more for each id listed, 18 is gone;
       with all but one of them it stays; any other id's limit gives 16 or 17.
1 to 4, 11, 19 and what has no line: nothing is told.

'(N such lines are still owed)' stands exactly where one form alone is listed and it begins with
a digit.  N such lines are taken, the one behind them gets 5, and with fewer no end word is taken.

Capitals are held to document 01: see `kind_of`.  At least 50 lines or fields that are not listed
are tried for each sentence, but where the text is so long that reading it costs too much: then
some of them (`Verdict.sparse`).
"""

import functools
import re

import oracle

MAY_STAND = "may stand here: "
WITHOUT = "without a limit: "
ENDED = "nothing but blank lines and comments, for the file has ended"
NO_ROW_SHORT = dict.fromkeys(oracle.TABLES, 1 << 40)
LARGEST = oracle.LARGEST_INTEGER
CUT_AFTER = 6
LEAST_OTHERS = 50
TELL_NOTHING = (1, 2, 3, 4, 11, 19)
MOST_BYTES_READ = 4_000_000         # in all, for one sentence: beyond this only some lines are tried


class Misworded(Exception):
    """The words can't be taken apart."""


# ------------------------------------------------------------ kinds of fields

INTEGER = re.compile(rb"0|[1-9][0-9]{0,4}")
DEGREES = re.compile(rb"(-?)(0|[1-9][0-9]{0,2})\.([0-9]{6})")


def integer(field):
    """Its value, or None where it is not spelled as an integer."""
    return int(field) if INTEGER.fullmatch(field) else None


def identifier(field, parts):
    values = [integer(part) for part in field.split(b".")]
    return None if len(values) != parts or None in values else tuple(values)


def dotted(values):
    return b".".join(b"%d" % value for value in values)


def degrees(value):
    return b"%s%d.%06d" % (b"-" if value < 0 else b"", abs(value) // 1_000_000, abs(value) % 1_000_000)


class Numbers:
    """Integers from low to high."""

    def __init__(self, low, high):
        self.low, self.high = low, high

    def has(self, field, before=()):
        value = integer(field)
        return value is not None and self.low <= value <= self.high

    def ends(self):
        inside = {self.low, self.low + 1, (self.low + self.high) // 2, self.high - 1, self.high}
        return [b"%d" % n for n in sorted(inside) if self.low <= n <= self.high]

    def off(self):
        return [b"%d" % n for n in (self.low - 1, self.high + 1) if n >= 0] + [b"0", b"32769", b"100000", b"0%d" % self.high, b"-1", b"x"]


class Maximum(Numbers):
    """A limit's maximum: 0, or not below its minimum (L1)."""

    def __init__(self):
        super().__init__(0, LARGEST)

    def has(self, field, before=()):
        minimum = integer(before[-1]) if before else 0
        return super().has(field) and (int(field) == 0 or minimum is None or minimum <= int(field))


class Points:
    """The identifiers prefix.low to prefix.high."""

    def __init__(self, prefix, low, high):
        self.prefix, self.low, self.high = tuple(prefix), low, high

    def has(self, field, before=()):
        value = identifier(field, len(self.prefix) + 1)
        return value is not None and value[:-1] == self.prefix and self.low <= value[-1] <= self.high

    def ends(self):
        inside = sorted({self.low, (self.low + self.high) // 2, self.high})
        return [dotted((*self.prefix, n)) for n in inside if self.low <= n <= self.high]

    def off(self):
        out = [dotted((*self.prefix, n)) for n in (self.low - 1, self.high + 1) if n >= 0]
        return out + neighbours(dotted((*self.prefix, self.low)))


class Entries:
    """x.y.z with a range for each."""

    def __init__(self, *ranges):
        self.ranges = ranges

    def has(self, field, before=()):
        value = identifier(field, 3)
        return value is not None and all(low <= n <= high for n, (low, high) in zip(value, self.ranges))

    def each(self, choices):
        """With every choice for each part, the other parts in range."""
        low, high = ([r[i] for r in self.ranges] for i in (0, 1))
        out = [dotted(low), dotted(high)]
        for k in range(3):
            for n in choices(*self.ranges[k]):
                for rest in (low, high):
                    if n >= 0:
                        out.append(dotted((*rest[:k], n, *rest[k + 1:])))
        return out

    def ends(self):
        return self.each(lambda low, high: [n for n in {low, low + 1, high - 1, high} if low <= n <= high])

    def off(self):
        return self.each(lambda low, high: [low - 1, high + 1])[2:] + neighbours(dotted(r[0] for r in self.ranges))


class Degrees:
    """A coordinate from low to high, in millionths."""

    def __init__(self, low, high):
        self.low, self.high = low, high

    def has(self, field, before=()):
        found = DEGREES.fullmatch(field)
        if not found:
            return False
        value = int(found[2]) * 1_000_000 + int(found[3])
        return self.low <= (-value if found[1] else value) <= self.high

    def ends(self):
        inside = [self.low, self.low + 1, -500_000, 0, 1_234_567, self.high - 1, self.high]
        return [degrees(n) for n in inside if self.low <= n <= self.high] + [b"-0.000000"] * (self.low <= 0 <= self.high)

    def off(self):
        return [degrees(self.low - 1), degrees(self.high + 1), b"1.00000", b"1.0000000", b"01.000000", b"1", b"200.000000", b"-200.000000", b"+1.000000"]


class Names:
    """Names of so many bytes."""

    def __init__(self, low, high):
        self.low, self.high = low, high

    def has(self, field, before=()):
        return self.low <= len(field) <= self.high

    def ends(self):
        return [b"n" * n for n in sorted({self.low, self.low + 1, (self.low + self.high) // 2, self.high - 1, self.high}) if self.low <= n <= self.high]

    def off(self):
        return [b"n" * n for n in (self.low - 1, self.high + 1, self.high + 2, 300) if n > 0]


class Words:
    """One of these, byte for byte."""

    def __init__(self, *words):
        self.words = words

    def has(self, field, before=()):
        return field in self.words

    def ends(self):
        return list(self.words)

    def off(self):
        return [near for word in self.words for near in neighbours(word)]


def neighbours(word):
    """What is not quite this identifier, number or word."""
    out = [word + b"x", b"x" + word, word + b".1", word.upper() + b"_", b"0" + word]
    parts = word.split(b".")
    if all(INTEGER.fullmatch(part) for part in parts):
        for k, part in enumerate(parts):
            for n in (int(part) - 1, int(part) + 1, 0, LARGEST + 1, 100000):
                if n >= 0:
                    out.append(b".".join([*parts[:k], b"%d" % n, *parts[k + 1:]]))
        out += [b".".join(parts[:-1])] * (len(parts) > 1)
    else:
        out += [word[:-1] or b"x", word.capitalize() + b"x"]
    return [near for near in out if near != word]


# ------------------------------------------------------------ the place

class Place:
    """What the lines before say; all of them are good.  Used only to find out what POINT, ENTRY
    and NUMBER stand for and to make up likely lines: whether one is taken the reader says."""

    def __init__(self, file, edition, lines):
        self.file, self.older = file, edition == oracle.DECEMBER_2006
        self.segments = 0           # as num_segments says
        self.id = self.lane = self.spot = 0     # opened last
        self.sort = None            # of the part opened last: lane, perimeter, spot, goals, limits
        self.part, self.points, self.met = (1, 1), 1, 0
        for fields in lines:
            self.pass_over(fields)

    def pass_over(self, fields):
        word = fields[0]
        if word[:1].isdigit():
            self.met += 1
        elif word == b"num_segments":
            self.segments = int(fields[1])
        elif word in (b"segment", b"zone"):
            self.id, self.lane, self.spot = int(fields[1]), 0, 0
        elif word in (b"lane", b"perimeter", b"spot"):
            self.sort, self.part, self.met = word.decode(), identifier(fields[1], 2), 0
            self.points = 2
            if word == b"lane":
                self.lane = self.part[1]
            if word == b"spot":
                self.spot = self.part[1]
        elif word in (b"num_waypoints", b"num_perimeterpoints"):
            self.points = int(fields[1])
        elif word in (b"num_checkpoints", b"num_speed_limits"):
            self.sort, self.met = {b"num_checkpoints": "goals"}.get(word, "limits"), 0
            self.points = int(fields[1])

    def statements(self):
        """A form for each statement of this file, with the identifiers that may be due."""
        return [tuple(form.split()) for form in (RNDF_FORMS if self.file == 1 else MDF_FORMS).format(
            segment=self.id + 1, zone=self.id + 1, lane="%d.%d" % (self.id, self.lane + 1),
            perimeter="%d.0" % self.id, spot="%d.%d" % (self.id, self.spot + 1),
            point="%d.%d.%d" % (*self.part, self.met + 1),
            marked="%d.%d.2" % self.part if self.sort == "spot" else "POINT").splitlines()]

    def statement(self, word):
        """The form of the statement that begins with this field; a digit line's by the place."""
        def begins(form):
            if not word[:1].isdigit():
                return form[0].encode() == word
            if self.file == 1:
                return form[0][0].isdigit()
            return form[0] == {"goals": "NUMBER", "limits": "ID"}.get(self.sort)
        return next((form for form in self.statements() if begins(form)), None)


RNDF_FORMS = """\
RNDF_name NAME
num_segments NUMBER
num_zones NUMBER
format_version NAME
creation_date NAME
segment {segment}
num_lanes NUMBER
segment_name NAME
lane {lane}
num_waypoints NUMBER
lane_width NUMBER
left_boundary BOUNDARY
right_boundary BOUNDARY
checkpoint {marked} NUMBER
stop POINT
exit POINT ENTRY
{point} LATITUDE LONGITUDE
end_lane
end_segment
zone {zone}
num_spots NUMBER
zone_name NAME
perimeter {perimeter}
num_perimeterpoints NUMBER
end_perimeter
spot {spot}
spot_width NUMBER
end_spot
end_zone
end_file"""

MDF_FORMS = """\
MDF_name NAME
RNDF NAME
format_version NAME
creation_date NAME
checkpoints
num_checkpoints NUMBER
NUMBER
end_checkpoints
speed_limits
num_speed_limits NUMBER
ID MINIMUM MAXIMUM
end_speed_limits
end_file"""

# in the order of document 01's list of statements; of a spot the checkpoint, which it must have, comes first
OPTIONS = ["format_version", "creation_date", "segment_name", "lane_width", "left_boundary", "right_boundary",
           "checkpoint", "stop", "exit", "zone_name", "spot_width"]
END_WORDS = {1: [b"end_lane", b"end_perimeter", b"end_spot", b"end_segment", b"end_zone", b"end_file"],
             2: [b"end_checkpoints", b"end_speed_limits", b"end_file"]}
CAPITALS = ("NAME", "NUMBER", "POINT", "ENTRY", "LATITUDE", "LONGITUDE", "BOUNDARY", "ID", "MINIMUM", "MAXIMUM")


def kind_of(form, k, place):
    """What may stand for the k-th field of a form, by document 01."""
    token = form[k]
    if token not in CAPITALS:
        return Words(token.encode())
    if token == "NAME":
        return Names(1, 128)                            # "Name: 1 to 128 bytes."
    if token == "NUMBER":
        if k == 0:
            return Numbers(1, LARGEST)                  # a goal: "so many numbers > 0"
        return Numbers({"num_zones": 0, "lane_width": 0, "num_spots": int(place.older)}.get(form[0], 1),
                       # R10: "M + N over 32,768 gives 9 at `num_zones`"
                       LARGEST - place.segments if form[0] == "num_zones" else LARGEST)
    if token == "POINT":                                # "is one of this lane"
        return Points(place.part, 1, place.points)
    if token == "ENTRY":
        # "x.y.z with x, z > 0"; of a perimeter "with all three > 0"
        return Entries((1, LARGEST), (int(place.sort == "perimeter"), LARGEST), (1, LARGEST))
    if token in ("LATITUDE", "LONGITUDE"):
        most = {"LATITUDE": 90_000_000, "LONGITUDE": 180_000_000}[token]
        return Degrees(-most, most)
    if token == "BOUNDARY":
        # L10: "`solid_yellow` was not yet a boundary"
        return Words(*(word for word in oracle.BOUNDARIES[1:] if not (place.older and word == b"solid_yellow")))
    if token == "MAXIMUM":
        return Maximum()
    return Numbers(int(token == "ID"), LARGEST)         # "id > 0, minimum, maximum"


def kinds_of(form, place):
    return [kind_of(form, k, place) for k in range(len(form))]


def is_instance(form, fields, place):
    return len(form) == len(fields) and all(kind.has(field, fields[:k]) for k, (kind, field) in enumerate(zip(kinds_of(form, place), fields)))


def good_fields(form, place):
    """A line of this form; a maximum of 0 is good behind any minimum."""
    return [kind.ends()[0] for kind in kinds_of(form, place)]


def spread(form, place, of_kind):
    """Lines of this form in which one field is each of what `of_kind` gives for its kind."""
    good = good_fields(form, place)
    return [(*good[:k], value, *good[k + 1:]) for k, kind in enumerate(kinds_of(form, place)) for value in of_kind(kind)]


def speeds():
    """Minimum and maximum, on both sides of what is permitted."""
    return [(b"5", b"5"), (b"5", b"4"), (b"5", b"6"), (b"5", b"0"), (b"1", b"0"), (b"32768", b"32767"), (b"32768", b"32768"), (b"32768", b"0"), (b"0", b"1")]


def wrong_counts(fields):
    """The same with a field less or more."""
    fields = list(fields)
    out = [fields + [b"1"], fields + [b"1", b"1"], fields + fields[1:] + [b"x"]]
    return [tuple(line) for line in out + ([fields[:-1]] if len(fields) > 1 else []) + ([fields[:1]] if len(fields) > 2 else [])]


NO_STATEMENTS = [(b"x",), (b"#",), (b"//",), (b"-1",), (b"0",), (b"7",), (b"7", b"7"), (b"1", b"0", b"15"), (b"1.1",), (b"0.1.1", b"0.000000", b"0.000000"), (b"9x",), (b"end",), (b"End_file",), (b"endfile",),
                 (b"checkpoint",), (b"lane",), (b"segment",), (b"exit", b"1.1.1"), (b"segments", b"1"), (b"num_", b"1"), (b"waypoint", b"1.1.1"), (b".1",), (b"LATITUDE",), (b"NUMBER",), (b"may", b"stand", b"here:")]


# ------------------------------------------------------------ words taken apart

def taken_apart(words, number):
    """What stands behind the line's first words."""
    lead = WITHOUT if number == 18 else MAY_STAND
    if not words.startswith(lead):
        raise Misworded("does not begin with %r" % lead)
    return words[len(lead):]


def forms_in(told):
    """(forms, how many are still owed or None)."""
    found = re.fullmatch(r"(.*) \((1 such line is|[1-9][0-9]* such lines are) still owed\)", told)
    owed = None
    if found:
        owed = int(found[2].split()[0])
        if owed == 1 and "lines" in found[2]:
            raise Misworded("1 such lines")
        told = found[1]
    forms = [tuple(item.split(" ")) for item in told.split(", ")]
    for form in forms:
        if not all(token in CAPITALS or re.fullmatch(r"[A-Za-z_]+|[0-9.]+", token) for token in form):
            raise Misworded("no statement: %s" % " ".join(form))
    return forms, owed


def form_with_count(told):
    found = re.fullmatch(r"(.*) \((1 field|[1-9][0-9]* fields)\)", told)
    if not found or found[2] == "1 fields":
        raise Misworded("no count of fields")
    forms, _ = forms_in(found[1])
    if len(forms) != 1:
        raise Misworded("not one statement")
    return forms[0], int(found[2].split()[0])


IDENTIFIER = r"[0-9]+(?:\.[0-9]+)*"


def run_of(words):
    """`1.1.1 to 1.1.3`, or one identifier."""
    found = re.fullmatch(r"(%s)(?: to (%s))?" % (IDENTIFIER, IDENTIFIER), words)
    first, last = (identifier(found[k].encode(), 1 + found[k].count(".")) if found and found[k] else None for k in (1, 2))
    if first is None or found[2] and (last is None or first[:-1] != last[:-1] or not first[-1] < last[-1]):
        raise Misworded("no run of identifiers: %s" % words)
    return first[:-1], first[-1], (last or first)[-1]


def field_in(told, maximum):
    """The kinds that a field by itself is told to be of; of a limit's maximum also `0, or a number from 10 to 32768`: behind the minimum 0 the two overlap."""
    coordinate = r"(-?[0-9]{1,3}\.[0-9]{6})"
    found = re.fullmatch(r"a (latitude|longitude) from %s to %s, six digits behind the point" % (coordinate, coordinate), told)
    if found:
        return [Degrees(*(int(end.replace(".", "")) for end in found.groups()[1:]))], found[1]
    found = re.fullmatch(r"a name of ([0-9]+) to ([0-9]+) bytes", told)
    if found:
        if int(found[1]) < 1:
            raise Misworded("a name of no bytes")
        return [Names(*map(int, found.groups()))], None
    found = re.fullmatch(r"X\.Y\.Z with X from (\d+) to (\d+), Y from (\d+) to (\d+), Z from (\d+) to (\d+)", told)
    if found:
        n = [int(x) for x in found.groups()]
        return [Entries((n[0], n[1]), (n[2], n[3]), (n[4], n[5]))], None
    kinds, items = [], re.split(r", or |, ", told)
    for item in items:
        found = re.fullmatch(r"a number from ([0-9]+) to ([0-9]+)", item)
        if found and int(found[1]) <= int(found[2]):
            kinds.append(Numbers(*map(int, found.groups())))
        elif re.fullmatch(r"[a-z]+_[a-z]+", item):
            kinds.append(Words(item.encode()))
        else:
            kinds.append(Points(*run_of(item)))
    maximum = maximum and len(items) == 2 and items[0] == "0"
    if len(items) > 1 and told != (", or " if maximum else ", ").join(items):
        raise Misworded("no list of alternatives")
    if not maximum and any(one.has(end) for i, one in enumerate(kinds) for j, other in enumerate(kinds) if i != j for end in other.ends()):
        raise Misworded("listed twice")
    words = [word for kind in kinds if isinstance(kind, Words) for word in kind.words]
    if words != [word for word in oracle.BOUNDARIES if word in words]:
        raise Misworded("boundaries in another order than document 01's")
    return kinds, None


def cut_list(told, more):
    """(items, how many more) of a list that is cut after six."""
    found = re.fullmatch(r"(.*?)(?: and ([1-9][0-9]*) %s)?" % more, told)
    return found[1].split(", "), int(found[2] or 0)


# ------------------------------------------------------------ the judge

class Enough(Exception):
    """Something differs, and no more was asked for."""


class Verdict:
    """What differs, and what was tried.  shape: the words with N for every number, to be read by eye.
    With `first` the first difference is enough."""

    def __init__(self, first=False):
        self.first = first
        self.differs = []
        self.items = self.others = self.owed = 0
        self.sparse = False
        self.shape = ""

    def differ(self, what):
        self.differs.append(what)
        if self.first:
            raise Enough


def fields_of(line):
    """The fields of a line without a fault of 2 to 4."""
    line = line[:-1] if line.endswith(b"\r") else line
    return line.split(b"/*")[0].replace(b"\t", b" ").split()


# What is read behind the same lines is kept, for other sentences and other texts that begin alike.
@functools.lru_cache(maxsize=64)
def known_behind(file, edition, head):
    return {}


class Text:
    """One text, cut at a line: what is put there is read behind the lines before it."""

    def __init__(self, file, edition, text, line):
        self.file, self.edition = file, edition
        lines = text.split(b"\n")
        if lines[-1] == b"":
            lines.pop()
        self.before = [fields for fields in map(fields_of, lines[:line - 1]) if fields]
        self.head = b"".join(b"\t".join(fields) + b"\n" for fields in self.before)
        self.number = len(self.before) + 1
        self.raw = lines[line - 1] if line <= len(lines) else b""
        self.fields = fields_of(self.raw)
        self.place = Place(file, edition, self.before)
        self.known = known_behind(file, edition, self.head)

    def answers(self, *lines):
        """The reader's refusal of the text with these lines at its end, or None."""
        whole = self.head + b"".join(b"\t".join(fields) + b"\n" for fields in lines)
        try:
            if self.file == 1:
                oracle.form_of_rndf(whole, self.edition)
            else:
                oracle.form_of_mdf(whole)
        except oracle.Refused as refused:
            return refused.reply
        return None

    def at_line(self, fields):
        """The number and column that this line gets here, or (0, 0) where it is taken."""
        fields = tuple(fields)
        if fields not in self.known:
            reply = self.answers(fields)
            self.known[fields] = (0, 0) if reply is None or reply[1] != self.number else (reply[2], reply[3])
        return self.known[fields]


@functools.lru_cache(maxsize=4)
def whole_of(edition, rndf, mdf, refusal):
    return Whole(edition, rndf, mdf, refusal)


def judge(edition, rndf, mdf, refusal, words, first=False):
    """A Verdict on the words (bytes, or str) told of the refusal (file, line, number, column)."""
    verdict = Verdict(first)
    try:
        judge_words(verdict, edition, rndf, mdf, refusal, words)
    except Misworded as wrong:
        verdict.differs.append("words: %s" % wrong)
    except Enough:
        pass
    if not verdict.differs and words and not verdict.sparse and verdict.others < LEAST_OTHERS:
        verdict.differs.append("the judge tried only %d others" % verdict.others)
    return verdict


def judge_words(verdict, edition, rndf, mdf, refusal, words):
    words = words if isinstance(words, str) else words.decode("latin-1")
    file, line, number, column = refusal
    verdict.shape = re.sub(r"[0-9]+", "N", words) if number != 14 else ""
    if number in TELL_NOTHING or line == 0:
        if words:
            verdict.differ("something is told of %d" % number)
        return
    told = taken_apart(words, number)
    if not all(32 <= ord(byte) < 127 for byte in words) or words != words.strip():
        raise Misworded("bytes that are no words")
    if number in BY_FORM:
        BY_FORM[number](verdict, Text(file, edition, rndf if file == 1 else mdf, line), told, refusal)
    else:
        BY_REFERENCE[number](verdict, whole_of(edition, rndf, mdf, refusal), told)


def spared(verdict, candidates, size):
    """As many of the candidates as the text's size lets be read, from all over the list."""
    most = max(8, MOST_BYTES_READ // (size + 1))
    candidates = list(dict.fromkeys(candidates))
    if len(candidates) <= most:
        return candidates
    verdict.sparse = True
    return [candidates[i * len(candidates) // most] for i in range(most)]


def try_lines(verdict, text, listed, lines, let_pass=(), by=(5, 6, 7, 8, 9, 25)):
    """Each line is taken exactly if it is listed; where not, it is refused by one of these numbers."""
    for fields in spared(verdict, map(tuple, lines), len(text.head)):
        number, _ = text.at_line(fields)
        taken = number == 0 or number in let_pass
        if listed(fields):
            verdict.items += 1
            if not taken:
                verdict.differ("listed, and gets %d: %s" % (number, shown(fields)))
        else:
            verdict.others += 1
            if taken:
                verdict.differ("taken, and not listed: %s" % shown(fields))
            elif number not in by:
                verdict.differ("gets %d, which is not to be: %s" % (number, shown(fields)))


def shown(fields):
    return b">".join(fields).decode("latin-1")[:80]


def judge_statements(verdict, text, told, refusal):
    place, number = text.place, refusal[2]
    if number != 10 and text.at_line(text.fields)[0] != number:
        raise Misworded("judge: the line gets %d here" % text.at_line(text.fields)[0])
    forms, owed = ([], None) if told == ENDED else forms_in(told)
    if told == ENDED:
        for blank in (b"", b"\t \t", b"/* end_file */", b" /**/ "):
            verdict.items += 1
            if text.answers([blank]) is not None:
                verdict.differ("a blank line is refused")
    if len(set(forms)) < len(forms):
        verdict.differ("listed twice")
    for form in forms:
        hold_capitals(verdict, place, form)
    ranks = [OPTIONS.index(form[0]) if form[0] in OPTIONS else -1 for form in forms]
    if ranks != sorted(ranks):
        verdict.differ("not the due statement first and then the options in their order")

    def listed(fields):
        return any(is_instance(form, fields, place) for form in forms)

    statements = place.statements()
    other_file = [tuple(form.split()) for form in (MDF_FORMS if text.file == 1 else RNDF_FORMS).splitlines()]
    lines = [line for form in forms for line in spread(form, place, lambda kind: kind.ends())]
    lines += [good_fields(form, place) for form in statements]
    # of what is listed or taken, everything near it too
    near = {form for form in statements if text.at_line(good_fields(form, place))[0] == 0} if len(text.head) < 40_000 else set()
    for form in sorted(near | {form for form in forms}):
        good = good_fields(form, place)
        lines += spread(form, place, lambda kind: kind.ends()) + spread(form, place, lambda kind: kind.off())
        lines += wrong_counts(good)
        if form[-1] == "MAXIMUM":
            lines += [(good[0], *pair) for pair in speeds()]
        if not good[0][:1].isdigit():
            lines += [(word, *good[1:]) for word in neighbours(good[0])]
    lines += [tuple(token.encode() for token in form) for form in other_file]
    lines += NO_STATEMENTS
    lines.append(tuple(text.fields) or (b"x",))
    try_lines(verdict, text, listed, [line for line in lines if all(line)])
    digit = [form for form in forms if form[0] in ("NUMBER", "ID") or form[0][0].isdigit()]
    if (owed is not None) != (len(forms) == 1 and bool(digit)):
        verdict.differ("how many are owed is told, or is not told, where it should be otherwise")
    elif owed is not None:
        judge_owed(verdict, text, digit[0], owed)


def hold_capitals(verdict, place, form):
    """The capitals of a form are those of its fields: MINIMUM is no lane's width, though its range is the same."""
    due = next((one for one in place.statements() if one[0] == form[0] or one[0][0].isdigit() and form[0][0].isdigit()), None)
    if due is None or len(due) != len(form):
        verdict.differ("no statement: %s" % " ".join(form))
        return
    for token, other in zip(form, due):
        if token in CAPITALS and token != other and not (token == "POINT" and other[0].isdigit()):
            verdict.differ("%s in place of %s in %s" % (token, other, " ".join(due)))


def judge_owed(verdict, text, form, owed):
    """Exactly so many of these lines come next."""
    good = good_fields(form, text.place)
    *part, last = identifier(good[0], form[0].count(".") + 1) or (0,)

    def such(i):
        # a point's: the next one's identifier
        return [dotted((*part, last + i)), *good[1:]] if form[0][0].isdigit() else good

    if owed > LARGEST:
        verdict.differ("more than %d lines owed" % LARGEST)
        return
    lines = [such(i) for i in range(owed + 1)]
    verdict.owed += owed
    verdict.others += 1
    reply = text.answers(*lines)
    if reply is None or reply[1:3] != (text.number + owed, 5):
        verdict.differ("%d owed, and one line more is answered by %s" % (owed, reply))
    # where there are thousands, each reading costs: the part's own end alone is tried, behind all but one
    costly = len(text.head) + 30 * owed > 20_000
    own = {"lane": b"end_lane", "perimeter": b"end_perimeter", "spot": b"end_spot", "goals": b"end_checkpoints"}.get(text.place.sort, b"end_speed_limits")
    ends = [[own]] if costly else [[end] for end in END_WORDS[text.file]]
    if not costly and all((text.answers(*lines[:owed], end) or (0, 0))[1] == text.number + owed for end in ends):
        verdict.differ("behind %d lines no end may stand" % owed)
    for fewer in {owed - 1} if costly else {0, owed // 2, owed - 1}:
        for end in ends:
            verdict.others += 1
            if (text.answers(*lines[:fewer], end) or (0, 0))[1] != text.number + fewer:
                verdict.differ("%d owed, and %s is taken behind %d" % (owed, shown(end), fewer))


def judge_count(verdict, text, told, refusal):
    form, count = form_with_count(told)
    place = text.place
    hold_capitals(verdict, place, form)
    if count != len(form):
        verdict.differ("%d fields told of %s" % (count, " ".join(form)))
    due = place.statement(text.fields[0])
    if due is None or text.at_line(text.fields)[0] != 7:
        raise Misworded("judge: the line has no wrong number of fields")
    word = text.fields[0]
    # a digit line is told by its due identifier, any other by its keyword
    if not (form[0].encode() == word or word[:1].isdigit() and (form[0] in ("NUMBER", "ID") or form[0][0].isdigit())):
        verdict.differ("another statement is told")
        return
    lines = []
    for one in {form, due}:
        good = good_fields(one, place)
        lines += spread(one, place, lambda kind: kind.ends())
        if len(one) > 1 or one[0] in ("NUMBER", "ID"):
            lines += [line for line in spread(one, place, lambda kind: kind.off()) if same_statement(line[0], word)]
        if one[-1] == "MAXIMUM":
            lines += [(good[0], *pair) for pair in speeds()]
        lines += wrong_counts(good)
        # other numbers of fields, with all sorts of fields
        for value in UNIVERSAL[::5]:
            lines += [(*good, value), (*good[:1], value), (*good, value, value)]
    lines.append(tuple(text.fields))
    lines = [line for line in lines if same_statement(line[0], word)]
    try_lines(verdict, text, lambda fields: is_instance(form, fields, place), lines, let_pass=(25,), by=(7, 8, 9))


def same_statement(first, word):
    """Whether two first fields make the same statement."""
    return first[:1].isdigit() if word[:1].isdigit() else first == word


UNIVERSAL = b"""\
0 1 2 3 7 9 10 12 99 100 255 256 1000 9999 10000 32766 32767 32768 32769 32770 40000 65535 65536 99999 100000 4294967296 00 01 007 032768 -1 -0 +1 1. .1 1x x1 one 0x1 1e3 1,0 1-2
0.0 0.1 1.0 1.1 1.2 2.0 2.1 2.2 3.0 01.1 1.01 1.1.0 1.1.1 1.1.2 1.1.3 1.2.1 1.0.1 0.1.1 0.0.0 2.0.1 2.1.1 2.1.2 3.1.2 4.0.1 32768.32768.32768 32769.1.1 1.32769.1 1.1.32769 01.1.1 1.01.1 1.1.01 1.1.1.1 1..1 .1.1 1.1. 100000.1.1
0.000000 -0.000000 90.000000 90.000001 -90.000000 -90.000001 89.999999 180.000000 180.000001 -180.000000 -180.000001 91.000000 100.000000 999.999999 1000.000000 1.00000 1.0000000 01.000000 00.000000 +1.000000 -.500000 .500000 1,000000 --1.000000 1.00000x
double_yellow solid_yellow solid_white broken_white double_white Solid_white solid_whit solid_whitex broken_yellow solid SOLID_YELLOW NAME NUMBER POINT end_lane exit / ~""".split()


def judge_field(verdict, text, told, refusal):
    place, fields, number, column = text.place, text.fields, *refusal[2:]
    kinds, called = field_in(told, text.file == 2 and len(fields) == 3 and column > 1 and len(fields_of(text.raw[:column - 1])) == 2)
    k = len(fields_of(text.raw[:column - 1]))           # the column is the field's first byte
    due = place.statement(fields[0])
    if due is None or not 0 <= k < len(fields) == len(due):
        raise Misworded("judge: no field at fault")
    if called and due[k] != called.upper():
        verdict.differ("a %s is told of %s" % (called, due[k]))
    good = good_fields(due, place)
    if text.at_line(good)[0] not in (0, 25):
        raise Misworded("judge: %s is not good here" % shown(good))
    before = fields[:k]
    if text.at_line([*before, *good[k:]])[0] not in (0, 25):
        before = good[:k]                               # the field by itself
        if number == 9:
            raise Misworded("judge: a field before is at fault")
    first_column = sum(len(field) + 1 for field in before) + 1

    values = [value for kind in kinds for value in kind.ends() + kind.off()]
    if due[k] == "NAME":
        values += [b"n" * size for size in range(LARGEST_NAME_TRIED[0], LARGEST_NAME_TRIED[1])] + UNIVERSAL[::10]
    else:
        own = kind_of(due, k, place)
        values += own.ends() + own.off() + UNIVERSAL + [b"n" * 129]
    if due[k] == "MAXIMUM" and integer(before[-1]) is not None:
        values += [b"%d" % n for n in range(max(0, int(before[-1]) - 2), int(before[-1]) + 3)]
    if k == 0:
        if any(isinstance(kind, Words) for kind in kinds):
            verdict.differ("a word is told of a field that begins with a digit")
        values = [value for value in values if value[:1].isdigit()]
        values += [value + b"x" for value in values]
    values.append(fields[k])

    for value in spared(verdict, [value for value in values if value], len(text.head)):
        got, at = text.at_line([*before, value, *good[k + 1:]])
        if any(kind.has(value) for kind in kinds):
            verdict.items += 1
            if got not in (0, 25):
                verdict.differ("listed, and gets %d: %s" % (got, shown([value])))
        else:
            verdict.others += 1
            if got in (0, 25):
                verdict.differ("taken, and not listed: %s" % shown([value]))
            elif got not in (8, 9) or at != first_column:
                verdict.differ("gets %d in column %d, which is not to be: %s" % (got, at, shown([value])))


LARGEST_NAME_TRIED = (126, 186)     # bytes: on both sides of 128, and over 50 beyond


# ------------------------------------------------------------ references

class Whole:
    """A text read as a whole, with other fields at the place of a refusal of 12 to 18."""

    def __init__(self, edition, rndf, mdf, refusal):
        self.edition, self.rndf = edition, rndf
        self.file, self.line, self.number, self.column = refusal
        text = rndf if self.file == 1 else mdf
        lines = text.split(b"\n")
        if lines[-1] == b"":
            lines.pop()
        self.raw = lines[self.line - 1]
        self.before = [fields for fields in map(fields_of, lines[:self.line - 1]) if fields]
        self.behind = [fields for fields in map(fields_of, lines[self.line:]) if fields]
        self.fields = fields_of(self.raw)
        self.k = len(fields_of(self.raw[:self.column - 1]))
        # of an RNDF with a reference at fault only the form is to be had
        self.form = oracle.form_of_rndf(rndf, edition)
        self.rows = None if self.file == 1 else oracle.judge_rndf(rndf, NO_ROW_SHORT, edition)[1]
        self.size = len(rndf) if self.file == 1 else len(mdf)
        self.known = {}

    def read(self, lines):
        """The reader's refusal where these lines are the text, or None."""
        text = b"".join(b"\t".join(fields) + b"\n" for fields in lines)
        try:
            if self.file == 1:
                oracle.judge_rndf(text, NO_ROW_SHORT, self.edition)
            else:
                oracle.judge_mdf(text, NO_ROW_SHORT, self.rndf, self.form, self.rows)
        except oracle.Refused as refused:
            return refused.reply
        return None

    def with_field(self, value):
        """(number, column) that the line gets with this value in place of the field at fault, or (0, 0)."""
        if value not in self.known:
            fields = [*self.fields[:self.k], value, *self.fields[self.k + 1:]]
            reply = self.read([*self.before, fields, *self.behind])
            if reply is not None and reply[1] <= len(self.before):
                raise Misworded("judge: a line before is refused")
            self.known[value] = (0, 0) if reply is None or reply[1] != len(self.before) + 1 else reply[2:]
        return self.known[value]


def try_values(verdict, whole, listed, values, by):
    column = sum(len(field) + 1 for field in whole.fields[:whole.k]) + 1
    if whole.with_field(whole.fields[whole.k]) != (whole.number, column):
        raise Misworded("judge: the line is not refused by %d" % whole.number)
    for value in spared(verdict, [value for value in values if value and (whole.k or value[:1].isdigit())], whole.size):
        got, at = whole.with_field(value)
        if listed(value):
            verdict.items += 1
            if got != 0:
                verdict.differ("listed, and gets %d: %s" % (got, shown([value])))
        else:
            verdict.others += 1
            if got == 0:
                verdict.differ("taken, and not listed: %s" % shown([value]))
            elif got not in by or at != column:
                verdict.differ("gets %d in column %d, which is not to be: %s" % (got, at, shown([value])))


def hold_list(verdict, told, more, full, read):
    """The first six and the count of the rest are those of the full list.  Answers what is listed, the
    rest of the full list taken for those that are only counted."""
    items, rest = cut_list(told, more)
    got = [read(item) for item in items]
    if len(got) > CUT_AFTER or rest and len(got) != CUT_AFTER:
        verdict.differ("not cut after six")
    if got != full[:len(got)]:
        verdict.differ("the list begins %s, and the text has %s" % (got[:7], full[:7]))
    if len(got) + rest != len(full):
        verdict.differ("%d listed and %d more, and the text has %d" % (len(got), rest, len(full)))
    return got + full[len(got):] if rest else got


def number_in(item):
    if integer(item.encode()) is None:
        raise Misworded("no number: %s" % item)
    return int(item)


def sample(values, most):
    """So many from all over the list, both ends among them."""
    values = list(values)
    return values if len(values) <= most else values[:most // 2] + values[-(most - most // 2):]


def judge_entry(verdict, whole, told):
    form, place = whole.form, Place(1, whole.edition, whole.before)
    segments = len(form.segments)
    full = [((s, n), 1, form.lanes[first + n - 1][1]) for s, (first, lanes, *_) in enumerate(form.segments, 1) for n in range(1, lanes + 1)]
    if place.sort != "perimeter":                       # "the second x.y.z with all three > 0"
        full += [((z, 0), 1, zone[1]) for z, zone in enumerate(form.zones, segments + 1)]
    parts = [Points(*run) for run in hold_list(verdict, told, "more", full, run_of)]
    values = []
    for part in sample(parts, 8) + sample([Points(*run) for run in full], 8):
        values += part.ends() + [dotted((*part.prefix, n)) for n in (0, part.low + 1, part.high + 1)]
    last = segments + len(form.zones)
    for x in sample(range(1, last + 2), 8) + [segments, segments + 1, last, last + 1, LARGEST]:
        lanes = form.segments[x - 1][1] if x <= segments else form.zones[x - segments - 1][3] if x <= last else 0
        values += [dotted((x, y, z)) for y in {0, 1, lanes, lanes + 1, LARGEST} for z in (1, 2)]
    values += neighbours(whole.fields[whole.k]) + [v for v in UNIVERSAL if b"." in v] + UNIVERSAL[::6]
    try_values(verdict, whole, lambda value: any(part.has(value) for part in parts), values, (12, 8, 9))


def judge_number(verdict, whole, told):
    declared = [int(fields[2]) for fields in whole.before if fields[0] == b"checkpoint"]
    later = [int(fields[2]) for fields in whole.behind if fields[0] == b"checkpoint"]
    before = set(declared)
    found = re.fullmatch(r"a number from ([0-9]+) to ([0-9]+) that no line before declares", told)
    if not found:
        raise Misworded("no number that no line before declares")
    kind = Numbers(*map(int, found.groups()))
    if (kind.low, kind.high) != (1, LARGEST):           # declared ones at its ends are told by the other words
        verdict.differ("not 1 to %d" % LARGEST)
    values = kind.ends() + kind.off() + [b"%d" % n for n in sample(declared, 24) + sample(later, 12)]
    values += [b"%d" % n for d in sample(declared, 8) for n in (d - 1, d + 1) if n >= 0] + UNIVERSAL
    try_values(verdict, whole, lambda value: kind.has(value) and int(value) not in before, values, (13, 8, 9))


def judge_name(verdict, whole, told):
    name = oracle.name_of(whole.rndf, *whole.form.name)
    told = told.encode("latin-1")
    values = [told, name, whole.fields[whole.k], *UNIVERSAL[::2], b"n" * 128, b"n" * 129]
    for k in sample(range(len(name)), 12):
        values += [name[:k] + name[k + 1:], name[:k] + bytes([33 + (name[k] - 32) % 8]) + name[k + 1:], name[:k] + b"q" + name[k:]]
    values = [value for value in values if value and len(value) < 300 and b"/*" not in value and not set(value) & set(b"*\\\t ")]
    if told != name:
        verdict.differ("another name than the RNDF's")
    try_values(verdict, whole, lambda value: value == told, values, (14, 8))


def judge_goal(verdict, whole, told):
    full = [number for number, _ in whole.form.checkpoints]
    lead = "a checkpoint of the RNDF: "
    judge_numbers(verdict, whole, told, lead, full, [], (15, 8, 9))


def judge_id(verdict, whole, told):
    ids = len(whole.form.segments) + len(whole.form.zones)
    limits = next(i for i, fields in enumerate(whole.before) if fields[0] == b"num_speed_limits")
    given = {int(fields[0]) for fields in whole.before[limits + 1:]}
    full = [n for n in range(1, ids + 1) if n not in given]
    judge_numbers(verdict, whole, told, "an id that has no limit yet: ", full, sorted(given) + [ids, ids + 1], (16, 17, 8, 9))


def judge_numbers(verdict, whole, told, lead, full, near, by):
    if re.fullmatch(r"nothing\b[A-Za-z ,:;'()_]*[a-z)]", told) and told != ENDED:
        # why is said in words that no document lays down; they speak of what is missing
        if not re.search("limit" if whole.number > 15 else "checkpoint", told):
            verdict.differ("nothing, and not for want of a checkpoint or an id without a limit")
        listed = []
        if full:
            verdict.differ("nothing, and there are %s" % full[:7])
    elif told.startswith(lead):
        listed = hold_list(verdict, told[len(lead):], "more", full, number_in)
    else:
        raise Misworded("not %r" % lead)
    numbers = sample(listed, 12) + sample(full, 12) + sample(near, 12)
    values = [b"%d" % n for number in numbers for n in (number, number - 1, number + 1) if n >= 0]
    values += [value for value in UNIVERSAL if value[:1].isdigit()] + [b"%d" % n for n in range(60)] + [b"0%d" % n for n in sample(listed, 5)]
    listed = set(listed)
    try_values(verdict, whole, lambda value: integer(value) is not None and int(value) in listed, values, by)


def judge_missing(verdict, whole, told):
    ids = len(whole.form.segments) + len(whole.form.zones)
    limits = next(i for i, fields in enumerate(whole.before) if fields[0] == b"num_speed_limits")
    given = {int(fields[0]) for fields in whole.before[limits + 1:]}
    full = [n for n in range(1, ids + 1) if n not in given]
    listed = hold_list(verdict, told, "more", full, number_in)

    def with_limits_for(more):
        """The number and line that the text is refused by with a limit for each of these too."""
        count = [b"num_speed_limits", b"%d" % (len(whole.before) - limits - 1 + len(more))]
        lines = [*whole.before[:limits], count, *whole.before[limits + 1:], *([b"%d" % n, b"0", b"0"] for n in more), whole.fields, *whole.behind]
        reply = whole.read(lines)
        return (0, 0) if reply is None else (reply[2], reply[1])

    end = len(whole.before) + 1
    if with_limits_for([]) != (18, end):
        raise Misworded("judge: the line is not refused by 18")
    verdict.items += len(listed)
    if with_limits_for(listed) != (0, 0):
        verdict.differ("with a limit for each id listed it gets %d" % with_limits_for(listed)[0])
    for left in spared(verdict, sample(listed, 8), whole.size):
        verdict.others += 1
        if with_limits_for([n for n in listed if n != left]) != (18, end + len(listed) - 1):
            verdict.differ("%d is listed, and it needs no limit" % left)
    for other in spared(verdict, [n for n in sample(given, 20) + list(range(ids + 1, ids + 60)) + [LARGEST] if n not in listed and n <= LARGEST], whole.size):
        verdict.others += 1
        if with_limits_for([other]) not in ((16, end), (17, end)):
            verdict.differ("%d is not listed, and may have a limit" % other)


BY_FORM = {5: judge_statements, 6: judge_statements, 10: judge_statements, 25: judge_statements, 7: judge_count, 8: judge_field, 9: judge_field}
BY_REFERENCE = {12: judge_entry, 13: judge_number, 14: judge_name, 15: judge_goal, 16: judge_id, 17: judge_id, 18: judge_missing}
