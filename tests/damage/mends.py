"""RNDFs to be mended for tests/damage.sh (request L9): accepted texts into which one to five of the three troubles were put, some with an item more or less than counted, also near comments, CRs and spaces and where the last LF is missing; and texts that were
damaged further, or otherwise.

Where only the three troubles were put in, the generator knows what has to come out and which lines have to be listed: `case.comes_out` is (list, text), and whether the tool accepts is whether the reader accepts that text.
"""
import re

import pairs
from pairs import g, mending, oracle

OPENS = (b"segment", b"lane", b"zone", b"perimeter", b"spot")
SINGLES = (b"format_version", b"creation_date", b"segment_name", b"zone_name", b"lane_width", b"left_boundary", b"right_boundary", b"spot_width")
KEPT, COUNT, OPTION, BEHIND = 0, 1, 2, 3
NUMBER = re.compile(rb"([\t ]*num_[a-z]+[\t ]+)([0-9]+)")
COMMENTS = [b"/**/", b"/* 7 */", b" /* num_lanes\t3 */", b"\t/*/ end_file */ ", b"/* /* */", b"/*end_lane*/\t"]


class Piece:
    """A line with its LF, if it has one: as it is given, as it has to come out, and which trouble it is (0: none)."""

    def __init__(self, given, out, which):
        self.given, self.out, self.which = given, out, which
        self.word = (given.split(b"/*")[0].split() or [b""])[0]


def index(pieces, word):
    return next(i for i, piece in enumerate(pieces) if piece.word == word)


def ending(rng):
    return rng.choice([b"\n", b"\n", b"\n", b"\r\n"])


def count_off(rng, pieces):
    """A count says another number; often with a comment behind it."""
    found = [piece for piece in pieces[:index(pieces, b"end_file")] if piece.word.startswith(b"num_") and piece.which == KEPT]
    if not found:
        return
    piece = rng.choice(found)
    if b"/*" not in piece.given and rng.random() < 0.3:
        at = len(piece.given.rstrip(b"\r\n"))
        piece.given = piece.out = piece.given[:at] + rng.choice(COMMENTS) + piece.given[at:]
    lead, number = NUMBER.match(piece.given).groups()
    old = int(number)
    new = rng.choice([n for n in (old - 1, old + 1, 0, 1, 2, 9, 10, 32767, 32768, 10 * old, rng.randint(0, 32768), rng.randint(0, 30)) if 0 <= n <= 32768 and n != old])
    piece.given = lead + b"%d" % new + piece.given[len(lead) + len(number):]
    piece.which = COUNT


def option_again(rng, pieces):
    """A single option again, anywhere before the next part is opened; it may be anything behind its keyword, since it goes."""
    end = index(pieces, b"end_file")
    found, opened = [], b""
    for i, piece in enumerate(pieces[:end]):
        opened = piece.word if piece.word in OPENS else opened
        if piece.which == KEPT and (piece.word in SINGLES or piece.word == b"checkpoint" and opened == b"spot"):
            found.append(i)
    if not found:
        return
    i = rng.choice(found)
    behind = next((j for j in range(i + 1, end) if pieces[j].word in OPENS), end)
    old = pieces[i].given.rstrip(b"\n")
    value = old.split(b"/*")[0].split()[1:]
    line = rng.choice([old, old, pieces[i].word, pieces[i].word + rng.choice([b"\t", b" ", b"\t \t"]) + rng.choice([b"\t".join(value), b"12", b"13\t14", b"solid_white", b"solid_yellow", b"x" * 129, b"\x80*\\", b"f" * 520, b"0", b"32769", b"a\rb"])])
    line = (g.run_of(rng) if rng.random() < 0.15 else b"") + line
    if b"/*" not in line and rng.random() < 0.25:
        line = line.rstrip(b"\r") + rng.choice(COMMENTS + [b"/*", b" /* x", b"/* x */ y", b"/*/"])
    line = line if line.endswith(b"\r") else line + rng.choice([b"", b"", b"", b"\r"])
    pieces.insert(rng.randint(i + 1, behind), Piece(line + b"\n", b"", OPTION))


def lines_behind(rng, pieces):
    """A line with fields behind end_file, often the last one and unfinished."""
    for piece in pieces[-1:]:
        if not piece.given.endswith(b"\n"):         # what comes out has this LF
            piece.given += b"\n"
            piece.out += b"\n" if piece.which != BEHIND else b""
    end = index(pieces, b"end_file")
    other = rng.choice(pieces[:end + 1]).given.rstrip(b"\r\n")
    if not other.split(b"/*")[0].strip(b"\t "):
        other = b"end_file"
    line = rng.choice([other, other, b"end_file", b"x", b" \tx", b"num_lanes\t7", b"segment\t9", b"format_version\t2", b"1.1.1\t1.000000\t1.000000", b"\x00", b"\x80\xff", b"*/", b"x/*", b"x /* y", b"f" * 600, b"\r\r", b"end_file/* */ x", b"/", b"x\ry"])
    at = rng.randint(end + 1, len(pieces))
    unfinished = at == len(pieces) and rng.random() < 0.4
    line += b"" if line.endswith(b"\r") else rng.choice([b"", b"", b"\r"])
    pieces.insert(at, Piece(line + (b"" if unfinished else b"\n"), b"", BEHIND))


TROUBLES = [count_off, option_again, lines_behind]


ENDS = {b"num_waypoints": b"end_lane", b"num_perimeterpoints": b"end_perimeter", b"num_lanes": b"end_segment"}


def item_more_or_less(rng, pieces):
    """A point or lane more at its part's end, or the last point less, and the count as it was: another network is to come out. Before other troubles, since a lane more is a part that is opened."""
    found = [i for i, piece in enumerate(pieces) if piece.word in ENDS and piece.which == KEPT]
    i = rng.choice(found)
    count = pieces[i]
    end = next(j for j in range(i, len(pieces)) if pieces[j].word == ENDS[count.word])
    lead, number = NUMBER.match(count.given).groups()
    if count.word == b"num_lanes":
        segment = next(pieces[j] for j in range(i, -1, -1) if pieces[j].word == b"segment").given.split(b"/*")[0].split()[1]
        lane = b"%s.%d" % (segment, int(number) + 1)
        new, by = [b"lane\t" + lane, b"num_waypoints\t1", b"left_boundary\tsolid_white", lane + b".1\t0.000000\t-0.000000", b"end_lane"], 1
        pieces[end:end] = [Piece(line + b"\n", line + b"\n", KEPT) for line in new]
    else:
        last = max(j for j in range(i, end) if pieces[j].word[:1].isdigit())
        if rng.random() < 0.5:
            new = pieces[last].word.rsplit(b".", 1)[0] + b".%d\t1.000000\t2.000000\n" % (int(number) + 1)
            pieces.insert(last + 1, Piece(new, new, KEPT))
            by = 1
        else:
            del pieces[last]                        # 26 where something names it
            by = -1
    count.out = lead + b"%d" % (int(number) + by) + count.given[len(lead) + len(number):]
    count.which = COUNT


def troubled(rng, text, times):
    """The text with so many troubles put in, and what has to come out."""
    pieces = [Piece(piece, piece, KEPT) for piece in re.findall(rb"[^\n]*\n|[^\n]+", text)]
    if times and rng.random() < 0.25:
        item_more_or_less(rng, pieces)
        times -= 1
    for trouble in rng.choices(TROUBLES, k=times):
        trouble(rng, pieces)
    rows = [(n, piece.which) for n, piece in enumerate(pieces, 1) if piece.which]
    return b"".join(piece.given for piece in pieces), (rows, b"".join(piece.out for piece in pieces))


def mend_case(rng, older):
    """Of a hundred texts 60 have the three troubles alone, 10 have none, 15 were damaged further, 15 were damaged otherwise."""
    made = g.make(rng, rng.choice([1, 2, 4, 4, 9]))
    lines = [list(fields) for fields in made.rndf_lines]
    if older and rng.random() < 0.85:
        lines = [[b"broken_white" if field == b"solid_yellow" else field for field in fields] for fields in lines]
    how = rng.choices(["troubles", "none", "damaged further", "damaged otherwise"], [60, 10, 15, 15])[0]
    kinds, comes_out = [], None
    late = []
    if how == "damaged otherwise":
        for _ in range(rng.choice([1, 1, 2, 3])):
            kind = rng.choices([k for k, _ in pairs.BY_FILE[1]], [w for _, w in pairs.BY_FILE[1]])[0]
            kinds.append(pairs.label(kind))
            if kind in pairs.OF_TEXT:
                late.append(kind)
            elif lines:
                kind(rng, lines, 1)
    text = g.render(rng, lines, rng.choice([0, 0, 0.3, 1]))
    if how != "damaged otherwise":
        times = 0 if how == "none" else rng.randint(1, 5)
        text, comes_out = troubled(rng, text, times)
        kinds.append("%d troubles" % sum(which > 0 for _, which in comes_out[0]))
    if how == "damaged further":
        for _ in range(rng.choice([1, 1, 2])):
            text = rng.choice([kind for kind, _, _ in pairs.BYTES])(rng, text)
        kinds, comes_out = [how], None
    for kind in late:
        text = kind(rng, text)
    return lent_case(rng, text, kinds, comes_out, older)


def lent_case(rng, text, kinds, comes_out, older, exact=False):
    """With a list and an output that are just long enough, a little longer, or one too short; now and then the text is said to be too long."""
    lines = text.count(b"\n") + (not text.endswith(b"\n") and text != b"")
    case = pairs.text_case(text, b"", dict.fromkeys(oracle.TABLES, 0), kinds)
    case.comes_out = comes_out
    case.room["segments"] = max(0, 2 * lines + (0 if exact else rng.choice([0] * 34 + [1, 1, 2, 3, 8, 50, -1, -1, -2, -2 * lines])))
    size = len(comes_out[1]) if comes_out else len(text) + 8 if exact else mending.mend(1 if older else 0, text, lines, len(text) + 100).length or len(text)
    case.out = max(0, size + (0 if exact else rng.choice([0] * 28 + [1, 1, 2, 9, 200, -1, -1, -size])))
    if not exact and rng.random() < 0.008:
        case.kinds = [*kinds, "too long"]
        case.comes_out = None
        case.rndf_length = pairs.LARGEST + rng.choice([1, 1, 2, 1 << 20, 1 << 28, (1 << 32) - pairs.LARGEST, 1 << 32])
    return case


def by_hand(older):
    """The texts worked out by hand for this edition, or for the present one in it."""
    out = []
    for label, edition, given, want, rows in mending.HAND:
        if edition == older:
            given, want = (t if t is None or isinstance(t, bytes) else mending.text(t) for t in (given, want))
            out.append(lent_case(None, given, ["by hand"], None if want is None else (rows, want), older, True))
    return out


def many_cases(rng):
    """32,768 items of each sort, and one more, with a count that says something else."""
    out = []
    for which, n in mending.MANY:
        parts = n - 1 if which == "zones" else n
        given, good = (mending.text(mending.many(which, n, said)) for said in (rng.choice([other for other in (0, 1, 2, 32767) if other != parts]), parts))
        number = 3 if which == "zones" else next(i for i, (a, b) in enumerate(zip(given.split(b"\n"), good.split(b"\n")), 1) if a != b)
        out.append(lent_case(None, given, ["%d %s" % (n, which)], ([(number, 1)], good) if n == 32768 else None, 0, True))
    return out


def largest_cases():
    """Texts of 16,777,215 bytes with troubles; of one byte more; and one that would have one byte more once it is mended."""
    ten = mending.text(mending.TEN)
    nine = mending.text(mending.put(mending.TEN, 7, "num_waypoints>9"))
    twelve = mending.text(mending.put(mending.TEN, 7, "num_waypoints>12"))
    lines = pairs.padded(twelve, pairs.LARGEST).count(b"\n") - twelve.count(b"\n")
    cases = [(pairs.padded(twelve, pairs.LARGEST), ([(lines + 7, 1)], pairs.padded(ten, pairs.LARGEST)), "mended"), (pairs.padded(nine, pairs.LARGEST), None, "mended one byte more"),
             (pairs.padded(twelve, pairs.LARGEST + 1), None, "one byte more"), (pairs.padded(ten, pairs.LARGEST - 1) + b"x", ([(pairs.padded(ten, pairs.LARGEST - 1).count(b"\n") + 1, 3)], pairs.padded(ten, pairs.LARGEST - 1)), "a line behind")]
    return [lent_case(None, text, ["16,777,215 bytes, " + label], comes_out, 0, True) for text, comes_out, label in cases]
