"""Writes cases.bin and expected.txt (and labels.txt) from hand-made variations.

Many cases carry an answer worked out by hand from document 01 (`want`); the
oracle has to agree with it or this program says WRONG and ends with 1.
Deterministic.

    python3 cases.py [directory]
"""

import os
import sys

import oracle
from casefile import OLDER, Writer
from yards import (MDF_STATEMENTS, MISSION_B, RNDF_STATEMENTS, ROUND_1, YARD_A,
                   YARD_B, YARD_C, cut, ins, put, text)

S = oracle.STRIDE
# Room for all the yards here, mostly with numbers left over behind the last
# whole row.
ROOM = {"segments": 4 * 4 + 3, "lanes": 5 * 4 + 4, "zones": 6 * 3 + 5,
        "spots": 2 * 3 + 1, "points": 2 * 15 + 1, "checkpoints": 2 * 6 + 1,
        "stops": 4, "exits": 2 * 7 + 1, "goals": 6, "limits": 3 * 6 + 2}

A, M = YARD_A, ROUND_1
FULL_A, FULL_M = text(A), text(M)
FULL_B, FULL_MB = text(YARD_B), text(MISSION_B)

wrong = []
seen_labels = set()
writer = None


def check(label, reply, want):
    if label in seen_labels:
        wrong.append("label used twice: " + label)
    seen_labels.add(label)
    if want is None:
        return
    got = "ok" if reply.accepted else "%d %d %d %d" % reply.refusal
    if got.split()[:len(want.split())] != want.split():     # L7's column is not always told
        wrong.append("%s: by hand %s, oracle %s" % (label, want, got))


def as_bytes(t):
    return t if isinstance(t, bytes) else text(t)


def rndf(label, t, want=None, room=ROOM):
    check(label, writer.add(label, 1, as_bytes(t), b"", room), want)


def pair(label, r, m, want=None, room=ROOM):
    check(label, writer.add(label, 2, as_bytes(r), as_bytes(m), room), want)


def older(label, t, want, m=None):
    """L10: in the edition of December 6, 2006; with an MDF if one is given."""
    mode = OLDER + (1 if m is None else 2)
    check(label, writer.add(label, mode, as_bytes(t), b"" if m is None else as_bytes(m), ROOM), want)


def mdf(label, m, want=None, room=ROOM):
    """A variation of the MDF of Yard A."""
    pair(label, A, m, want, room)


def by_line(label, n, variants, base=A, file=1):
    """Line n of the base replaced by each variant; wants are numbers or ok."""
    for variant, want in variants:
        if want != "ok":
            want = "%d %d %d" % (file, n, want)
        name = "%s: line %d is %s" % (label, n, variant[:60])
        if len(variant) > 60:
            name += " (%d bytes)" % len(variant)
        if file == 1:
            rndf(name, put(base, n, variant), want)
        else:
            mdf(name, put(base, n, variant), want)


# ---------------------------------------------------------------- Yard A

def yard_a():
    pair("yard A", A, M, "ok")
    rndf("yard A, RNDF alone", A, "ok")
    pair("yard B", YARD_B, MISSION_B, "ok")
    rndf("yard B, RNDF alone", YARD_B, "ok")
    rndf("yard C, RNDF alone", YARD_C, "ok")
    # the nine P cases
    pair("P entry 1.1.3", put(A, 9, "exit>1.1.2>1.1.3"), M, "1 9 12 12")
    pair("P exit from 1.1.3", put(A, 9, "exit>1.1.3>1.1.1"), M, "1 9 9 6")
    pair("P num_waypoints 3", put(A, 7, "num_waypoints>3"), M, "1 12 5 1")
    pair("P num_waypoints 1", put(A, 7, "num_waypoints>1"), M, "1 8 9 12")
    pair("P without end_file", A[:-1], M, "1 14 10 0")
    pair("P empty RNDF", b"", M, "1 1 10 0")
    pair("P line 8 twice", ins(A, 9, A[7]), M, "1 9 13 18")
    pair("P goal 8", A, put(M, 5, "8"), "2 5 15 1")
    pair("P limit 1 10 5", A, put(M, 9, "1>10>5"), "2 9 9 6")
    # the same where they exist for the RNDF alone
    rndf("P alone entry 1.1.3", put(A, 9, "exit>1.1.2>1.1.3"), "1 9 12 12")
    rndf("P alone exit from 1.1.3", put(A, 9, "exit>1.1.3>1.1.1"), "1 9 9 6")
    rndf("P alone num_waypoints 3", put(A, 7, "num_waypoints>3"), "1 12 5 1")
    rndf("P alone num_waypoints 1", put(A, 7, "num_waypoints>1"), "1 8 9 12")
    rndf("P alone without end_file", A[:-1], "1 14 10 0")
    rndf("P alone empty RNDF", b"", "1 1 10 0")
    rndf("P alone line 8 twice", ins(A, 9, A[7]), "1 9 13 18")
    # the R cases
    pair("R yard_b in the MDF", A, put(M, 2, "RNDF>yard_b"), "2 2 14 6")
    rndf("R name of 128", put(A, 1, "RNDF_name>" + "n" * 128), "ok")
    rndf("R name of 129", put(A, 1, "RNDF_name>" + "n" * 129), "1 1 8")
    pair("R name of 128, pair", put(A, 1, "RNDF_name>" + "n" * 128),
         put(M, 2, "RNDF>" + "n" * 128), "ok")
    pair("R name of 129 in RNDF line", A, put(M, 2, "RNDF>" + "n" * 129), "2 2 8")
    line = "end_segment" + "/*" + "c" * (512 - 11 - 4) + "*/"
    rndf("R line of 512", put(A, 13, line), "ok")
    line = "end_segment" + "/*" + "c" * (513 - 11 - 4) + "*/"
    rndf("R line of 513", put(A, 13, line), "1 13 2")
    rndf("R latitude 90.000000", put(A, 10, "1.1.1>90.000000>-93.000000"), "ok")
    rndf("R latitude 90.000001", put(A, 10, "1.1.1>90.000001>-93.000000"), "1 10 9")


# ------------------------------------------------------ lines, comments, CR

def lines_and_comments():
    rndf("no final LF", text(A)[:-1], "ok")
    pair("no final LF in both", text(A)[:-1], text(M)[:-1], "ok")
    rndf("CR LF everywhere", text(A, "\r\n"), "ok")
    pair("CR LF everywhere in both", text(A, "\r\n"), text(M, "\r\n"), "ok")
    rndf("unfinished last line with CR", text(A)[:-1] + b"\r", "ok")
    rndf("CR alone as last line", text(A) + b"\r", "ok")
    rndf("CR CR LF", text(A, "\r\r\n"), "1 1 4 17")
    rndf("CR CR LF on line 4 only", put(A, 4, "segment>1\r\r"), "1 4 4")
    rndf("CR inside a field", put(A, 4, "segm\rent>1"), "1 4 4")
    rndf("CR leading", put(A, 4, "\rsegment>1"), "1 4 4")
    rndf("CR only lines (blank)", ins(A, 4, "\r", "\r"), "ok")
    rndf("CR CR as blank line", ins(A, 4, "\r\r"), "1 4 4")
    rndf("CR before tab at end", put(A, 4, "segment>1\r>"), "1 4 4")
    rndf("CR behind a comment dropped", put(A, 4, "segment>1/* x */\r"), "ok")
    rndf("two CR behind a comment", put(A, 4, "segment>1/* x */\r\r"), "1 4 3")
    rndf("CR then tab behind a comment", put(A, 4, "segment>1/* x */\r>"), "1 4 3")
    rndf("CR inside a comment", put(A, 4, "segment>1/* \r */"), "1 4 4")
    rndf("CR closes an open comment's line", put(A, 4, "segment>1/* x\r"), "1 4 3")
    rndf("old Mac line ends", text(A, "\r"), "1 1 4")
    rndf("old Mac line ends, short name", b"RNDF_name\ta\rnum_segments\t1\r", "1 1 4")

    for n in range(1, len(A) + 2):
        rndf("blank line before line %d" % n, ins(A, n, ""), "ok")
        rndf("tabs and comment before line %d" % n, ins(A, n, ">>/* c */>"), "ok")
    for n in range(1, len(M) + 2):
        mdf("blank line before MDF line %d" % n, ins(M, n, ""), "ok")
        mdf("comment before MDF line %d" % n, ins(M, n, "/**/"), "ok")
    spaced = []
    for line in A:
        spaced += ["", ">>", line, "/* behind */"]
    rndf("blank lines everywhere", spaced, "ok")
    rndf("blank lines only", b"\n\n\n", "1 4 10")
    rndf("one LF", b"\n", "1 2 10")
    rndf("one tab, unfinished", b"\t", "1 2 10")
    rndf("one CR", b"\r", "1 2 10")
    rndf("blank lines then missing end_file", A[:-1] + ["", ">", "/**/"], "1 17 10")
    rndf("leading tabs", [">>" + line for line in A], "ok")
    rndf("trailing tabs", [line + ">>" for line in A], "ok")
    rndf("many tabs between", [line.replace(">", ">>>") for line in A], "ok")
    mdf("MDF with tabs all over", [">" + l.replace(">", ">>") + ">>" for l in M], "ok")

    good = ["segment>1/**/", "segment>1/***/", "segment>1/****/",
            "segment>1/* a */", "segment>1>/* a */", "segment>1>>/*>*/>>",
            "segment>1/*/*/", "segment>1/* /* */", "segment>1/* // */",
            "segment>1/* back\\slash and * star */", "/* x */",
            "segment>1/* ~!\"#$%&'()+,-./:;<=?@[]^_`{|} */"]
    for line in good:
        if line == "/* x */":
            rndf("comment alone", ins(A, 4, line), "ok")
        else:
            rndf("comment good: " + line, put(A, 4, line), "ok")
    bad = [("segment>1/*", 3), ("segment>1/*/", 3), ("segment>1/* x", 3),
           ("segment>1/* x *", 3), ("segment>1/* x * /", 3),
           ("segment>1/* x */ y", 3), ("segment>1/* x */>y", 3),
           ("segment>1/* a */ /* b */", 3), ("segment>1/* a *//* b */", 3),
           ("segment>1/* a */ b */", 3), ("segment>1/*a*/>*", 3),
           ("segment>1/*a*/\\", 3), ("segment>1/*a*/ \x0b", 3),
           ("segment>1*/", 4), ("segment>1*", 4), ("segment>1\\", 4),
           ("segment>1/* \x1f */", 4), ("segment>1/* \x7f */", 4),
           ("segment>1/* \x00 */", 4), ("segment>1/* \x80 */", 4),
           ("segment>1/* \xff */", 4), ("segment>1\x00", 4),
           ("segment>1\x0b", 4), ("segment>1\x0c", 4), ("segment>1\x1f", 4),
           ("segment>1\x7f", 4), ("segment>1\x80", 4), ("segment>1\xff", 4),
           ("// comment", 5), ("//comment", 5), ("#", 5), ("/", 5),
           ("/>*", 4), ("\x00", 4), ("*", 4), ("\\", 4)]
    for line, number in bad:
        rndf("comment or byte bad: %r" % line, put(A, 4, line), "1 4 %d" % number)
        mdf("MDF comment or byte bad: %r" % line, put(M, 4, line), "2 4 %d" % number)

    # a field that ends in a slash, names with odd bytes
    rndf("name ends in slash", put(A, 1, "RNDF_name>abc//* x */"), "ok")
    rndf("name is a slash", put(A, 1, "RNDF_name>/"), "ok")
    rndf("name is a slash before a comment", put(A, 1, "RNDF_name>//* x */"), "ok")
    rndf("comment directly behind the tab", put(A, 1, "RNDF_name>/* x */"), "1 1 7")
    rndf("comment takes the name's tail", put(A, 1, "RNDF_name>a/*b*/"), "ok")
    odd = "!\"#$%&'()+,-./:;<=?@[]^_`{|}~"
    rndf("name of odd bytes", put(A, 1, "RNDF_name>" + odd), "ok")
    rndf("name with a greater-than", b"RNDF_name\ta>b\n" + text(A[1:]), "ok")
    rndf("name is a keyword", put(A, 1, "RNDF_name>end_file"), "ok")
    rndf("name is a number", put(A, 1, "RNDF_name>00"), "ok")
    rndf("lowest and highest byte in a name", put(A, 1, "RNDF_name>!~"), "ok")

    # line lengths, counted without the CR
    for size in (511, 512, 513, 514):
        tabs = "segment>" + ">" * (size - 9) + "1"
        number = "ok" if size <= 512 else "1 4 2"
        rndf("line of %d, tabs" % size, put(A, 4, tabs), number)
        rndf("line of %d and CR" % size, put(A, 4, tabs + "\r"), number)
        rndf("blank line of %d tabs" % size, ins(A, 4, ">" * size), number)
        rndf("comment line of %d" % size,
             ins(A, 4, "/*" + "x" * (size - 4) + "*/"), number)
        rndf("line of %d after end_file" % size, A + [">" * size],
             "ok" if size <= 512 else "1 15 2")
        mdf("MDF line of %d" % size, put(M, 4, "num_checkpoints" + ">" * (size - 16) + "1"),
            "ok" if size <= 512 else "2 4 2")
    rndf("512 bytes and two CR", put(A, 4, ">" * 512 + "\r\r"), "1 4 2")
    rndf("511 bytes and two CR", put(A, 4, ">" * 511 + "\r\r"), "1 4 4")
    rndf("unfinished last line of 512",
         text(A[:-1]) + b"end_file" + b"\t" * 504, "ok")
    rndf("unfinished last line of 513",
         text(A[:-1]) + b"end_file" + b"\t" * 505, "1 14 2")
    rndf("unfinished last line of 512 and CR",
         text(A[:-1]) + b"end_file" + b"\t" * 504 + b"\r", "ok")

    # the order 2, 3, 4, 5, 6, 7, 8, 9 within one line
    rndf("2 before 3", put(A, 4, "/*" + "x" * 511), "1 4 2")
    rndf("2 before 4", put(A, 4, "\x00" * 513), "1 4 2")
    rndf("2 before 5", put(A, 4, "q" * 513), "1 4 2")
    rndf("3 before 4, byte before the comment", put(A, 4, "\\ /* x"), "1 4 3")
    rndf("3 before 4, byte in the comment", put(A, 4, "/* \x00 */ x"), "1 4 3")
    rndf("3 before 5", put(A, 4, "nonsense/*"), "1 4 3")
    rndf("4 before 5", put(A, 4, "nonsense*"), "1 4 4")
    rndf("4 before 7", put(A, 4, "segment>1>\\"), "1 4 4")
    rndf("4 in the comment before 5", put(A, 4, "nonsense/*\x01*/"), "1 4 4")
    rndf("5 before 7", put(A, 4, "zone>1>2>3"), "1 4 5")
    rndf("5 before 8", put(A, 4, "zone>x"), "1 4 5")
    rndf("7 before 8", put(A, 4, "segment>x>y"), "1 4 7")
    rndf("7 before 9", put(A, 4, "segment>2>2"), "1 4 7")
    rndf("7 for no field", put(A, 4, "segment"), "1 4 7")


# ------------------------------------------------------ L3: spaces

def spaces():
    """"a separator shall be any run of tabs and spaces, and such a run is
    nothing at a line's start and end, also before and behind a comment"."""
    for n, line in ((12, "end_lane "), (12, " end_lane"), (6, "lane > 1.1"),
                    (14, "end_file /* x */ >"), (6, "lane 1.1"), (6, "  lane   1.1  "),
                    (6, " >lane> >1.1> > "), (14, "end_file/* x */ "),
                    (14, "end_file /* x */"), (14, " /* x */ end_file"[9:] + " "),
                    (9, "exit 1.1.2>1.1.1"), (9, "exit>1.1.2 1.1.1"),
                    (10, "1.1.1 45.000000 -93.000000"), (8, "checkpoint 1.1.2 7 /**/ "),
                    (1, "RNDF_name yard_a"), (1, "  RNDF_name   yard_a   /* n */")):
        pair("spaces: line %d is %r" % (n, line), put(A, n, line), M, "ok")
    for n in range(1, len(A) + 2):
        rndf("line of spaces before line %d" % n, ins(A, n, " "), "ok")
        rndf("spaces, tab and comment before line %d" % n, ins(A, n, "  > /* c */ > "), "ok")
    pair("spaces for tabs", [l.replace(">", " ") for l in A], [l.replace(">", " ") for l in M], "ok")
    pair("eight spaces for tabs", [l.replace(">", " " * 8) for l in A],
         [l.replace(">", " " * 8) for l in M], "ok")
    pair("yard B, spaces for tabs", [l.replace(">", "    ") for l in YARD_B],
         [l.replace(">", " > ") for l in MISSION_B], "ok")
    pair("spaces about every line", ["  " + l + " > " for l in YARD_B],
         [" > " + l + "  " for l in MISSION_B], "ok")
    pair("spaces about every comment", [l + "  /* x */  " for l in YARD_B],
         [l + " > /**/ > " for l in MISSION_B], "ok")
    pair("spaces and CR LF", text([" " + l + " " for l in A], "\r\n"),
         text([" " + l + " " for l in M], "\r\n"), "ok")
    rndf("space behind the CR", put(A, 4, "segment>1\r "), "1 4 4")
    rndf("behind end_file: spaces and comment", A + [" ", "  > ", " /* x */ "], "ok")
    rndf("behind end_file: a field behind a space", A + [" x"], "1 15 5")
    for size in (511, 512, 513):
        want = "ok" if size <= 512 else "1 4 2"
        rndf("%d spaces" % size, ins(A, 4, " " * size), want)
        rndf("line of %d, spaces" % size, put(A, 4, "segment 1" + " " * (size - 9)), want)
    # a name has no spaces, so its own blank makes two fields
    rndf("segment_name my road", ins(A, 6, "segment_name my road"), "1 6 7 1")
    rndf("RNDF_name with a blank", put(A, 1, "RNDF_name>yard a"), "1 1 7")
    mdf("RNDF with a blank", put(M, 2, "RNDF>yard a"), "2 2 7")
    rndf("blank in an identifier", put(A, 6, "lane>1. 1"), "1 6 7")
    rndf("blank in a keyword", put(A, 12, "end lane"), "1 12 5")
    rndf("no separator", put(A, 6, "lane1.1"), "1 6 5")
    mdf("blank in a goal", put(M, 5, "7 7"), "2 5 7")
    mdf("limit by spaces", put(M, 9, "1 5 0"), "ok")
    rndf("field behind a comment and a space", put(A, 12, "end_lane /* x */ y"), "1 12 3 10")
    rndf("comment behind a comment and a space", put(A, 12, "end_lane /* x */ /* y */"), "1 12 3")
    rndf("comment open behind a space", put(A, 12, "end_lane /* x "), "1 12 3")
    rndf("star behind a space", put(A, 12, "end_lane *"), "1 12 4 10")
    for byte in "\x0b\x0c\x1f\xa0\x85\x00":
        rndf("no separator: %r" % byte, put(A, 6, "lane%s1.1" % byte), "1 6 4 5")
        rndf("no blank line: %r" % byte, ins(A, 6, byte), "1 6 4")
    rndf("mark open in a slash and a space", put(A, 12, "end_lane/ *x*/"), "1 12 4")


# ---------------------------------------------------------- after end_file

def after_the_end():
    rndf("after end_file: blank", A + ["", ">", "\r", "/* x */"], "ok")
    rndf("after end_file: end_file", A + ["end_file"], "1 15 5")
    rndf("after end_file: unknown", A + ["", "x"], "1 16 5")
    rndf("after end_file: digit", A + ["1.1.1>1.000000>1.000000"], "1 15 5")
    rndf("after end_file: segment", A + ["segment>2"], "1 15 5")
    rndf("after end_file: byte", A + ["\x00"], "1 15 4")
    rndf("after end_file: space", A + [" "], "ok")
    rndf("after end_file: comment open", A + ["/*"], "1 15 3")
    rndf("after end_file: tail of comment", A + ["/**/x"], "1 15 3")
    rndf("after end_file: long", A + ["x" * 513], "1 15 2")
    rndf("after end_file: whole file again", A + A, "1 15 5")
    rndf("after end_file: RNDF_name", A + ["RNDF_name>x"], "1 15 5")
    rndf("after end_file: MDF", A + M, "1 15 5")
    mdf("after MDF end_file: blank", M + ["", ">", "\r", "/* x */"], "ok")
    mdf("after MDF end_file: end_file", M + ["end_file"], "2 12 5")
    mdf("after MDF end_file: digit", M + ["7"], "2 12 5")
    mdf("after MDF end_file: unknown", M + ["x"], "2 12 5")
    mdf("after MDF end_file: byte", M + ["\x00"], "2 12 4")
    mdf("after MDF end_file: comment", M + ["/*/"], "2 12 3")
    mdf("after MDF end_file: long", M + [">" * 513], "2 12 2")
    rndf("end_file with a field", put(A, 14, "end_file>x"), "1 14 7")
    mdf("MDF end_file with a field", put(M, 11, "end_file>x"), "2 11 7")
    pair("RNDF only end_file", b"end_file\n", M, "1 1 5")
    mdf("MDF only end_file", b"end_file\n", "2 1 5")
    mdf("MDF empty", b"", "2 1 10")
    mdf("MDF without end_file", M[:-1], "2 11 10")
    mdf("MDF blank lines only", b"\n\r\n\t\n", "2 4 10")
    pair("both empty", b"", b"", "1 1 10")
    pair("texts exchanged", M, A, "1 1 5")
    pair("RNDF twice", A, A, "2 1 5")
    rndf("MDF as RNDF", M, "1 1 5")


# ------------------------------------------------------------ field kinds

def integers():
    spellings = [("01", 8), ("00", 8), ("+1", 8), ("-1", 8), ("1.", 8),
                 (".1", 8), ("1.0", 8), ("1x", 8), ("x", 8), ("0x1", 8),
                 ("1e0", 8), ("000001", 8), ("100000", 8), ("999999", 8),
                 ("032768", 8), ("4294967297", 8), ("18446744073709551617", 8),
                 ("32769", 9), ("65536", 9), ("65537", 9), ("99999", 9),
                 ("0", 9)]
    for value, number in spellings:
        by_line("num_segments", 2, [("num_segments>" + value, number)])
        by_line("num_zones", 3, [("num_zones>" + value,
                                  number)] if value != "0" else [])
        by_line("segment", 4, [("segment>" + value, number)])
        by_line("num_lanes", 5, [("num_lanes>" + value, number)])
        by_line("num_waypoints", 7, [("num_waypoints>" + value, number)])
        by_line("checkpoint number", 8, [("checkpoint>1.1.2>" + value, number)])
        by_line("num_checkpoints", 4, [("num_checkpoints>" + value, number)], M, 2)
        by_line("num_speed_limits", 8, [("num_speed_limits>" + value, number)], M, 2)
        if value[0].isdigit():
            by_line("goal", 5, [(value, number)], M, 2)
            by_line("limit id", 9, [(value + ">0>15", number)], M, 2)
        by_line("limit maximum", 9, [("1>0>" + value,
                                      number)] if value != "0" else [], M, 2)
        by_line("limit minimum", 9, [("1>" + value + ">15",
                                      number)] if value != "0" else [], M, 2)
    by_line("goal not beginning with a digit", 5,
            [("-1", 5), ("+7", 5), (".7", 5), ("x7", 5), ("seven", 5)], M, 2)
    by_line("limit not beginning with a digit", 9,
            [("-1>0>15", 5), ("x>0>15", 5), ("limit>1>0>15", 5)], M, 2)
    for width in ("0", "1", "12", "32767", "32768"):
        rndf("lane_width " + width, ins(A, 8, "lane_width>" + width), "ok")
    for width, number in (("32769", 9), ("65535", 9), ("65536", 9), ("99999", 9),
                          ("00", 8), ("-0", 8), ("100000", 8), ("12.5", 8)):
        rndf("lane_width " + width, ins(A, 8, "lane_width>" + width), "1 8 %d" % number)
    c = ins(YARD_C, 20, "spot_width>%s")
    for width, want in (("0", "1 20 9"), ("1", "ok"), ("32768", "ok"),
                        ("32769", "1 20 9"), ("65535", "1 20 9"),
                        ("00", "1 20 8"), ("100000", "1 20 8"), ("9ft", "1 20 8")):
        rndf("spot_width " + width, [l.replace("%s", width) for l in c], want)
    for value, want in (("00", 8), ("01", 8), ("-1", 8), ("100000", 8),
                        ("32769", 9), ("99999", 9)):
        rndf("num_spots " + value, put(YARD_C, 13, "num_spots>" + value), "1 13 %d" % want)
        rndf("num_perimeterpoints " + value,
             put(YARD_C, 15, "num_perimeterpoints>" + value), "1 15 %d" % want)
        rndf("zone " + value, put(YARD_C, 12, "zone>" + value), "1 12 %d" % want)
    rndf("num_perimeterpoints 0", put(YARD_C, 15, "num_perimeterpoints>0"), "1 15 9")
    rndf("num_spots 0 with a spot", put(YARD_C, 13, "num_spots>0"), "1 19 5")
    rndf("num_spots 2 with one spot", put(YARD_C, 13, "num_spots>2"), "1 24 5")
    rndf("num_spots 32768 with one spot", put(YARD_C, 13, "num_spots>32768"), "1 24 5")
    rndf("num_perimeterpoints 1 with two", put(YARD_C, 15, "num_perimeterpoints>1"), "1 17 5")
    rndf("num_perimeterpoints 3 with two", put(YARD_C, 15, "num_perimeterpoints>3"), "1 18 5")
    rndf("num_perimeterpoints 32768", put(YARD_C, 15, "num_perimeterpoints>32768"), "1 18 5")
    rndf("num_lanes 2 with one", put(A, 5, "num_lanes>2"), "1 13 5")
    rndf("num_lanes 32768", put(A, 5, "num_lanes>32768"), "1 13 5")
    rndf("num_segments 2 with one", put(A, 2, "num_segments>2"), "1 14 5")
    rndf("num_segments 32768", put(A, 2, "num_segments>32768"), "1 14 5")
    rndf("num_waypoints 32768", put(A, 7, "num_waypoints>32768"), "1 12 5")
    rndf("num_waypoints 32768 and exit from the last",
         put(put(A, 7, "num_waypoints>32768"), 9, "exit>1.1.32768>1.1.1"), "1 12 5")
    mdf("num_checkpoints 2 with one", put(M, 4, "num_checkpoints>2"), "2 6 5")
    mdf("num_checkpoints 32768", put(M, 4, "num_checkpoints>32768"), "2 6 5")
    mdf("num_speed_limits 2 with one", put(M, 8, "num_speed_limits>2"), "2 10 5")
    mdf("num_speed_limits 32768", put(M, 8, "num_speed_limits>32768"), "2 10 5")
    mdf("two goals, one declared", ins(M, 6, "7"), "2 6 5")
    mdf("two limits, one declared", ins(M, 10, "1>0>15"), "2 10 5")

    # M + N at the boundary
    for m, n, want in ((32768, 0, "1 14 5"), (32768, 1, "1 3 9"),
                       (32767, 1, "1 14 5"), (32767, 2, "1 3 9"),
                       (1, 32767, "1 14 5"), (1, 32768, "1 3 9"),
                       (16384, 16384, "1 14 5"), (16385, 16384, "1 3 9"),
                       (32768, 32768, "1 3 9")):
        rndf("M %d N %d" % (m, n),
             put(put(A, 2, "num_segments>%d" % m), 3, "num_zones>%d" % n), want)
    rndf("M 32768 N 99999", put(put(A, 2, "num_segments>32768"), 3, "num_zones>99999"), "1 3 9")
    rndf("M 32768 N 100000", put(put(A, 2, "num_segments>32768"), 3, "num_zones>100000"), "1 3 8")
    # checkpoint numbers at the edges of the marks
    for number in (1, 2, 32767, 32768):
        rndf("checkpoint number %d" % number,
             put(A, 8, "checkpoint>1.1.2>%d" % number), "ok")
        rndf("checkpoint number %d twice" % number,
             put(A, 8, "checkpoint>1.1.2>%d" % number,
                 "checkpoint>1.1.1>%d" % number), "1 9 13")
        pair("goal %d" % number, put(A, 8, "checkpoint>1.1.2>%d" % number),
             put(M, 5, str(number)), "ok")


def identifiers():
    # `lane`: m.n
    for value, number in (("1", 8), ("1.1.1", 8), ("1.1.", 8), (".1.1", 8),
                          ("1..1", 8), ("1.", 8), (".1", 8), (".", 8),
                          ("01.1", 8), ("1.01", 8), ("1.00", 8), ("1,1", 8),
                          ("x.1", 8), ("1.x", 8), ("1.-1", 8), ("-1.1", 8),
                          ("100000.1", 8), ("1.100000", 8), ("1.1x", 8),
                          ("1.0", 9), ("0.1", 9), ("0.0", 9), ("2.1", 9),
                          ("1.2", 9), ("1.32769", 9), ("32769.1", 9),
                          ("99999.99999", 9), ("65537.65537", 9), ("32769", 8)):
        by_line("lane", 6, [("lane>" + value, number)])
        by_line("perimeter", 14, [("perimeter>" + value,
                                   number if value != "2.1" else 9)], YARD_C)
        by_line("spot", 19, [("spot>" + value, number)] if value != "2.1"
                else [], YARD_C)
    rndf("perimeter 3.0", put(YARD_C, 14, "perimeter>3.0"), "1 14 9")
    rndf("perimeter 2", put(YARD_C, 14, "perimeter>2"), "1 14 8")
    rndf("perimeter 2.0.1", put(YARD_C, 14, "perimeter>2.0.1"), "1 14 8")
    rndf("spot 2.2 first", put(YARD_C, 19, "spot>2.2"), "1 19 9")
    rndf("spot 2.0", put(YARD_C, 19, "spot>2.0"), "1 19 9")
    rndf("spot 1.1", put(YARD_C, 19, "spot>1.1"), "1 19 9")
    # point lines and references x.y.z
    forms = [("1", 8), ("1.1", 8), ("1.1.1.1", 8), ("1.1.1.", 8), ("1..1", 8),
             ("1.1..1", 8), ("01.1.1", 8), ("1.01.1", 8), ("1.1.01", 8),
             ("1.1.00", 8), ("100000.1.1", 8), ("1.100000.1", 8),
             ("1.1.100000", 8), ("1.1.1x", 8), ("1x.1.1", 8), ("1-1-1", 8),
             ("2.1.1", 9), ("1.2.1", 9), ("1.0.1", 9), ("1.1.0", 9),
             ("0.1.1", 9), ("0.0.0", 9), ("1.1.3", 9), ("1.1.32768", 9),
             ("1.1.32769", 9), ("1.32769.1", 9), ("32769.1.1", 9),
             ("65537.1.1", 9), ("1.65537.1", 9), ("1.1.65537", 9),
             ("99999.99999.99999", 9)]
    for value, number in forms:
        by_line("point", 10, [(value + ">45.000000>-93.000000", number)])
        by_line("checkpoint waypoint", 8, [("checkpoint>" + value + ">7", number)])
        by_line("exit waypoint", 9, [("exit>" + value + ">1.1.1", number)])
        rndf("stop waypoint " + value, ins(A, 9, "stop>" + value), "1 9 %d" % number)
    by_line("point", 10, [("1.1.2>45.000000>-93.000000", 9)])
    by_line("point", 11, [("1.1.1>45.000000>-93.000000", 9),
                          ("1.1.3>45.000000>-93.000000", 9)])
    for value, number in (("", 7), (".1.1", 8), ("1.1.", 8), ("x", 8), ("-1.1.1", 8)):
        by_line("exit waypoint", 9, [("exit>" + value + ">1.1.1", number)])
        by_line("exit entry", 9, [("exit>1.1.2>" + value, number)])
    # entries from a lane
    for value, number in (("1", 8), ("1.1", 8), ("1.1.1.1", 8), ("01.1.1", 8),
                          ("1.00.1", 8), ("1.1.100000", 8), ("0.1.1", 9),
                          ("1.1.0", 9), ("1.0.0", 9), ("0.0.1", 9), ("0.0.0", 9),
                          ("32769.1.1", 9), ("1.32769.1", 9), ("1.1.32769", 9),
                          ("1.1.65537", 9), ("65537.1.1", 9),
                          ("1.0.1", 12), ("1.2.1", 12), ("2.1.1", 12),
                          ("2.0.1", 12), ("1.1.3", 12), ("1.1.32768", 12),
                          ("1.32768.1", 12), ("32768.1.1", 12),
                          ("32768.0.32768", 12), ("32768.32768.32768", 12),
                          ("1.1.1", "ok"), ("1.1.2", "ok")):
        by_line("exit entry", 9, [("exit>1.1.2>" + value, number)])
    # entries from a lane and from a perimeter in a yard with a zone
    for value, number in (("1.1.1", "ok"), ("1.1.2", "ok"), ("2.0.1", "ok"),
                          ("2.0.2", "ok"), ("2.0.3", 12), ("2.1.1", 12),
                          ("2.1.2", 12), ("2.2.1", 12), ("1.0.1", 12),
                          ("3.0.1", 12), ("1.1.3", 12), ("1.2.1", 12),
                          ("3.1.1", 12)):
        want = "ok" if number == "ok" else "1 8 %d" % number
        rndf("yard C exit entry " + value, ins(YARD_C, 8, "exit>1.1.1>" + value), want)
    for value, number in (("1.1.1", "ok"), ("1.1.2", "ok"), ("1.1.3", 12),
                          ("1.2.1", 12), ("2.1.1", 12), ("3.1.1", 12),
                          ("2.0.1", 9), ("2.0.2", 9), ("1.0.1", 9), ("0.1.1", 9),
                          ("1.1.0", 9), ("1.1", 8), ("1.1.32769", 9),
                          ("1.1.032", 8)):
        want = "ok" if number == "ok" else "1 16 %d" % number
        rndf("yard C perimeter exit entry " + value,
             ins(YARD_C, 16, "exit>2.0.2>" + value), want)
    for value, number in (("2.0.1", "ok"), ("2.0.2", "ok"), ("2.0.3", 9),
                          ("2.0.0", 9), ("2.1.1", 9), ("1.0.1", 9), ("1.1.1", 9),
                          ("3.0.1", 9), ("2.0", 8), ("2.00.1", 8), ("2.0.32769", 9)):
        want = "ok" if number == "ok" else "1 16 %d" % number
        rndf("yard C perimeter exit point " + value,
             ins(YARD_C, 16, "exit>%s>1.1.1" % value), want)
    for value, number in (("2.0.2", 9), ("2.0.0", 9), ("2.1.1", 9), ("1.0.1", 9),
                          ("2.0.1.1", 8), ("2.0", 8), ("2.00.1", 8), ("2.0.01", 8)):
        rndf("yard C perimeter point " + value,
             put(YARD_C, 16, value + ">3.000000>3.000000"), "1 16 %d" % number)
    for value, number in (("2.1.2", 9), ("2.1.0", 9), ("2.0.1", 9), ("2.2.1", 9),
                          ("1.1.1", 9), ("2.1", 8), ("2.1.01", 8)):
        rndf("yard C spot point " + value,
             put(YARD_C, 21, value + ">3.000000>3.000000"), "1 21 %d" % number)
    for value, number in (("2.1.1", 9), ("2.1.2", "ok"), ("2.1.3", 9),
                          ("2.1.0", 9), ("2.0.1", 9), ("1.1.1", 9), ("2.2.1", 9),
                          ("2.1", 8), ("2.1.1.1", 8)):
        want = "ok" if number == "ok" else "1 20 %d" % number
        rndf("yard C spot checkpoint " + value,
             put(YARD_C, 20, "checkpoint>%s>5" % value), want)
    # segment and zone ids
    for value, number in (("2", 9), ("0", 9), ("1.1", 8), ("32768", 9)):
        by_line("segment id", 4, [("segment>" + value, number)])
    for value, number in (("1", 9), ("3", 9), ("0", 9), ("2.0", 8)):
        rndf("zone id " + value, put(YARD_C, 12, "zone>" + value), "1 12 %d" % number)
    for value, number in (("1", 9), ("3", 9), ("0", 9)):
        rndf("second segment id " + value, put(YARD_B, 30, "segment>" + value), "1 30 9")
        rndf("second lane id 1." + value, put(YARD_B, 23, "lane>1." + value), "1 23 9")


def coordinates():
    for lat, number in (("0.000000", "ok"), ("-0.000000", "ok"),
                        ("-0.500000", "ok"), ("0.500000", "ok"),
                        ("-0.000001", "ok"), ("0.000001", "ok"),
                        ("90.000000", "ok"), ("-90.000000", "ok"),
                        ("89.999999", "ok"), ("-89.999999", "ok"),
                        ("-1.500000", "ok"), ("9.999999", "ok"),
                        ("90.000001", 9), ("-90.000001", 9), ("91.000000", 9),
                        ("100.000000", 9), ("180.000000", 9), ("999.999999", 9),
                        ("-999.999999", 9), ("1000.000000", 8),
                        ("00.000000", 8), ("000.000000", 8), ("01.000000", 8),
                        ("-00.000000", 8), ("-01.000000", 8), ("045.000000", 8),
                        ("+45.000000", 8), ("--45.000000", 8), ("-.500000", 8),
                        (".500000", 8), ("45.", 8), ("45", 8), ("-45", 8),
                        ("45.00000", 8), ("45.0000000", 8), ("45.000000.", 8),
                        ("45.000000.0", 8), ("45.00000x", 8), ("45,000000", 8),
                        ("45.00000-", 8), ("4 5.000000", 7), ("45.0e0000", 8),
                        ("-", 8), (".", 8), ("-.", 8), ("45.-00000", 8),
                        ("45..000000", 8), ("x45.000000", 8), ("0.000000-", 8),
                        ("4500.0000", 8), ("-0", 8)):
        by_line("latitude", 10, [("1.1.1>%s>-93.000000" % lat, number)])
    for lon, number in (("0.000000", "ok"), ("-0.000000", "ok"),
                        ("-0.500000", "ok"), ("-0.000001", "ok"),
                        ("180.000000", "ok"), ("-180.000000", "ok"),
                        ("179.999999", "ok"), ("-179.999999", "ok"),
                        ("100.000000", "ok"), ("-100.000001", "ok"),
                        ("180.000001", 9), ("-180.000001", 9), ("181.000000", 9),
                        ("200.000000", 9), ("360.000000", 9), ("999.999999", 9),
                        ("1000.000000", 8), ("0180.000000", 8), ("-093.000000", 8),
                        ("93.00000", 8), ("93.0000000", 8), ("93", 8),
                        ("93.000000W", 8), ("+93.000000", 8)):
        by_line("longitude", 11, [("1.1.2>45.000100>" + lon, number)])
    # perimeter and spot points go the same way
    for n, name in ((16, "2.0.1"), (21, "2.1.1")):
        for lat, lon, number in (("-0.500000", "-0.000000", "ok"),
                                 ("-90.000000", "-180.000000", "ok"),
                                 ("90.000001", "0.000000", 9),
                                 ("0.000000", "180.000001", 9),
                                 ("0.00000", "0.000000", 8),
                                 ("91.000000", "x", 8)):
            want = "ok" if number == "ok" else "1 %d %d" % (n, number)
            rndf("point %s %s %s" % (name, lat, lon),
                 put(YARD_C, n, "%s>%s>%s" % (name, lat, lon)), want)


def names_and_words():
    place = [("RNDF_name", A, 1, False), ("format_version", A, 4, True),
             ("creation_date", A, 4, True), ("segment_name", A, 6, True),
             ("zone_name", YARD_C, 14, True)]
    for keyword, base, n, insert in place:
        for name, want in (("n", "ok"), ("n" * 127, "ok"), ("n" * 128, "ok"),
                           ("n" * 129, 8), ("n" * 400, 8), ("a>b", 7), ("", 7),
                           ("0", "ok"), ("end_file", "ok"), ("-", "ok")):
            line = keyword + ">" + name
            lines = ins(base, n, line) if insert else put(base, n, line)
            rndf("%s of %d: %s" % (keyword, len(name), name[:10]), lines,
                 "ok" if want == "ok" else "1 %d %d" % (n, want))
    for keyword, n, insert in (("MDF_name", 1, False), ("format_version", 3, True),
                               ("creation_date", 3, True)):
        for name, want in (("n", "ok"), ("n" * 128, "ok"), ("n" * 129, 8),
                           ("a>b", 7), ("", 7)):
            line = keyword + ">" + name
            lines = ins(M, n, line) if insert else put(M, n, line)
            mdf("MDF %s of %d: %s" % (keyword, len(name), name[:10]), lines,
                "ok" if want == "ok" else "2 %d %d" % (n, want))
    for name, want in (("yard_a", "ok"), ("yard_b", 14), ("Yard_a", 14),
                       ("yard_", 14), ("yard_aa", 14), ("yard_a.", 14), ("y", 14),
                       ("round_1", 14), ("n" * 128, 14), ("n" * 129, 8),
                       ("yard_a>yard_a", 7), ("yard_a/* yard_b */", "ok"),
                       ("yard_a/", 14)):
        mdf("RNDF name in the MDF, %d: %s" % (len(name), name[:20]),
            put(M, 2, "RNDF>" + name),
            "ok" if want == "ok" else "2 2 %d" % want)
    long = "n" * 128
    pair("names equal but for byte 128", put(A, 1, "RNDF_name>" + long),
         put(M, 2, "RNDF>" + "n" * 127 + "m"), "2 2 14")
    pair("names equal but for byte 1", put(A, 1, "RNDF_name>" + long),
         put(M, 2, "RNDF>" + "m" + "n" * 127), "2 2 14")
    pair("name one shorter in the MDF", put(A, 1, "RNDF_name>" + long),
         put(M, 2, "RNDF>" + "n" * 127), "2 2 14")
    for side in ("left_boundary", "right_boundary"):
        for word in ("double_yellow", "solid_yellow", "solid_white", "broken_white"):
            rndf("%s %s" % (side, word), ins(A, 8, "%s>%s" % (side, word)), "ok")
        for word in ("double_white", "Double_yellow", "double_yello",
                     "double_yellows", "solid", "broken_yellow", "1", "0", "none",
                     "solid_white_", "w" * 129):
            rndf("%s %s" % (side, word[:14]), ins(A, 8, "%s>%s" % (side, word)), "1 8 8")
        rndf(side + " without a word", ins(A, 8, side), "1 8 7")
        rndf(side + " with two words", ins(A, 8, side + ">solid_white>solid_white"), "1 8 7")
    rndf("keyword in capitals", put(A, 4, "Segment>1"), "1 4 5")
    rndf("keyword cut", put(A, 4, "segmen>1"), "1 4 5")
    rndf("keyword longer", put(A, 4, "segments>1"), "1 4 5")
    rndf("keyword rndf_name", put(A, 1, "rndf_name>yard_a"), "1 1 5")
    rndf("keyword RNDF in an RNDF", put(A, 1, "RNDF>yard_a"), "1 1 5")
    rndf("keyword MDF_name in an RNDF", put(A, 1, "MDF_name>yard_a"), "1 1 5")
    mdf("keyword RNDF_name in an MDF", put(M, 2, "RNDF_name>yard_a"), "2 2 5")
    mdf("keyword rndf", put(M, 2, "rndf>yard_a"), "2 2 5")
    rndf("a keyword and a comment without tab", put(A, 12, "end_lane/*x*/"), "ok")
    rndf("keyword glued to its field", put(A, 4, "segment1"), "1 4 5")


# ------------------------------------------------------- several faults

def several_faults():
    # all fields tried for 8 before any for 9
    by_line("8 before 9", 10, [
        ("1.1.9>45.000000>-93.00000", 8), ("1.1.9>45.00000>-93.000000", 8),
        ("1.1.1>90.000001>-93.00000", 8), ("1.1.1>90.000001>-180.000001", 9),
        ("9.9.9>99.000000>x", 8), ("1.1.32769>91.000000>200.000000", 9),
        ("1.1>91.000000>200.000000", 8)])
    by_line("8 before 9", 8, [
        ("checkpoint>1.1.9>x", 8), ("checkpoint>1.1.9>07", 8),
        ("checkpoint>1.1.9>0", 9), ("checkpoint>1.1>0", 8),
        ("checkpoint>1.1.9>100000", 8), ("checkpoint>9.9.9>32769", 9)])
    by_line("8 before 9", 9, [
        ("exit>1.1.9>1.1", 8), ("exit>1.1.9>1.1.01", 8), ("exit>1.1>0.0.0", 8),
        ("exit>1.1.9>0.0.0", 9), ("exit>1.1.9>5.5.5", 9),
        ("exit>1.1.2>32769.1.1", 9), ("exit>1.1.2>100000.1.1", 8)])
    by_line("8 before 9", 9, [
        ("0>0>x", 8), ("0>10>5", 9), ("1>10>05", 8), ("32769>x>5", 8),
        ("1>32769>100000", 8), ("1>32769>32768", 9), ("1>99999>5", 9),
        ("0>32769>0", 9), ("1x>10>5", 8), ("01>10>5", 8)], M, 2)
    by_line("field counts", 10, [
        ("1.1.1", 7), ("1.1.1>45.000000", 7),
        ("1.1.1>45.000000>-93.000000>0", 7), ("x>45.000000>-93.000000", 5),
        ("1>2>3>4", 7), ("1>2>3", 8), ("0", 7), ("9", 7)])
    by_line("field counts", 8, [
        ("checkpoint", 7), ("checkpoint>1.1.2", 7), ("checkpoint>1.1.2>7>8", 7)])
    by_line("field counts", 9, [
        ("exit", 7), ("exit>1.1.2", 7), ("exit>1.1.2>1.1.1>1.1.1", 7)])
    by_line("field counts", 12, [("end_lane>1.1", 7), ("end_lane>end_lane", 7)])
    by_line("field counts", 5, [("7>7", 7), ("7>0>15", 7)], M, 2)
    by_line("field counts", 9, [("1", 7), ("1>0", 7), ("1>0>15>20", 7)], M, 2)
    by_line("field counts", 3, [("checkpoints>1", 7)], M, 2)
    by_line("field counts", 7, [("speed_limits>1", 7)], M, 2)
    by_line("field counts", 6, [("end_checkpoints>1", 7)], M, 2)
    by_line("field counts", 10, [("end_speed_limits>1", 7)], M, 2)
    # the first line decides, not the lowest number
    rndf("9 on line 4, 2 on line 5", put(put(A, 4, "segment>2"), 5, "x" * 600), "1 4 9")
    rndf("8 on line 4, 3 on line 13", put(put(A, 4, "segment>x"), 13, "/*"), "1 4 8")
    rndf("9 on line 10, 4 on line 11", put(put(A, 10, "1.1.1>91.000000>0.000000"), 11, "\x00"), "1 10 9")
    rndf("12 on line 9, 5 on line 14", put(put(A, 9, "exit>1.1.2>5.5.5"), 14, "x"), "1 14 5")
    rndf("12 on line 9, 4 after end_file", put(A, 9, "exit>1.1.2>5.5.5") + ["\x00"], "1 15 4")
    rndf("12 on line 9, 5 after end_file", put(A, 9, "exit>1.1.2>5.5.5") + ["x"], "1 15 5")
    rndf("12 on line 9, text ends", put(A, 9, "exit>1.1.2>5.5.5")[:-1], "1 14 10")
    rndf("13 on line 9, text ends", ins(A, 9, A[7])[:-1], "1 15 10")
    rndf("12 on line 9, 13 on line 10",
         put(A, 9, "exit>1.1.2>5.5.5", "checkpoint>1.1.1>7"), "1 9 12")
    rndf("13 on line 9, 12 on line 10",
         put(A, 9, "checkpoint>1.1.1>7", "exit>1.1.2>5.5.5"), "1 9 13")
    rndf("two 12", put(A, 9, "exit>1.1.2>1.1.1", "exit>1.1.2>1.1.3", "exit>1.1.2>1.1.4"), "1 10 12")
    rndf("two 13", put(A, 8, "checkpoint>1.1.2>7", "checkpoint>1.1.2>8",
                       "checkpoint>1.1.2>8", "checkpoint>1.1.2>7"), "1 10 13")
    rndf("13 in lane 1.1, 12 later in zone",
         put(put(YARD_B, 15, "checkpoint>1.1.3>1"), 43, "exit>3.0.1>1.3.1"), "1 15 13")
    rndf("12 in zone before 13 in spot",
         put(put(YARD_B, 43, "exit>3.0.1>1.3.1"), 51, "checkpoint>3.1.2>1"), "1 43 12")
    rndf("13 in a spot", put(YARD_B, 51, "checkpoint>3.1.2>1"), "1 51 13")
    small = dict(ROOM, points=3)
    rndf("11 and 12", put(A, 9, "exit>1.1.2>5.5.5"), "1 0 11", small)
    rndf("11 and 13", ins(A, 9, A[7]), "1 0 11", small)
    rndf("11 and 10", A[:-1], "1 14 10", small)
    rndf("11 and 9 at the end", put(A, 11, "1.1.2>91.000000>0.000000"), "1 11 9", small)
    rndf("11 and 5 after the end", A + ["x"], "1 15 5", small)
    # RNDF before MDF
    pair("RNDF 12 and MDF 5", put(A, 9, "exit>1.1.2>5.5.5"), ["x"], "1 9 12")
    pair("RNDF 13 and MDF empty", ins(A, 9, A[7]), b"", "1 9 13")
    pair("RNDF 10 and MDF 2", A[:-1], ["x" * 600], "1 14 10")
    pair("RNDF 11 and MDF 5", A, ["x"], "1 0 11", small)
    pair("RNDF good and MDF 5", A, ["x"], "2 1 5")
    pair("goals short and RNDF 12", put(A, 9, "exit>1.1.2>5.5.5"), M, "1 9 12",
         dict(ROOM, goals=0))
    pair("goals short and MDF 14", A, put(M, 2, "RNDF>x"), "2 0 11", dict(ROOM, goals=0))
    pair("goals short and MDF 10", A, M[:-1], "2 11 10", dict(ROOM, goals=0))
    pair("limits short and MDF 16", A, put(M, 9, "2>0>15"), "2 0 11", dict(ROOM, limits=2))
    pair("limits short and MDF 9", A, put(M, 9, "1>10>5"), "2 9 9", dict(ROOM, limits=2))
    pair("points short and goals short", A, M, "1 0 11", dict(small, goals=0))
    # 14 to 18 by first line
    mdf("14 and 15", put(put(M, 2, "RNDF>x"), 5, "8"), "2 2 14")
    mdf("15 and 16", put(put(M, 5, "8"), 9, "2>0>15"), "2 5 15")
    mdf("14 and 18", put(put(M, 2, "RNDF>x"), 9, "2>0>15"), "2 2 14")
    mdf("14 and 9", put(put(M, 2, "RNDF>x"), 9, "1>10>5"), "2 9 9")
    mdf("14 and 5 after end_file", put(M, 2, "RNDF>x") + ["x"], "2 12 5")
    mdf("15 and 10", put(M, 5, "8")[:-1], "2 11 10")


# ------------------------------------------------------------ L7: columns

def columns():
    """"for 5, 6, 7 and 18 the first field; for 8, 9 and 12 to 17 the field at
    fault, leftmost first"."""
    C = YARD_C
    for n, line, want in (
            # 2, 3, 4
            (4, " " * 600, "2 513"), (4, "/*" + "x" * 511, "2 513"), (6, "lane>1.1>/* x", "3 10"),
            (4, "//* x", "3 2"), (4, "/* x */ y", "3 1"), (4, "segment>1/**//**/", "3 10"),
            (4, "  /*", "3 3"), (4, "\x00/*", "3 2"), (12, "end_lane /* x */ y", "3 10"),
            (12, "end_lane\\", "4 9"), (12, "end_lane>/* \x01 */", "4 13"), (12, "end_lane *", "4 10"),
            (4, "a/b*", "4 4"), (4, "*a", "4 1"), (4, "\xff\x00", "4 1"), (4, "a\\*/", "4 2"),
            (4, "segment>1\r\r", "4 10"), (4, "segment>1/*\x7f*/", "4 12"), (4, "a\\/*\x00*/", "4 2"),
            (4, "segment>1\x7f/**/", "4 10"), (4, "/*ab\x80*/", "4 5"),
            # 5, 6, 7
            (12, ">>end_zone", "5 3"), (12, " > x/**/", "5 4"), (12, "end_zone>1>2", "5 1"),
            (4, "  segment", "7 3"), (4, ">segment>1>2", "7 2"), (10, " 1.1.1", "7 2"),
            (10, "1.1.1>45.000000>-93.000000>1", "7 1"), (10, "1.1.1>x>y>z", "7 1"),
            # 8: the leftmost that is not of its kind, whatever gives 9
            (9, "exit>1.1.3>1.1", "8 12"), (9, "exit>1.1>1.1", "8 6"), (9, "exit>1.1>0.0.0", "8 6"),
            (10, "1.1.1>91.000000>x", "8 17"), (10, "1.1.1>x>x", "8 7"), (10, "1.1>x>x", "8 1"),
            (10, "  1.1.9   45.00000  200.000000", "8 11"), (8, "checkpoint>1.1.2>x", "8 18"),
            (8, "checkpoint>x>0", "8 12"), (4, "segment>>01", "8 10"), (6, "lane>1.1.1", "8 6"),
            (1, "RNDF_name> " + "n" * 129, "8 12"),
            # 9: the leftmost that is not permitted
            (9, "exit>1.1.3>0.1.1", "9 6"), (9, "exit>1.1.2>0.1.1", "9 12"), (9, "exit>1.1.2>1.1.32769", "9 12"),
            (9, "exit>1.1.3>1.1.32769", "9 6"), (9, "exit>1.1.3>1.1.3", "9 6"), (9, "exit>1.1.32769>0.1.1", "9 6"),
            (8, "checkpoint>1.1.2>0", "9 18"), (8, "checkpoint>1.1.3>0", "9 12"), (8, "checkpoint>1.1.3>32769", "9 12"),
            (8, "checkpoint>1.1.2>32769", "9 18"), (10, "1.1.2>91.000000>200.000000", "9 1"),
            (10, "1.1.1>91.000000>200.000000", "9 7"), (10, "1.1.1>90.000000>200.000000", "9 17"),
            (10, "1.1.2>45.000000>-93.000000", "9 1"), (10, "1.1.32769>45.000000>-93.000000", "9 1"),
            (10, " 1.1.1 45.000000 > 180.000001", "9 20"), (4, "segment> >2", "9 11"), (2, "num_segments>0", "9 14"),
            (3, "num_zones>32768", "9 11"), (5, "num_lanes 0", "9 11"), (6, "lane>1.2", "9 6"),
            # 12 and 13
            (9, "exit>1.1.2>1.1.3", "12 12"), (9, "  exit > 1.1.2 >> 2.0.1/**/", "12 19"), (9, "checkpoint>1.1.1>7", "13 18"),
            (9, "checkpoint  1.1.1     7", "13 23")):
        rndf("column: line %d is %s" % (n, line[:40]), put(A, n, line), "1 %d %s" % (n, want))
    for n, line, want in ((1, "MDF_name>" + "n" * 129, "8 10"), (2, "RNDF>yard_b", "14 6"), (2, " RNDF > yard_a/", "14 9"),
                          (4, "num_checkpoints>0", "9 17"), (5, "0", "9 1"), (5, " > 32769", "9 4"), (5, "x", "5 1"),
                          (5, "07", "8 1"), (5, "8", "15 1"), (5, "  8", "15 3"), (5, "7>7", "7 1"),
                          (9, "1>10>5", "9 6"), (9, "1>32769>0", "9 3"), (9, "1>5>32769", "9 5"), (9, "0>5>0", "9 1"),
                          (9, "0>10>5", "9 1"), (9, "0>32769>5", "9 1"), (9, "32769>10>5", "9 1"), (9, "1>32769>32769", "9 3"),
                          (9, "1>32769>5", "9 3"), (9, " 1  10  5", "9 9"), (9, "1>x>32769", "8 3"), (9, "0>5>x", "8 5"),
                          (9, "2>0>15", "16 1"), (9, "  2>0>15", "16 3"), (9, "2>10>5", "9 6"),
                          (10, "end_speed_limits>1", "7 1"), (11, " end", "5 2")):
        mdf("column: MDF line %d is %s" % (n, line[:40]), put(M, n, line), "2 %d %s" % (n, want))
    two = put(M, 8, "num_speed_limits>2")
    mdf("column of 17", put(two, 9, "1>0>0", "> 1>0>0"), "2 10 17 3")
    pair("column of 18", YARD_B, put(cut(MISSION_B, 17), 13, "num_speed_limits>3")[:16] + [" > end_speed_limits", "end_file"], "2 17 18 4")
    rndf("column of 6", ins(A, 8, "lane_width>1", "  lane_width>x>y"), "1 9 6 3")
    rndf("column of 5 behind end_file", A + ["  x"], "1 15 5 3")
    rndf("column of 10", A[:-1] + ["  ", "/**/"], "1 16 10 0")
    rndf("column of 11", A, "1 0 11 0", dict(ROOM, points=3))
    mdf("column of 11, MDF", M, "2 0 11 0", dict(ROOM, limits=2))
    rndf("column: perimeter exit, both", ins(C, 16, "exit>2.0.3>2.0.1"), "1 16 9 6")
    rndf("column: perimeter exit, entry", ins(C, 16, "exit>2.0.2>2.0.1"), "1 16 9 12")
    rndf("column: perimeter exit, 12", ins(C, 16, "exit>2.0.2>2.1.1"), "1 16 12 12")
    rndf("column: perimeter point", put(C, 16, "2.0.2>91.000000>1.000000"), "1 16 9 1")
    rndf("column: num_spots", put(C, 13, "num_spots>32769"), "1 13 9 11")
    rndf("column: zone", put(C, 12, "zone>3"), "1 12 9 6")
    rndf("column: perimeter", put(C, 14, " perimeter>2.1"), "1 14 9 12")
    rndf("column: stop", ins(A, 9, "stop>1.2.1"), "1 9 9 6")
    rndf("column: boundary", ins(A, 8, "left_boundary>x"), "1 8 8 15")


# ------------------------------------------------------------------ options

def options():
    import itertools
    version, date = "format_version>v", "creation_date>d"
    for n in range(3):
        for order in itertools.permutations([version, date], n):
            rndf("file options %s" % " ".join(o.split(">")[0] for o in order),
                 ins(A, 4, *order), "ok")
            mdf("MDF options %s" % " ".join(o.split(">")[0] for o in order),
                ins(M, 3, *order), "ok")
    single = ["lane_width>0", "left_boundary>solid_white", "right_boundary>broken_white"]
    repeat = ["checkpoint>1.1.1>3", "stop>1.1.2", "exit>1.1.1>1.1.2"]
    base = A[:7] + A[9:]
    k = 0
    for order in itertools.permutations(single + repeat):
        k += 1
        if k % 8 == 1:          # 90 of the 720 orders
            rndf("lane options in order %d" % k, ins(base, 8, *order), "ok")
    for order in itertools.permutations(["spot_width>7", "checkpoint>2.1.2>5"]):
        rndf("spot options %s first" % order[0], put(YARD_C, 20, *order), "ok")
    # given again
    for option in single + [single[0].replace("0", "1"), "left_boundary>solid_yellow"]:
        first = [o for o in single if o.split(">")[0] == option.split(">")[0]][0]
        rndf("lane option again: " + option, ins(base, 8, first, option), "1 9 6")
        rndf("lane option again behind others: " + option,
             ins(base, 8, first, *repeat, option), "1 12 6")
    for option, first in (("lane_width", "lane_width>1"), ("lane_width>x>y", "lane_width>1"),
                          ("lane_width>x", "lane_width>1"), ("lane_width>32769", "lane_width>1"),
                          ("left_boundary>x", "left_boundary>solid_white"),
                          ("right_boundary", "right_boundary>solid_white")):
        rndf("again and malformed: " + option, ins(base, 8, first, option), "1 9 6")
    rndf("again with a byte not allowed", ins(base, 8, "lane_width>1", "lane_width>*"), "1 9 4")
    rndf("again after the first point",
         A[:7] + ["lane_width>1", A[9], "lane_width>1"] + A[10:], "1 10 5")
    rndf("first width after the first point", ins(A, 11, "lane_width>1"), "1 11 5")
    for option in single + repeat:
        rndf("option between the points: " + option, ins(A, 11, option), "1 11 5")
        rndf("option behind the points: " + option, ins(A, 12, option), "1 12 5")
        rndf("option before num_waypoints: " + option, ins(A, 7, option), "1 7 5")
        rndf("option before lane: " + option, ins(A, 6, option), "1 6 5")
        rndf("option behind end_lane: " + option, ins(A, 13, option), "1 13 5")
    for option in (version, date):
        rndf("%s twice" % option, ins(A, 4, option, option), "1 5 6")
        rndf("%s again with another value" % option, ins(A, 4, option, option + "x"), "1 5 6")
        rndf("%s again and malformed" % option, ins(A, 4, option, option + ">x"), "1 5 6")
        rndf("%s again behind the other" % option, ins(A, 4, version, date, option), "1 6 6")
        rndf("%s before num_zones" % option, ins(A, 3, option), "1 3 5")
        rndf("%s before num_segments" % option, ins(A, 2, option), "1 2 5")
        rndf("%s first" % option, ins(A, 1, option), "1 1 5")
        rndf("%s behind segment" % option, ins(A, 5, option), "1 5 5")
        rndf("%s before end_file" % option, ins(A, 14, option), "1 14 5")
        rndf("%s again before end_file" % option, ins(ins(A, 14, option), 4, option), "1 15 5")
        mdf("MDF %s twice" % option, ins(M, 3, option, option), "2 4 6")
        mdf("MDF %s again and malformed" % option, ins(M, 3, option, option + ">x"), "2 4 6")
        mdf("MDF %s again without field" % option, ins(M, 3, option, option.split(">")[0]), "2 4 6")
        mdf("MDF %s before RNDF" % option, ins(M, 2, option), "2 2 5")
        mdf("MDF %s behind checkpoints" % option, ins(M, 4, option), "2 4 5")
        mdf("MDF %s before end_file" % option, ins(M, 11, option), "2 11 5")
    rndf("segment_name twice", ins(A, 6, "segment_name>a", "segment_name>a"), "1 7 6")
    rndf("segment_name three times", ins(A, 6, *["segment_name>a"] * 3), "1 7 6")
    rndf("segment_name before num_lanes", ins(A, 5, "segment_name>a"), "1 5 5")
    rndf("segment_name behind a lane", ins(A, 13, "segment_name>a"), "1 13 5")
    rndf("segment_name between lanes", ins(YARD_B, 23, "segment_name>a"), "1 23 5")
    rndf("segment_name again and malformed", ins(A, 6, "segment_name>a", "segment_name"), "1 7 6")
    rndf("second segment with a name", ins(YARD_B, 32, "segment_name>Two"), "ok")
    rndf("zone_name twice", ins(YARD_C, 14, "zone_name>a", "zone_name>b"), "1 15 6")
    rndf("zone_name again and too long", ins(YARD_C, 14, "zone_name>a", "zone_name>" + "n" * 129), "1 15 6")
    rndf("zone_name before num_spots", ins(YARD_C, 13, "zone_name>a"), "1 13 5")
    rndf("zone_name behind the perimeter", ins(YARD_C, 19, "zone_name>a"), "1 19 5")
    rndf("zone_name in a segment", ins(A, 6, "zone_name>a"), "1 6 5")
    rndf("segment_name in a zone", ins(YARD_C, 14, "segment_name>a"), "1 14 5")
    rndf("spot_width twice", ins(YARD_C, 20, "spot_width>1", "spot_width>1"), "1 21 6")
    rndf("spot_width again as 0", ins(YARD_C, 20, "spot_width>1", "spot_width>0"), "1 21 6")
    rndf("spot checkpoint twice", ins(YARD_C, 20, "checkpoint>2.1.2>5"), "1 21 6")
    rndf("spot checkpoint on both waypoints",
         ins(YARD_C, 21, "checkpoint>2.1.1>6"), "1 21 6")
    rndf("spot checkpoint again and malformed",
         ins(YARD_C, 21, "checkpoint"), "1 21 6")
    rndf("spot options behind the first point", ins(YARD_C, 22, "spot_width>1"), "1 22 5")
    rndf("spot checkpoint behind the points", ins(YARD_C, 23, "checkpoint>2.1.2>6"), "1 23 5")
    rndf("lane_width in a spot", ins(YARD_C, 20, "lane_width>1"), "1 20 5")
    rndf("spot_width in a lane", ins(YARD_C, 8, "spot_width>1"), "1 8 5")
    rndf("stop in a spot", ins(YARD_C, 20, "stop>2.1.1"), "1 20 5")
    rndf("exit in a spot", ins(YARD_C, 20, "exit>2.1.1>1.1.1"), "1 20 5")
    rndf("checkpoint in a perimeter", ins(YARD_C, 16, "checkpoint>2.0.1>5"), "1 16 5")
    rndf("stop in a perimeter", ins(YARD_C, 16, "stop>2.0.1"), "1 16 5")
    rndf("lane_width in a perimeter", ins(YARD_C, 16, "lane_width>1"), "1 16 5")
    rndf("exit before num_perimeterpoints", ins(YARD_C, 15, "exit>2.0.1>1.1.1"), "1 15 5")
    rndf("exit behind a perimeter point", ins(YARD_C, 17, "exit>2.0.1>1.1.1"), "1 17 5")
    rndf("options of one lane, again in the next",
         ins(ins(YARD_B, 34, "lane_width>0"), 25, "lane_width>9", "left_boundary>solid_white"), "ok")
    rndf("options of one spot, again in the next",
         ins(YARD_B, 56, "spot_width>9"), "ok")
    # repeats
    rndf("stop three times, equal", ins(A, 9, *["stop>1.1.1"] * 3), "ok")
    rndf("exit three times, equal", ins(A, 9, *["exit>1.1.1>1.1.2"] * 3), "ok")
    rndf("perimeter exit three times, equal",
         ins(YARD_C, 16, *["exit>2.0.2>1.1.2"] * 3), "ok")
    rndf("repeats mixed", put(A, 8, "stop>1.1.2", "checkpoint>1.1.2>7", "exit>1.1.2>1.1.2",
                              "stop>1.1.1", "checkpoint>1.1.2>5", "exit>1.1.1>1.1.1",
                              "stop>1.1.2", "checkpoint>1.1.1>6"), "ok")
    rndf("one waypoint, several checkpoints",
         put(A, 8, *["checkpoint>1.1.2>%d" % n for n in (9, 3, 7, 1)]), "ok")
    rndf("checkpoint same number, other waypoint",
         put(A, 8, "checkpoint>1.1.2>7", "checkpoint>1.1.1>7"), "1 9 13")
    rndf("checkpoint number again in another lane",
         ins(YARD_B, 25, "checkpoint>1.2.1>2"), "1 25 13")
    rndf("checkpoint number again in another segment",
         ins(YARD_B, 34, "checkpoint>2.1.1>1"), "1 34 13")
    rndf("no options at all", base, "ok")


# ------------------------------------------------ L8: a spot's checkpoint

def spot_checkpoints():
    """"a spot whose options give no checkpoint is refused at its first
    waypoint's line, and a spot's checkpoint on waypoint 1 at its own line"."""
    C = YARD_C                              # `checkpoint>2.1.2>5` is line 20
    bare = cut(C, 20)                       # and here the first waypoint
    rndf("spot without options", bare, "1 20 25 1")
    for line, want in ((">2.1.1>5.000000>5.000000", "25 2"), ("  2.1.1 5.000000 5.000000 /**/", "25 3"),
                       ("2.1.1>91.000000>0.000000", "9 7"), ("2.1.1>x>0.000000", "8 7"), ("2.1.1>0.000000>x", "8 16"),
                       ("2.1.2>0.000000>0.000000", "9 1"), ("2.1.1>0.000000>181.000000", "9 16"), ("2.1.1", "7 1"),
                       ("2.1.1>0.000000>0.000000>0", "7 1"), ("end_spot", "5 1"), ("2.1.1>0.000000>0.000000\\", "4 24"),
                       ("2.1.1/*", "3 6"), ("2.1.1" + " " * 508, "2 513"), ("spot_width>0", "9 12"), ("spot_width", "7 1")):
        rndf("bare spot, then %s" % line[:40], put(bare, 20, line), "1 20 " + want)
    rndf("spot with a width alone", put(C, 20, "spot_width>9"), "1 21 25 1")
    rndf("spot with a width twice", put(C, 20, "spot_width>9", "spot_width>9"), "1 21 6 1")
    rndf("spot with a blank line and a width", put(C, 20, "", "spot_width>9", "/**/"), "1 23 25 1")
    rndf("spot checkpoint on waypoint 1", put(C, 20, "checkpoint>2.1.1>5"), "1 20 9 12")
    rndf("spot checkpoint on waypoint 1, number 0", put(C, 20, "checkpoint>2.1.1>0"), "1 20 9 12")
    rndf("spot checkpoint on waypoint 1, number x", put(C, 20, "checkpoint>2.1.1>x"), "1 20 8 18")
    rndf("spot checkpoint on waypoint 2, number 0", put(C, 20, "checkpoint>2.1.2>0"), "1 20 9 18")
    rndf("spot checkpoint on waypoint 1 behind one on 2", ins(C, 21, "checkpoint>2.1.1>8"), "1 21 6 1")
    rndf("spot checkpoint on waypoint 1, number declared before", ins(put(C, 20, "checkpoint>2.1.1>5"), 8, "checkpoint>1.1.1>5"), "1 21 9 12")
    rndf("text ends behind the spot line", C[:19], "1 20 10 0")
    rndf("text ends behind a bare spot's width", C[:19] + ["spot_width>9"], "1 21 10 0")
    rndf("text ends behind a bare first waypoint", bare[:20], "1 20 25 1")
    rndf("second of two spots bare", cut(YARD_B, 56), "1 56 25 1")
    rndf("first of two spots bare", cut(YARD_B, 51), "1 51 25 1")
    rndf("both spots bare", cut(cut(YARD_B, 56), 51), "1 51 25 1")
    rndf("9 on the line before 25", put(bare, 19, "spot>2.2"), "1 19 9 6")
    rndf("9 on the line behind 25", put(bare, 21, "2.1.1>6.000000>6.000000"), "1 20 25 1")
    rndf("25, and 12 on line 8", ins(bare, 8, "exit>1.1.1>9.9.9"), "1 21 25 1")
    rndf("25 and no room", bare, "1 20 25 1", {})
    rndf("25, and no end_file", bare[:-1], "1 20 25 1")
    pair("25, and an empty MDF", bare, b"", "1 20 25 1")


# ------------------------------------------------------- L10: the edition

def editions():
    """"in the older edition 8 for `solid_yellow`, 9 for 0 spots, at their usual
    places"; "the rest we read by the present rules, L8 included"."""
    C, B = YARD_C, YARD_B
    # a zone without spots: lines 13, 19 to 23 of yard C
    empty = put(C[:18] + C[23:], 13, "num_spots>0")
    for label, lines, then, now in (
            ("yard A", A, "ok", "ok"), ("yard C", C, "ok", "ok"), ("no spots", empty, "1 13 9 11", "ok"),
            ("yard B, whose second zone has no spots", B, "1 62 9 11", "ok"), ("yard B without its second zone", put(B[:60] + B[67:], 3, "num_zones>1"), "ok", "ok"),
            ("0 spots and a spot", put(C, 13, "num_spots>0"), "1 13 9 11", "1 19 5 1"),
            ("0 spots spelled otherwise", put(empty, 13, "num_spots>00"), "1 13 8 11", "1 13 8 11"),
            ("0 spots and a field more", put(empty, 13, "num_spots>0>0"), "1 13 7 1", "1 13 7 1"),
            ("0 spots, spaces", put(empty, 13, "  num_spots   0"), "1 13 9 15", "ok"),
            ("0 spots, and the text ends", empty[:13], "1 13 9 11", "1 14 10 0"),
            ("solid_yellow on the left", ins(A, 8, "left_boundary>solid_yellow"), "1 8 8 15", "ok"),
            ("solid_yellow on the right", ins(A, 8, "right_boundary>solid_yellow"), "1 8 8 16", "ok"),
            ("solid_yellow behind double_yellow", ins(A, 8, "left_boundary>double_yellow", "right_boundary>solid_yellow"), "1 9 8 16", "ok"),
            ("left boundary again, as solid_yellow", ins(A, 8, "left_boundary>solid_white", "left_boundary>solid_yellow"), "1 9 6 1", "1 9 6 1"),
            ("solid_yellow twice", ins(A, 8, "left_boundary>solid_yellow", "left_boundary>solid_yellow"), "1 8 8 15", "1 9 6 1"),
            ("solid_yellow and a field more", ins(A, 8, "left_boundary>solid_yellow>x"), "1 8 7 1", "1 8 7 1"),
            ("solid_yellow in capitals", ins(A, 8, "left_boundary>Solid_yellow"), "1 8 8 15", "1 8 8 15"),
            ("solid_yellow as a name", put(A, 1, "RNDF_name>solid_yellow"), "ok", "ok"),
            ("solid_yellow out of place", ins(A, 6, "left_boundary>solid_yellow"), "1 6 5 1", "1 6 5 1"),
            ("the other three", ins(B, 25, "left_boundary>broken_white", "right_boundary>double_yellow")[:38], "1 39 10 0", "1 39 10 0"),
            ("solid_white on both sides", ins(A, 8, "left_boundary>solid_white", "right_boundary>solid_white"), "ok", "ok"),
            ("broken_white on both sides", ins(A, 8, "left_boundary>broken_white", "right_boundary>broken_white"), "ok", "ok"),
            ("a spot without its checkpoint", cut(C, 20), "1 20 25 1", "1 20 25 1"),
            ("a spot's checkpoint on waypoint 1", put(C, 20, "checkpoint>2.1.1>5"), "1 20 9 12", "1 20 9 12"),
            ("a bare spot behind a solid_yellow", ins(cut(C, 20), 8, "left_boundary>solid_yellow"), "1 8 8 15", "1 21 25 1"),
            ("a comment in a line's middle", put(A, 4, "segment /* x */ 1"), "1 4 3 9", "1 4 3 9"),
            ("an entry that is none, and 0 spots", ins(empty, 8, "exit>1.1.1>9.9.9"), "1 14 9 11", "1 8 12 12")):
        older("2006: " + label, lines, then)
        rndf("2007: " + label, lines, now)
    older("2006: yard A as a pair", A, "ok", M)
    older("2006: an MDF's limit without a ceiling", A, "ok", put(M, 9, "1>5>0"))
    older("2006: an MDF's fault", A, "2 9 9 6", put(M, 9, "1>10>5"))
    older("2006: yard B as a pair", B, "1 62 9 11", MISSION_B)


# ---------------------------------------------------------- easy to get wrong

def easy_to_get_wrong():
    rndf("entry to a later segment", put(YARD_B, 17, "exit>1.1.1>2.1.1"), "ok")
    rndf("entry to a later lane", put(YARD_B, 17, "exit>1.1.1>1.2.2"), "ok")
    rndf("entry to a later zone", put(YARD_B, 17, "exit>1.1.1>4.0.1"), "ok")
    rndf("entry to itself", put(YARD_B, 17, "exit>1.1.1>1.1.1"), "ok")
    rndf("perimeter entry to an earlier lane", put(YARD_B, 43, "exit>3.0.1>2.1.1"), "ok")
    rndf("entry to a later segment's missing point", put(YARD_B, 17, "exit>1.1.1>2.1.2"), "1 17 12")
    rndf("entry to a later segment's missing lane", put(YARD_B, 17, "exit>1.1.1>2.2.1"), "1 17 12")
    rndf("entry to a segment's y=0", put(YARD_B, 17, "exit>1.1.1>2.0.1"), "1 17 12")
    rndf("entry to a spot", put(YARD_B, 17, "exit>1.1.1>3.1.1"), "1 17 12")
    rndf("entry to a zone behind the last", put(YARD_B, 17, "exit>1.1.1>5.0.1"), "1 17 12")
    rndf("entry to a perimeter's missing point", put(YARD_B, 17, "exit>1.1.1>4.0.2"), "1 17 12")
    rndf("entry over the lane's end into the next lane", put(YARD_B, 17, "exit>1.1.1>1.1.4"), "1 17 12")
    rndf("entry over the segment's last lane", put(YARD_B, 17, "exit>1.1.1>1.3.1"), "1 17 12")
    rndf("stop of another lane", put(YARD_B, 16, "stop>1.2.1"), "1 16 9")
    rndf("checkpoint of another lane", put(YARD_B, 14, "checkpoint>1.2.1>1"), "1 14 9")
    rndf("exit of another segment", put(YARD_B, 17, "exit>2.1.1>1.1.1"), "1 17 9")
    rndf("exit of the previous lane", put(YARD_B, 25, "exit>1.1.1>1.1.1"), "1 25 9")
    rndf("minus half a degree", put(A, 10, "1.1.1>-0.500000>-0.500000"), "ok")
    rndf("a late fault leaves no row", put(YARD_B, 68, "end"), "1 68 5")
    pair("a late MDF fault leaves no row", YARD_B, put(MISSION_B, 19, "end"), "2 19 5")
    pair("a late MDF reference leaves no row", YARD_B, put(MISSION_B, 17, "5>10>10"), "2 17 16")
    rndf("width missing", A, "ok")
    rndf("width 0", ins(A, 8, "lane_width>0"), "ok")
    # several segments, lanes, zones
    many = ["RNDF_name>many", "num_segments>3", "num_zones>0"]
    point = 0
    for s in (1, 2, 3):
        many += ["segment>%d" % s, "num_lanes>%d" % s]
        for l in range(1, s + 1):
            many += ["lane>%d.%d" % (s, l), "num_waypoints>2",
                     "exit>%d.%d.2>%d.%d.1" % (s, l, 4 - s, 1)]
            for p in (1, 2):
                point += 1
                many.append("%d.%d.%d>%d.000000>-%d.000000" % (s, l, p, point, point))
            many.append("end_lane")
        many.append("end_segment")
    many.append("end_file")
    big = dict(ROOM, lanes=32, exits=13)
    rndf("three segments of 1, 2, 3 lanes", many, "ok", big)
    rndf("three segments, last lane short", many[:-4] + many[-3:], "1 %d 5" % (len(many) - 3), big)
    zones = YARD_C[:2] + ["num_zones>3"] + YARD_C[3:11]
    for z in (2, 3, 4):
        zones += ["zone>%d" % z, "num_spots>%d" % (z % 2), "perimeter>%d.0" % z,
                  "num_perimeterpoints>1", "exit>%d.0.1>1.1.%d" % (z, 1 + z % 2),
                  "%d.0.1>0.000000>-0.000000" % z, "end_perimeter"]
        if z % 2:
            zones += ["spot>%d.1" % z, "checkpoint>%d.1.2>%d" % (z, z), "%d.1.1>0.000001>-0.000001" % z,
                      "%d.1.2>0.000001>-0.000001" % z, "end_spot"]
        zones.append("end_zone")
    zones.append("end_file")
    rndf("zones without, with, without spots", zones, "ok")
    rndf("zone before the last segment",
         YARD_B[:29] + YARD_B[60:67] + YARD_B[29:], "1 30 5")
    rndf("segment behind a zone", YARD_C[:24] + ["segment>3"] + YARD_C[24:], "1 25 5")
    rndf("zone without a perimeter", YARD_C[:13] + YARD_C[18:], "1 14 5")
    rndf("spot before the perimeter", YARD_C[:13] + YARD_C[18:23] + YARD_C[13:18] + YARD_C[23:], "1 14 5")
    rndf("two perimeters", YARD_C[:18] + YARD_C[13:], "1 19 5")
    rndf("spot with one point", cut(YARD_C, 22), "1 22 5")
    rndf("spot with three points", ins(YARD_C, 23, "2.1.3>1.000000>1.000000"), "1 23 5")
    rndf("spot without points", YARD_C[:20] + YARD_C[22:], "1 21 5")
    rndf("spots exchanged", YARD_B[:48] + YARD_B[54:59] + YARD_B[48:54] + YARD_B[59:], "1 49 9")
    rndf("zones exchanged", YARD_B[:37] + YARD_B[60:67] + YARD_B[37:60] + YARD_B[67:], "1 38 9")
    rndf("segments exchanged", YARD_B[:5] + YARD_B[29:37] + YARD_B[5:29] + YARD_B[37:], "1 6 9")
    rndf("lanes exchanged", YARD_B[:8] + YARD_B[22:28] + YARD_B[8:22] + YARD_B[28:], "1 9 9")
    rndf("points exchanged", put(put(A, 10, A[10]), 11, A[9]), "1 10 9")


# ---------------------------------------------------------------- missions

def missions():
    B, MB = YARD_B, MISSION_B

    def limits(*rows):
        return MB[:12] + ["num_speed_limits>%d" % len(rows)] + list(rows) + MB[17:]

    pair("limits in another order", B, limits("4>0>0", "2>1>2", "3>0>1", "1>5>5"), "ok")
    pair("limit missing: 1", B, limits("2>0>0", "3>0>0", "4>0>0"), "2 17 18")
    pair("limit missing: 4", B, limits("1>0>0", "2>0>0", "3>0>0"), "2 17 18")
    pair("limit missing: all but 3", B, limits("3>0>0"), "2 15 18")
    pair("limit twice", B, limits("1>0>0", "2>0>0", "3>0>0", "3>0>0"), "2 17 17")
    pair("limit twice, all given", B, limits("1>0>0", "2>0>0", "3>0>0", "4>0>0", "1>0>0"), "2 18 17")
    pair("limit twice with other speeds", B, limits("1>0>0", "1>1>1", "2>0>0", "3>0>0"), "2 15 17")
    pair("limit id 5", B, limits("1>0>0", "2>0>0", "3>0>0", "5>0>0"), "2 17 16")
    pair("limit id 5, all given", B, limits("1>0>0", "2>0>0", "3>0>0", "4>0>0", "5>0>0"), "2 18 16")
    pair("limit id 5 twice", B, limits("5>0>0", "5>0>0", "1>0>0", "2>0>0"), "2 14 16")
    pair("limit id 32768", B, limits("1>0>0", "2>0>0", "3>0>0", "32768>0>0"), "2 17 16")
    pair("17 before a later 16", B, limits("1>0>0", "1>0>0", "5>0>0", "2>0>0"), "2 15 17")
    pair("16 before a later 17", B, limits("1>0>0", "5>0>0", "1>0>0", "2>0>0"), "2 15 16")
    pair("17 before 18", B, limits("1>0>0", "1>0>0"), "2 15 17")
    pair("16 before 18", B, limits("9>0>0"), "2 14 16")
    # L1: a maximum of 0 is no ceiling
    for low, high, number in ((0, 0, "ok"), (0, 1, "ok"), (1, 1, "ok"), (1, 0, "ok"),
                              (5, 0, "ok"), (32767, 0, "ok"), (32768, 0, "ok"),
                              (32769, 0, 9), (2, 1, 9), (32768, 1, 9), (10, 5, 9),
                              (0, 32768, "ok"), (32768, 32768, "ok"),
                              (32768, 32767, 9), (32767, 32768, "ok"),
                              (0, 32769, 9), (5, 32769, 9), (32769, 32769, 9),
                              (16, 15, 9)):
        mdf("limit %d to %d" % (low, high), put(M, 9, "1>%d>%d" % (low, high)),
            "ok" if number == "ok" else "2 9 9")
    mdf("limit of id 0 without a ceiling", put(M, 9, "0>5>0"), "2 9 9")
    mdf("limit 5 to 00", put(M, 9, "1>5>00"), "2 9 8")
    pair("limits without a ceiling", B, limits("1>5>0", "2>32768>0", "3>0>0", "4>1>0"), "ok")
    pair("the third above its ceiling", B, limits("1>5>0", "2>32768>0", "3>2>1", "4>1>0"), "2 16 9")

    def goals(*numbers):
        return (MB[:5] + ["num_checkpoints>%d" % len(numbers)]
                + [str(n) for n in numbers] + MB[10:])

    pair("goals repeated", B, goals(1, 1, 1, 1, 1, 1), "ok")
    pair("goals in any order", B, goals(31, 2, 1), "ok")
    pair("one goal", B, goals(2), "ok")
    pair("goal unknown first", B, goals(3, 1), "2 7 15")
    pair("goal unknown last", B, goals(1, 2, 31, 30), "2 10 15")
    pair("goal 32768 unknown", B, goals(1, 32768), "2 8 15")
    pair("goal 0", B, goals(1, 0), "2 8 9")
    pair("two goals unknown", B, goals(1, 5, 6), "2 8 15")
    pair("goals but no checkpoints in the RNDF", cut(A, 8), M, "2 5 15")
    pair("six goals and room for six", B, goals(1, 2, 31, 1, 2, 31), "ok")
    pair("seven goals and room for six", B, goals(1, 2, 31, 1, 2, 31, 1), "2 0 11")
    # digit lines and statements at every place of an MDF
    for n in range(1, len(M) + 2):
        for statement in MDF_STATEMENTS + ["0", "1.1.1>1.000000>1.000000", "7x", "9>9"]:
            mdf("MDF: %s before line %d" % (statement, n), ins(M, n, statement))
    for n in range(1, len(M) + 1):
        mdf("MDF yard A, line %d away" % n, cut(M, n))
        mdf("MDF yard A, line %d and no more" % n, M[:n],
            "ok" if n == len(M) else "2 %d 10" % (n + 1))
        mdf("MDF yard A, RNDF keyword at line %d" % n, put(M, n, "num_segments>1"), "2 %d 5" % n)
        mdf("MDF yard A, point line at line %d" % n,
            put(M, n, "1.1.1>1.000000>1.000000"),
            "2 %d %d" % (n, {5: 7, 9: 8}.get(n, 5)))
        mdf("MDF yard A, line %d twice" % n, ins(M, n, M[n - 1]), "2 %d 5" % (n + 1))


# ----------------------------------------------------------------- the room

def used(reply):
    return {t: reply.used.get(t, 0) for t in oracle.TABLES}


def rooms():
    for name, r, m in (("A", FULL_A, FULL_M), ("B", FULL_B, FULL_MB),
                       ("C", text(YARD_C), None)):
        big = {t: 500 for t in oracle.TABLES}
        mode = 1 if m is None else 2
        rows = used(oracle.read_rndf(r, big) if m is None
                    else oracle.read_pair(r, m, big))
        tables = oracle.RNDF_TABLES if m is None else oracle.TABLES
        exact = {t: rows[t] * S[t] for t in oracle.TABLES}

        def go(label, room, want):
            if m is None:
                rndf(label, r, want, room)
            else:
                pair(label, r, m, want, room)
        go("room yard %s: exact" % name, exact, "ok")
        go("room yard %s: one number more each" % name, {t: exact[t] + 1 for t in tables}, "ok")
        go("room yard %s: one number less than another row" % name,
           {t: exact[t] + S[t] - 1 for t in tables}, "ok")
        go("room yard %s: one row more" % name, {t: exact[t] + S[t] for t in tables}, "ok")
        go("room yard %s: nothing" % name, {t: 0 for t in tables}, "1 0 11")
        for t in tables:
            file = 2 if t in oracle.MDF_TABLES else 1
            for extra in sorted({1, max(1, S[t] - 1), S[t] + 1, 37}):
                go("room yard %s: %s %d over" % (name, t, extra),
                   dict(exact, **{t: exact[t] + extra}), "ok")
            if rows[t]:
                go("room yard %s: %s short by one number" % (name, t),
                   dict(exact, **{t: exact[t] - 1}), "%d 0 11" % file)
                if S[t] > 1:
                    go("room yard %s: %s short by one row" % (name, t),
                       dict(exact, **{t: exact[t] - S[t]}), "%d 0 11" % file)
                    go("room yard %s: %s short by one row, all but a number left over" % (name, t),
                       dict(exact, **{t: exact[t] - S[t] + 1}), "%d 0 11" % file)
                if rows[t] > 1:
                    go("room yard %s: %s empty" % (name, t),
                       dict(exact, **{t: 0}), "%d 0 11" % file)
                go("room yard %s: %s short, the rest wide" % (name, t),
                   dict({u: exact[u] + 40 for u in tables}, **{t: exact[t] - 1}), "%d 0 11" % file)
    for length in (1, 2, 3, 598, 599):
        rndf("room of %d everywhere" % length, A,
             "ok" if length > 500 else "1 0 11", {t: length for t in oracle.TABLES})
    pair("room of 599 everywhere, pair", A, M, "ok", {t: 599 for t in oracle.TABLES})
    pair("room of 599 everywhere, refused", A, put(M, 9, "1>10>5"), "2 9 9",
         {t: 599 for t in oracle.TABLES})
    rndf("room of 0 and a fault of form", put(A, 14, "x"), "1 14 5", {})
    pair("room of 0, MDF bad", A, b"", "1 0 11", {})


# ---------------------------------------------------- systematic variations

def systematic():
    B, MB = YARD_B, MISSION_B
    whole = FULL_B
    for n in range(0, len(B)):
        rndf("yard B cut after line %d" % n, B[:n], "1 %d 10" % (n + 1))
    ends = [i for i, b in enumerate(whole) if b == 10]
    start = 0
    for n, end in enumerate(ends, 1):
        half = start + (end - start + 1) // 2
        rndf("yard B cut inside line %d" % n, whole[:half])
        rndf("yard B cut before the LF of line %d" % n, whole[:end],
             "ok" if n == len(B) else "1 %d 10" % (n + 1))
        start = end + 1
    for n in range(1, len(B) + 1):
        rndf("yard B without line %d" % n, cut(B, n))
        rndf("yard B line %d twice" % n, ins(B, n, B[n - 1]))
        rndf("yard B line %d with a field more" % n, put(B, n, B[n - 1] + ">x"), "1 %d 7" % n)
        rndf("yard B line %d with a wrong keyword" % n,
             put(B, n, "x" + B[n - 1]), "1 %d 5" % n)
        rndf("yard B digit line before line %d" % n, ins(B, n, "9.9.9>1.000000>1.000000"))
        if ">" in B[n - 1]:
            rndf("yard B line %d with a field less" % n,
                 put(B, n, B[n - 1].rsplit(">", 1)[0]), "1 %d 7" % n)
            rndf("yard B line %d with its last field changed" % n,
                 put(B, n, B[n - 1] + "0"))
            rndf("yard B line %d with a space" % n,
                 put(B, n, B[n - 1].replace(">", " ", 1)), "ok")
        if n < len(B):
            rndf("yard B lines %d and %d exchanged" % (n, n + 1),
                 put(put(B, n, B[n]), n + 1, B[n - 1]))
    for n in range(0, len(MB)):
        pair("mission B cut after line %d" % n, B, MB[:n], "2 %d 10" % (n + 1))
    for n in range(1, len(MB) + 1):
        pair("mission B without line %d" % n, B, cut(MB, n))
        pair("mission B line %d twice" % n, B, ins(MB, n, MB[n - 1]))
        pair("mission B line %d with a field more" % n, B,
             put(MB, n, MB[n - 1] + ">x"), "2 %d 7" % n)
        pair("mission B line %d with a wrong keyword" % n, B,
             put(MB, n, "x" + MB[n - 1]), "2 %d 5" % n)
        if n < len(MB):
            pair("mission B lines %d and %d exchanged" % (n, n + 1), B,
                 put(put(MB, n, MB[n]), n + 1, MB[n - 1]))
    # every statement of an RNDF, and those of an MDF, at every place
    for n in range(1, len(YARD_C) + 2):
        for statement in RNDF_STATEMENTS:
            rndf("yard C: %s before line %d" % (statement, n), ins(YARD_C, n, statement))
    for n in range(1, len(YARD_C) + 2):
        for statement in ("MDF_name>c", "RNDF>c", "checkpoints", "num_checkpoints>1",
                          "end_checkpoints", "speed_limits", "num_speed_limits>1",
                          "end_speed_limits", "7", "1>0>15"):
            if statement[0].isdigit():
                due = n in (8, 9, 16, 17, 20, 21, 22)
                number = (7 if statement == "7" else 8) if due else 5
            else:
                number = 5
            rndf("yard C: the MDF's %s before line %d" % (statement, n),
                 ins(YARD_C, n, statement), "1 %d %d" % (n, number))


def main(directory="."):
    global writer
    path = lambda name: os.path.join(directory, name)
    writer = Writer(path("cases.bin"), path("expected.txt"), path("labels.txt"))
    for part in (yard_a, lines_and_comments, spaces, after_the_end, integers, identifiers,
                 coordinates, names_and_words, several_faults, columns, options, spot_checkpoints, editions,
                 easy_to_get_wrong, missions, rooms, systematic):
        part()
    # Refusal 1 is only described: a text of 16,777,216 bytes or more gives
    # `refused 1 0 1` (RNDF) or, behind a good RNDF, `refused 2 0 1` (MDF).
    writer.close()
    writer.print_histogram()
    for line in wrong:
        print("WRONG:", line)
    return 1 if wrong else 0


if __name__ == "__main__":
    sys.exit(main(*sys.argv[1:2]))
