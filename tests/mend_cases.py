#!/usr/bin/env python3
"""Runs the planners' mending tool (request L9) on yards with each kind of trouble, on texts that are past mending, and on what it can't take.

    python3 tests/mend_cases.py           builds the program, then runs every case in a folder of its own
    python3 tests/mend_cases.py --built   runs it as it was last built

What comes out and what is said of it is worked out by hand. Run by way of `run-mend`. The last line says how many of the cases passed; the status is 0 if
all did.

What is printed: on standard output the mended text and nothing else; on standard error a sentence for each changed line or `FILE: nothing to mend`, status 0; a refusal, of 26 with what
`run-check` says of the mended text and the line's number in the given one, status 1; or a sentence, status 2. The file itself never changes.
"""
import argparse
import os
import subprocess
import sys
import tempfile

here = os.path.dirname(os.path.abspath(__file__))
sys.path.insert(0, here)
sys.path.insert(0, os.path.join(here, "oracle"))
from check_cases import FOLDER, N, OLDER, WORDS, Z, as_bytes, folder, missing, padded, told, unreadable  # noqa: E402
from yards import ROUND_1 as M, YARD_A as A, cut, ins, put, text  # noqa: E402

MEND = os.path.join(here, "..", "run-mend")
MOST = 524288
ROWS = 262144
USAGE = "Name one RNDF file: run-mend [--edition 2006] FILE > mended.rndf"
HELP = (USAGE + "\n"
        "Three things are mended and nothing else: counts that disagree with their items, single options given again, lines behind the first end_file.\n"
        "Standard output is the mended text and nothing else. Standard error has a sentence for each changed line, as FILE:LINE: what was done;\n"
        "or, of a text that would still be refused, FILE: past mending (26) and what run-check says of the mended text, with the line in FILE.\n"
        "FILE is only read. Do not write > FILE with the same name: the shell empties FILE before the program runs.\n"
        "With --edition 2006 the RNDF is read by the edition of December 6, 2006; without, or with --edition 2007, by the present one.\n"
        "A file may have up to 524,288 bytes and 262,144 lines. The status is 0 mended or nothing to mend, 1 refused, 2 not tried.")
TOO_BIG = "the file is too big for this program, which takes up to 524,288 bytes"


def counted(line, new, old):
    return "%s:%d: the count is %d, not %d" % (N, line, new, old)


def again(line):
    return "%s:%d: option given again, taken out" % (N, line)


def behind(line):
    return "%s:%d: behind end_file, taken out" % (N, line)


NOTHING = "%s: nothing to mend" % N
WIDE = ins(A, 8, "lane_width>3")
NO_SPOT = Z[:19] + Z[24:]


def crlf(lines):
    return text(lines, "\r\n")


def tail(*lines):
    return A + list(lines)


def mended():
    """(label, options, given, mended, what is said)"""
    three = tail("x>1")
    three[6] = "num_waypoints>9"
    three = ins(three, 9, "checkpoint>1.1.1>8")
    three = ins(three, 8, "lane_width>3", "lane_width>4")
    after = ins(WIDE, 10, "checkpoint>1.1.1>8")
    return [
        ("yard A", [], A, A, [NOTHING]),
        ("yard A, 2006", OLDER, A, A, [NOTHING]),
        ("yard A, 2007", ["--edition", "2007"], A, A, [NOTHING]),
        ("a zone with a spot", [], Z, Z, [NOTHING]),
        ("CRs", [], crlf(A), crlf(A), [NOTHING]),
        ("the last LF missing", [], text(A)[:-1], text(A)[:-1], [NOTHING]),
        ("comments and blank lines", [], put(A, 2, "", ">num_segments  1 /* one, 2 */"), put(A, 2, "", ">num_segments  1 /* one, 2 */"), [NOTHING]),
        # 1
        ("num_waypoints 3", [], put(A, 7, "num_waypoints>3"), A, [counted(7, 2, 3)]),
        ("num_waypoints 3, 2006", OLDER, put(A, 7, "num_waypoints>3"), A, [counted(7, 2, 3)]),
        ("num_waypoints 0", [], put(A, 7, "num_waypoints>0"), A, [counted(7, 2, 0)]),
        ("num_segments 32768", [], put(A, 2, "num_segments>32768"), A, [counted(2, 1, 32768)]),
        ("num_zones 5", [], put(A, 3, "num_zones>5"), A, [counted(3, 0, 5)]),
        ("num_lanes 10", [], put(A, 5, "num_lanes>10"), A, [counted(5, 1, 10)]),
        ("num_spots 2, num_perimeterpoints 7", [], put(put(Z, 15, "num_spots>2"), 17, "num_perimeterpoints>7"), Z, [counted(15, 1, 2), counted(17, 1, 7)]),
        ("a point more", [], ins(A, 12, "1.1.3>0.000000>0.000000"), ins(put(A, 7, "num_waypoints>3"), 12, "1.1.3>0.000000>0.000000"), [counted(7, 3, 2)]),
        ("spaces, a comment and CRs around a count", [], crlf(put(A, 7, "  num_waypoints >  3> /* 4 */")), crlf(put(A, 7, "  num_waypoints >  2> /* 4 */")), [counted(7, 2, 3)]),
        ("a count on a last line without LF", [], text(A)[:-1].replace(b"num_segments\t1", b"num_segments\t4"), text(A)[:-1], [counted(2, 1, 4)]),
        ("a count of 516 bytes that comes out with 512", [], put(A, 2, "num_segments>32768" + ">" * 498), put(A, 2, "num_segments>1" + ">" * 498), [counted(2, 1, 32768)]),
        # 2
        ("lane_width again", [], ins(WIDE, 9, "lane_width>4"), WIDE, [again(9)]),
        ("lane_width behind the points", [], ins(WIDE, 13, "lane_width>4"), WIDE, [again(13)]),
        ("lane_width behind end_lane", [], ins(WIDE, 14, "lane_width>4"), WIDE, [again(14)]),
        ("a later option of 600 backslashes", [], ins(WIDE, 9, "lane_width>" + "\\" * 600), WIDE, [again(9)]),
        ("a second date, with CRs", [], crlf(ins(A, 4, "creation_date>a", "creation_date>b")), crlf(ins(A, 4, "creation_date>a")), [again(5)]),
        ("a second checkpoint in a spot", [], ins(Z, 22, "checkpoint>2.1.2>9"), Z, [again(22)]),
        ("exit twice in a perimeter", [], ins(Z, 18, "exit>2.0.1>1.1.1", "exit>2.0.1>1.1.1"), ins(Z, 18, "exit>2.0.1>1.1.1", "exit>2.0.1>1.1.1"), [NOTHING]),
        # 3
        ("a line behind end_file", [], tail("x"), A, [behind(15)]),
        ("behind end_file: blanks stay, end_file, a comment stays, CRs", [], text(tail("x", "", "end_file", "/* c */")) + b"\r\r\n", text(tail("", "/* c */")), [behind(15), behind(17), behind(19)]),
        ("a count and an option behind end_file", [], tail("num_lanes>9", "lane_width>3", "lane_width>3"), A, [behind(15), behind(16), behind(17)]),
        ("a line behind end_file without LF", [], text(A) + b"x", A, [behind(15)]),
        # all at once
        ("all three", [], three, after, [counted(7, 2, 9), again(9), behind(18)]),
        ("solid_yellow and a count", [], ins(put(A, 7, "num_waypoints>3"), 8, "right_boundary>solid_yellow"), ins(A, 8, "right_boundary>solid_yellow"), [counted(7, 2, 3)]),
        ("no spots, but a count of 1", [], put(NO_SPOT, 15, "num_spots>1"), put(NO_SPOT, 15, "num_spots>0"), [counted(15, 0, 1)]),
        ("524,288 bytes", [], padded(A, MOST), padded(A, MOST), [NOTHING]),
        ("524,288 bytes and a count", [], padded(put(A, 7, "num_waypoints>3"), MOST), None, [counted(7, 2, 3)]),
        ("262,144 lines", [], text(A) + b"\n" * (ROWS - len(A)), text(A) + b"\n" * (ROWS - len(A)), [NOTHING]),
        ("100,000 lines behind end_file", [], text(A) + b"x\n" * 100000, A, [behind(15 + i) for i in range(100000)]),
        ("10,000 options given again", [], ins(WIDE, 9, *["lane_width>4"] * 10000), WIDE, [again(9 + i) for i in range(10000)]),
    ]


def past():
    """(label, options, given, mended, the fault's line in the given text, in the mended text, number, column)"""
    return [
        ("an empty text", [], b"", b"", 1, 1, 10, 0),
        ("an MDF", [], M, M, 1, 1, 5, 1),
        ("a text without end_file", [], cut(A, 14), cut(A, 14), 14, 14, 10, 0),
        ("a text without end_file, and an option again", [], cut(ins(WIDE, 9, "lane_width>4"), 16), cut(WIDE, 15), 16, 15, 10, 0),
        ("num_segments 32769", [], put(A, 2, "num_segments>32769"), put(A, 2, "num_segments>32769"), 2, 2, 9, 14),
        ("num_segments 01", [], put(A, 2, "num_segments>01"), put(A, 2, "num_segments>01"), 2, 2, 8, 14),
        ("two numbers", [], put(A, 2, "num_segments>1>1"), put(A, 2, "num_segments>1>1"), 2, 2, 7, 1),
        ("a point missing", [], cut(A, 11), put(cut(A, 11), 7, "num_waypoints>1"), 8, 8, 9, 12),
        ("no lane: the count that came out is shown", [], A[:5] + A[12:], put(A[:5] + A[12:], 5, "num_lanes>0"), 5, 5, 9, 11),
        ("an option again before the fault", [], put(ins(WIDE, 9, "lane_width>4"), 11, "exit>1.1.2>1.1.3"), put(WIDE, 10, "exit>1.1.2>1.1.3"), 11, 10, 12, 12),
        ("an entry that is not declared", [], put(A, 9, "exit>1.1.2>1.1.3"), put(A, 9, "exit>1.1.2>1.1.3"), 9, 9, 12, 12),
        ("a byte that is not allowed", [], put(A, 3, "num_zones>0\\"), put(A, 3, "num_zones>0\\"), 3, 3, 4, 12),
        ("a comment that does not end behind end_file", [], tail("/* open"), tail("/* open"), 15, 15, 3, 1),
        ("a stray end_file, up to which there is no segment", [], put(A, 4, "end_file"), put(A, 2, "num_segments>0"), 2, 2, 9, 14),
        ("the first of two options is wrong", [], ins(A, 8, "lane_width>", "lane_width>4"), None, 8, 8, 7, 1),
        ("solid_yellow, 2006", OLDER, ins(put(A, 7, "num_waypoints>3"), 8, "right_boundary>solid_yellow"), ins(A, 8, "right_boundary>solid_yellow"), 8, 8, 8, 16),
        ("no spots, 2006", OLDER, put(NO_SPOT, 15, "num_spots>1"), put(NO_SPOT, 15, "num_spots>0"), 15, 15, 9, 11),
        ("a count of 517 bytes", [], put(A, 2, "num_segments>32768" + ">" * 499), put(A, 2, "num_segments>1" + ">" * 499), 2, 2, 2, 513),
    ]


def run(files, arguments):
    with tempfile.TemporaryDirectory() as where:
        for name, content in files.items():
            path = os.path.join(where, name)
            if content is FOLDER:
                os.mkdir(path)
            else:
                with open(path, "wb") as out:
                    out.write(as_bytes(content))
        ran = subprocess.run([MEND, "--built"] + arguments, cwd=where, stdout=subprocess.PIPE, stderr=subprocess.PIPE)
        for name, content in files.items():
            if content is not FOLDER:
                with open(os.path.join(where, name), "rb") as file:
                    assert file.read() == as_bytes(content), "%s was changed" % name
        return ran.stdout, ran.stderr, ran.returncode


def fault(given, out, at, line, number, column):
    """What is said of the mended text `out`, with the number of the line in the given one."""
    said = told(N, as_bytes(out), line, number, column)[0]
    front = ":".join([N, str(line)])
    assert said.startswith(front)
    return ":".join([N, str(at)]) + said[len(front):]


def cases():
    """(label, files, arguments, (standard output, standard error, status))"""
    def said(label, files, arguments, sentence):
        return label, files, arguments, (b"", (sentence[0] + "\n").encode("ascii"), sentence[1])

    every = []
    for label, option, given, out, sentences in mended():
        if out is None:
            out = as_bytes(given).replace(b"num_waypoints\t3", b"num_waypoints\t2")
        every.append((label, {N: given}, option + [N], (as_bytes(out), ("\n".join(sentences) + "\n").encode("ascii"), 0)))
    for label, option, given, out, at, line, number, column in past():
        if out is None:
            out = cut(given, 9)
        sentence = "%s: %s (26)\n%s" % (N, WORDS[26], fault(given, out, at, line, number, column))
        every.append(said("26, " + label, {N: given}, option + [N], (sentence, 1)))
    both = {N: A}
    return every + [
        said("262,145 lines", {N: text(A) + b"\n" * (ROWS + 1 - len(A))}, [N], told(N, b"", 0, 11, 0)),
        said("16,777,216 bytes", {N: padded(A, 16777216)}, [N], told(N, b"", 0, 1, 0)),
        said("524,289 bytes", {N: padded(A, MOST + 1)}, [N], ("%s: %s" % (N, TOO_BIG), 2)),
        said("no such file", {}, [N], missing(N)),
        said("a folder", {N: FOLDER}, [N], folder(N)),
        said("a file that can't be read", {}, ["/proc/self/mem"], unreadable("/proc/self/mem")),
        said("--help", both, ["--help"], (HELP, 2)),
        said("-h, with a name behind it", both, ["-h", N], (HELP, 2)),
        said("--edition 2006 --help", both, OLDER + ["--help"], (HELP, 2)),
        said("no argument", both, [], (USAGE, 2)),
        said("two names", both, [N, N], (USAGE, 2)),
        said("another edition", both, ["--edition", "2005", N], (USAGE, 2)),
        said("--edition 2006 and no name", both, OLDER, (USAGE, 2)),
        said("a name of 4,096 bytes", both, ["./" * 2042 + N], ("The file's name is over 4,095 bytes.", 2)),
        ("another name, mended", {"a (1)^": put(A, 7, "num_waypoints>3")}, ["a (1)^"], (text(A), b"a (1)^:7: the count is 2, not 3\n", 0)),
        ("another name, the same", {": nothing to mend": A}, [": nothing to mend"], (text(A), b": nothing to mend: nothing to mend\n", 0)),
    ]


def twice():
    """What was mended once needs no second mending: how many failed of how many."""
    failed = 0
    for label, option, given, _, _ in mended():
        once = run({N: given}, option + [N])[0]
        got = run({N: once}, option + [N])
        if got != (once, (NOTHING + "\n").encode("ascii"), 0):
            failed += 1
            print("twice, %s: %r" % (label, short(got)))
    return failed, len(mended())


def short(reply):
    return reply[0][:300], reply[1][:400], reply[2]


def main():
    parser = argparse.ArgumentParser()
    parser.add_argument("--built", action="store_true")
    options = parser.parse_args()
    if not options.built:
        with open(os.devnull, "wb") as null:
            if subprocess.run([MEND, os.path.join(here, "..", "crates", "yard_mend", "data", N)], stdout=null).returncode != 0:
                return 1
    failed, count = twice()
    for label, files, arguments, want in cases():
        got = run(files, arguments)
        count += 1
        if got != want:
            failed += 1
            print("%s: %r, and not %r" % (label, short(got), short(want)))
    print("%d passed, %d failed" % (count - failed, failed))
    return 1 if failed else 0


if __name__ == "__main__":
    sys.exit(main())
