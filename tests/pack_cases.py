#!/usr/bin/env python3
"""Runs the planners' programs that pack an RNDF's network and that check packed bytes (request L11) on yards whose form is worked out by hand, on damaged forms, and on what they can't take.

    python3 tests/pack_cases.py           builds both programs, then runs every case in a folder of its own
    python3 tests/pack_cases.py --built   runs them as they were last built

Every form is worked out by hand from docs/PACKED.md, record by record. Run by way of `run-pack` and `run-unpack`. The last line says how many of the
cases passed; the status is 0 if all did.

What is printed:
- by `run-pack` the form and nothing else, status 0; or nothing, and on standard error what `run-check` prints of a refusal, status 1, or a sentence, status 2;
- by `run-unpack` `FILE: accepted; ` and the rows, status 0; `FILE: reason (NUMBER)`, status 1; or a sentence, status 2.
"""
import argparse
import os
import subprocess
import sys
import tempfile

here = os.path.dirname(os.path.abspath(__file__))
sys.path.insert(0, here)
sys.path.insert(0, os.path.join(here, "oracle"))
from check_cases import BARE, BOUNDARIES_2006, FOLDER, N, OLDER, WORDS, Z, as_bytes, counts, folder, missing, padded, told, unreadable  # noqa: E402
from yards import ROUND_1 as M, YARD_A as A, cut, ins, put, text  # noqa: E402

PACK, UNPACK = (os.path.join(here, "..", name) for name in ("run-pack", "run-unpack"))
P = "yard.packed"
MOST = 1048576
EDITION = "With --edition 2006 the RNDF is read by the edition of December 6, 2006; without, or with --edition 2007, by the present one.\n"
PACK_USAGE = "Name one RNDF file: run-pack [--edition 2006] FILE > yard.packed"
PACK_HELP = (PACK_USAGE + "\n" + EDITION +
             "Standard output is the packed form of its network and nothing else. What is wrong goes to standard error, as run-check says it.\n"
             "A file may have up to 1,048,576 bytes. The status is 0 written, 1 refused, 2 no form.")
UNPACK_USAGE = "Name one packed file: run-unpack FILE"
UNPACK_HELP = (UNPACK_USAGE + "\n"
               "The answer is what the packed yard holds, or why its bytes are refused, as FILE: reason (NUMBER).\n"
               "A file may have up to 1,048,576 bytes. The status is 0 accepted, 1 refused, 2 not tried.")
TOO_BIG = "the file is too big for this program, which takes up to 1,048,576 bytes"

# docs/PACKED.md, "Yard A": the 109 bytes, a record to a line
HEAD = "02 00 00 00 68"
FILE = "00 2a 00 00 00 01 00 00 00 01 00 00 00 00 00 00 00 00 00 00 00 02 00 00 00 01 00 00 00 00 00 00 00 01 00 06 79 61 72 64 5f 61 00 00"
SEGMENT = "00 08 00 00 00 00 00 01 00 00"
LANE = "00 0a 00 00 00 00 00 02 ff ff 00 00"
FIRST = "00 08 02 ae a5 40 fa 74 ee c0"
SECOND = "00 08 02 ae a5 a4 fa 74 ee c0"
SEVEN = "00 06 00 07 00 00 00 01"
EXIT = "00 08 00 00 00 01 00 00 00 00"
RECORDS = [FILE, SEGMENT, LANE, FIRST, SECOND, SEVEN, EXIT]
# Z, of check_cases: yard A with zone 2, which has a perimeter point, row 2, and a spot, rows 3 and 4, with checkpoint 8 on its second waypoint
ZERO = "00 08 00 00 00 00 00 00 00 00"
ZONE = "00 0e 00 00 00 02 00 01 00 00 00 00 00 01 00 00"
SPOT = "00 06 00 00 00 03 ff ff"
Z_RECORDS = ["00 2a 00 00 00 01 00 00 00 01 00 00 00 01 00 00 00 01 00 00 00 05 00 00 00 02 00 00 00 00 00 00 00 01 00 06 79 61 72 64 5f 61 00 00",
             SEGMENT, LANE, ZONE, SPOT, FIRST, SECOND, ZERO, ZERO, ZERO, SEVEN, "00 06 00 08 00 00 00 04", EXIT]
# yard A with a version, a date (which is left out), a segment's name, a lane's width and boundaries and a stop
DRESSED = ins(ins(ins(A, 8, "lane_width>12", "left_boundary>double_yellow", "right_boundary>broken_white", "stop>1.1.1"), 6, "segment_name>Ost"), 4, "format_version>1.0", "creation_date>14-Mar-07")
DRESSED_RECORDS = ["00 2d 00 00 00 01 00 00 00 01 00 00 00 00 00 00 00 00 00 00 00 02 00 00 00 01 00 00 00 01 00 00 00 01 00 06 79 61 72 64 5f 61 00 03 31 2e 30",
                   "00 0b 00 00 00 00 00 01 00 03 4f 73 74", "00 0a 00 00 00 00 00 02 00 0c 01 04", FIRST, SECOND, SEVEN, "00 04 00 00 00 00", EXIT]
YELLOW = ins(A, 8, "right_boundary>solid_yellow")
YELLOW_RECORDS = put(RECORDS, 3, "00 0a 00 00 00 00 00 02 ff ff 00 02")


def raw(*lines):
    return bytes.fromhex(" ".join(lines))


def form(records, version=2, more=0):
    """These records behind the version and their length, or one that is so much more."""
    body = raw(*records)
    return bytes([version]) + (len(body) + more).to_bytes(4, "big") + body


def reason(number, name=P):
    return "%s: %s (%d)" % (name, WORDS[number], number), 1


def accepted(*n, name=P):
    return "%s: accepted; %s" % (name, counts(*n)), 0


YARD_A = accepted(1, 0, 1, 2, 0, 1, 0, 1)
ZONED = accepted(1, 1, 1, 5, 1, 2, 0, 1)


def packed():
    """(label, options, RNDF, its records, what run-unpack says of them)"""
    return [
        ("yard A", [], A, RECORDS, YARD_A),
        ("yard A in the older edition", OLDER, A, RECORDS, YARD_A),
        ("yard A in the present edition by its year", ["--edition", "2007"], A, RECORDS, YARD_A),
        ("yard A with comments, blank lines and CR LF", [], text(put(put(A, 2, "", ">num_segments  1 /* one */"), 9, "checkpoint 1.1.2 7", ""), "\r\n"), RECORDS, YARD_A),
        ("a zone with a spot", [], Z, Z_RECORDS, ZONED),
        ("a zone with a spot, in the older edition", OLDER, Z, Z_RECORDS, ZONED),
        ("names, a version, a date, a width, boundaries, a stop", [], DRESSED, DRESSED_RECORDS, accepted(1, 0, 1, 2, 0, 1, 1, 1)),
        ("the same with another date", [], put(DRESSED, 5, "creation_date>yesterday"), DRESSED_RECORDS, accepted(1, 0, 1, 2, 0, 1, 1, 1)),
        ("the same without a date", [], cut(DRESSED, 5), DRESSED_RECORDS, accepted(1, 0, 1, 2, 0, 1, 1, 1)),
        ("solid_yellow", [], YELLOW, YELLOW_RECORDS, YARD_A),
        ("a text of 1,048,576 bytes", [], padded(A, MOST), RECORDS, YARD_A),
    ]


def refused_texts():
    """(label, options, RNDF, (file, line, number, column, what may stand there)): what run-check says"""
    return [
        ("12", [], put(A, 9, "exit>1.1.2>1.1.3"), (N, 9, 12, 12, "1.1.1 to 1.1.2")),
        ("4", [], put(A, 3, "num_zones>0\\"), (N, 3, 4, 12)),
        ("25", [], cut(Z, 21), (N, 21, 25, 1, BARE)),
        ("solid_yellow in the older edition", OLDER, YELLOW, (N, 8, 8, 16, BOUNDARIES_2006)),
        ("an empty text", [], b"", (N, 1, 10, 0, "RNDF_name NAME")),
        ("packed bytes", [], form(RECORDS), (N, 1, 4, 1)),
        ("an MDF", [], M, (N, 1, 5, 1, "RNDF_name NAME")),
        ("a text of 16,777,216 bytes", [], padded(A, 16777216), (N, 0, 1, 0)),
    ]


def refused_forms():
    """(label, bytes, number)"""
    whole = form(RECORDS)
    return [
        ("27: no bytes", b"", 27),
        ("27: version 0", form(RECORDS, 0), 27),
        ("27: version 1", form(RECORDS, 1), 27),
        ("27: version 1 as it was, with a date", form(put(RECORDS, 1, "00 2c" + FILE[5:] + " 00 00"), 1), 27),
        ("27: version 3", form(RECORDS, 3), 27),
        ("27: a text", text(A), 27),
        ("28: the version alone", whole[:1], 28),
        ("28: three bytes of the length", whole[:4], 28),
        ("28: no record of so many", whole[:5], 28),
        ("28: the last byte cut off", whole[:-1], 28),
        ("28: a byte behind the last", whole + b"\x00", 28),
        ("28: the length one more", form(RECORDS, 2, 1), 28),
        ("28: the length one less", form(RECORDS, 2, -1), 28),
        ("28: a lone last byte", form(RECORDS + ["00"]), 28),
        ("28: a record past the end", form(put(RECORDS, 7, "00 09" + EXIT[5:])), 28),
        ("28: the first record past the end", form(put(RECORDS, 1, "ff ff" + FILE[5:])), 28),
        ("29: no record at all", form([]), 29),
        ("29: an empty record behind the last", form(RECORDS + ["00 00"]), 29),
        ("29: the exit left out", form(RECORDS[:-1]), 29),
        ("29: an exit too many", form(RECORDS + [EXIT]), 29),
        ("29: a segment before the file", form([SEGMENT, FILE] + RECORDS[2:]), 29),
        ("29: a longer record", form(put(RECORDS, 7, "00 09" + EXIT[5:] + " 00")), 29),
        ("29: a date", form(put(RECORDS, 1, "00 2c" + FILE[5:] + " 00 00")), 29),
        ("29: no name", form(put(RECORDS, 1, "00 24" + FILE[5:101] + " 00 00 00 00")), 29),
        ("29: a space in the name", form(put(RECORDS, 1, FILE.replace("5f", "20"))), 29),
        ("29: a latitude over 90 degrees", form(put(RECORDS, 4, "00 08 05 5d 4a 81 fa 74 ee c0")), 29),
        ("29: a boundary of 5", form(put(RECORDS, 3, LANE[:-2] + "05")), 29),
        ("29: a lane of three points", form(put(RECORDS, 3, LANE.replace("00 02 ff", "00 03 ff"))), 29),
        ("29: the first lane in row 1", form(put(RECORDS, 2, "00 08 00 00 00 01 00 01 00 00")), 29),
        ("29: checkpoint 0", form(put(RECORDS, 6, "00 06 00 00 00 00 00 01")), 29),
        ("29: an entry that is no row", form(put(RECORDS, 7, "00 08 00 00 00 01 00 00 00 02")), 29),
        ("29: two checkpoints of one number", form(put(Z_RECORDS, 12, "00 06 00 07 00 00 00 04")), 29),
        ("29: a spot without a checkpoint", form(put(Z_RECORDS, 12, "00 06 00 08 00 00 00 02")), 29),
        ("29: an entry that is a spot's point", form(put(Z_RECORDS, 13, "00 08 00 00 00 01 00 00 00 03")), 29),
    ]


def largest_form(count):
    """So many points at 0, 0 in lanes of up to 32,768 of one segment; and how many lanes."""
    lanes = [min(32768, count - i) for i in range(0, count, 32768)]
    words = [1, len(lanes), 0, 0, count, 0, 0, 0]
    records = ["002a" + "".join("%08x" % w for w in words) + "0006" + b"yard_a".hex() + "0000", "0008" + "00000000" + "%04x" % len(lanes) + "0000"]
    records += ["000a" + "%08x" % (32768 * i) + "%04x" % n + "ffff0000" for i, n in enumerate(lanes)]
    return form(records + [ZERO.replace(" ", "") * count]), len(lanes)


def run(program, files, arguments):
    with tempfile.TemporaryDirectory() as where:
        for name, content in files.items():
            path = os.path.join(where, name)
            os.makedirs(os.path.dirname(path), exist_ok=True)
            if content is FOLDER:
                os.mkdir(path)
            else:
                with open(path, "wb") as out:
                    out.write(as_bytes(content))
        ran = subprocess.run([program, "--built"] + arguments, cwd=where, stdout=subprocess.PIPE, stderr=subprocess.PIPE)
        return ran.stdout, ran.stderr, ran.returncode


def of_pack():
    """(label, program, files, arguments, (standard output, standard error, status))"""
    def no_form(label, files, arguments, sentence):
        return label, PACK, files, arguments, (b"", (sentence[0] + "\n").encode("ascii"), sentence[1])

    def big(name):
        return "%s: %s" % (name, TOO_BIG), 2

    every = [(label, PACK, {N: rndf}, option + [N], (form(records), b"", 0)) for label, option, rndf, records, _ in packed()]
    every += [no_form("pack, " + label, {N: rndf}, option + [N], told(N, as_bytes(rndf), *want[1:])) for label, option, rndf, want in refused_texts()]
    both = {N: A}
    return every + [
        no_form("pack: no such file", {}, [N], missing(N)),
        no_form("pack: a folder", {N: FOLDER}, [N], folder(N)),
        no_form("pack: a file that can't be read", {}, ["/proc/self/mem"], unreadable("/proc/self/mem")),
        no_form("pack: 1,048,577 bytes", {N: padded(A, MOST + 1)}, [N], big(N)),
        no_form("pack: --help", both, ["--help"], (PACK_HELP, 2)),
        no_form("pack: -h, with a name behind it", both, ["-h", N], (PACK_HELP, 2)),
        no_form("pack: --edition 2006 --help", both, OLDER + ["--help"], (PACK_HELP, 2)),
        no_form("pack: no argument", both, [], (PACK_USAGE, 2)),
        no_form("pack: two names", both, [N, N], (PACK_USAGE, 2)),
        no_form("pack: another edition", both, ["--edition", "2005", N], (PACK_USAGE, 2)),
        no_form("pack: --edition 2006 and no name", both, OLDER, (PACK_USAGE, 2)),
        no_form("pack: a name of 4,096 bytes", both, ["./" * 2042 + N], ("The file's name is over 4,095 bytes.", 2)),
        no_form("pack: another name, refused", {"a (1)^": put(A, 3, "num_zones>1>")}, ["a (1)^"], told("a (1)^", text(put(A, 3, "num_zones>1>")), 14, 5, 1, "zone 2")),
    ]


def of_unpack():
    def said(label, files, arguments, sentence):
        return label, UNPACK, files, arguments, ((sentence[0] + "\n").encode("ascii"), b"", sentence[1])

    points, lanes = largest_form((MOST - 200) // 10)
    both = {P: form(RECORDS)}
    every = [said("unpack, " + label, {P: form(records)}, [P], want) for label, _, _, records, want in packed()]
    every += [said("unpack, " + label, {P: content}, [P], reason(number)) for label, content, number in refused_forms()]
    return every + [
        said("unpack: a form of %d points" % ((MOST - 200) // 10), {P: points}, [P], accepted(1, 0, lanes, (MOST - 200) // 10, 0, 0, 0, 0)),
        said("unpack: 1,048,576 bytes that are no form", {P: b"\x02" * MOST}, [P], reason(28)),
        said("unpack: 16,777,216 bytes", {P: b"\x01" * 16777216}, [P], reason(1)),
        said("unpack: 1,048,577 bytes", {P: b"\x01" * (MOST + 1)}, [P], ("%s: %s" % (P, TOO_BIG), 2)),
        said("unpack: no such file", {}, [P], missing(P)),
        said("unpack: a folder", {P: FOLDER}, [P], folder(P)),
        said("unpack: a file that can't be read", {}, ["/proc/self/mem"], unreadable("/proc/self/mem")),
        said("unpack: --help", both, ["--help"], (UNPACK_HELP, 2)),
        said("unpack: -h, with a name behind it", both, ["-h", P], (UNPACK_HELP, 2)),
        said("unpack: no argument", both, [], (UNPACK_USAGE, 2)),
        said("unpack: two names", both, [P, P], (UNPACK_USAGE, 2)),
        said("unpack: an edition", both, OLDER + [P], (UNPACK_USAGE, 2)),
        said("unpack: a name of 4,096 bytes", both, ["./" * 2042 + P + "x"], ("The file's name is over 4,095 bytes.", 2)),
        said("unpack: another name", {"a (1)": form(RECORDS)}, ["a (1)"], accepted(1, 0, 1, 2, 0, 1, 0, 1, name="a (1)")),
    ]


def there_and_back():
    """Whatever run-pack writes of a text, run-unpack takes; how many failed of how many."""
    failed = 0
    for label, option, rndf, _, want in packed():
        wrote, _, _ = run(PACK, {N: rndf}, option + [N])
        got = run(UNPACK, {P: wrote}, [P])
        if got != ((want[0] + "\n").encode("ascii"), b"", want[1]):
            failed += 1
            print("there and back, %s: %r, and not %r" % (label, got, want))
    return failed, len(packed())


def short(reply):
    return reply[0][:300], reply[1][:300], reply[2]


def main():
    parser = argparse.ArgumentParser()
    parser.add_argument("--built", action="store_true")
    options = parser.parse_args()
    assert len(form(RECORDS)) == 109 and form(RECORDS)[:5] == raw(HEAD)
    if not options.built:
        crates = os.path.join(here, "..", "crates")
        with open(os.devnull, "wb") as null:
            for program, data in ((PACK, ("yard_pack", N)), (UNPACK, ("yard_unpack", P))):
                if subprocess.run([program, os.path.join(crates, data[0], "data", data[1])], stdout=null).returncode != 0:
                    return 1
    failed, count = there_and_back()
    for label, program, files, arguments, want in of_pack() + of_unpack():
        got = run(program, files, arguments)
        count += 1
        if got != want:
            failed += 1
            print("%s: %r, and not %r" % (label, short(got), short(want)))
    print("%d passed, %d failed" % (count - failed, failed))
    return 1 if failed else 0


if __name__ == "__main__":
    sys.exit(main())
