#!/usr/bin/env python3
"""Writes data/cases_1, cases_2 and stdout of crates/writer_vectors.

The answers are the oracle's (tests/oracle), written from document 01 and the readings alone; it writes from the tables that
it read, and shares nothing with the product. Everything is from a fixed seed.
Run it again after a change of the corpus:  python3 tests/writer_vectors.py
With --check it writes nothing, and says which files of the crate are not what it would write.  With --mutants it writes nothing either, and puts each of the small mistakes below into the oracle's writer to see whether some
case notices.

A case is a line of fixed length, its label and an LF, the RNDF, the MDF and an LF. That line is `1` (the RNDF is written),
`2` (the MDF), `3` or `4` (the same in the edition of December 6, 2006) and four numbers of four digits: the bytes of the RNDF, of the MDF, of the lent output and of the label. The
program opens the files in turn, each of which has to fit its buffer of 65,536 bytes, and lends 160 words for each table.

Taken are yards with outputs of every telling length; yards whose lines are made untidy by hand; random pairs, rough and
whole; and damaged pairs, at most EACH of one answer.
"""
import os
import random
import sys
import types

here = os.path.dirname(os.path.abspath(__file__))
sys.path.insert(0, os.path.join(here, "oracle"))
import generate   # noqa: E402
import oracle     # noqa: E402
from reader_vectors import MISSION_D, YARD_D, differ  # noqa: E402
from yards import MISSION_B, ROUND_1, YARD_A, YARD_B, YARD_C, cut, ins, put, text  # noqa: E402

FILES = 2
FILE_ROOM = 60000           # bytes to a file
MOST_OUT = 4096             # the program's output
WORDS = 160                 # of each table
WHOLE, EACH = 60, 2
SEED = 20261115
LENT = {t: WORDS for t in oracle.TABLES}

# Small mistakes of a writer: each has to be noticed.
MUTANTS = [
    ('sign = "-" if value < 0 else ""', 'sign = ""'),
    ('sign = "-" if value < 0 else ""', 'sign = "-" if value <= 0 else ""'),
    ('sign = "-" if value < 0 else ""', 'sign = "-" if value <= -1_000_000 else ""'),
    ('"%s%d.%06d" % (sign', '"%s%d.%d" % (sign'),
    ('put(b"format_version", network.version)', 'pass'),
    # L12: "the house writing and the packed form leave it out", "the table still shows it"
    ('put(b"format_version", network.version)\n', 'put(b"format_version", network.version)\n    if network.date:\n        put(b"creation_date", network.date)\n'),
    ('if network.version:\n        put(b"format_version", network.version)\n', 'if network.date:\n        put(b"creation_date", network.date)\n    if network.version:\n        put(b"format_version", network.version)\n'),
    ('put(b"format_version", network.version)\n', 'put(b"format_version", network.version)\n    if network.date:\n        put(b"creation_date", b"")\n'),
    ('if network.version:\n        put(b"format_version", network.version)\n', 'if network.version and not network.date:\n        put(b"format_version", network.version)\n'),
    ('reply = read_rndf(text, room, edition)\n    return write_out(reply, lambda: house_rndf(network_of(reply, text)), 1,',
     'reply = read_rndf(text, room, edition)\n    out_len = out_len - reply.file[5] if reply.file else out_len\n    return write_out(reply, lambda: house_rndf(network_of(reply, text)), 1,'),
    ('            form.date = name\n', '            pass\n'),
    ('        reply.mission = (mission.name + mission.rndf + mission.version\n                         + mission.date)', '        reply.mission = mission.name + mission.rndf + mission.version + MISSING_NAME'),
    ('        given.add(what)\n\n\ndef end_of_file', '        if what != b"creation_date":\n            given.add(what)\n\n\ndef end_of_file'),
    ('put(b"segment_name", name)', 'pass'),
    ('if width != MISSING_WIDTH:\n                put(b"lane_width"', 'if width not in (0, MISSING_WIDTH):\n                put(b"lane_width"'),
    ('put(b"left_boundary", BOUNDARIES[left])', 'put(b"left_boundary", BOUNDARIES[right or left])'),
    ('put(b"right_boundary", BOUNDARIES[right])', 'put(b"right_boundary", BOUNDARIES[5 - right])'),
    ('put_checkpoints(first)\n            for point, in stops.get(first, []):\n                put(b"stop", called[point])\n',
     'for point, in stops.get(first, []):\n                put(b"stop", called[point])\n            put_checkpoints(first)\n'),
    ('for point, in stops.get(first, []):\n                put(b"stop", called[point])\n            put_exits(first)\n',
     'put_exits(first)\n            for point, in stops.get(first, []):\n                put(b"stop", called[point])\n'),
    ('for point, in stops.get(first, []):', 'for point, in sorted(stops.get(first, [])):'),
    ('for point, in stops.get(first, []):', 'for point, in [list(x) for x in dict.fromkeys(map(tuple, stops.get(first, [])))]:'),
    ('in checkpoints.get(first, []):', 'in sorted(checkpoints.get(first, [])):'),
    ('in exits.get(first, []):', 'in sorted(exits.get(first, [])):'),
    ('in exits.get(first, []):', 'in [list(x) for x in dict.fromkeys(map(tuple, exits.get(first, [])))]:'),
    ('put(b"zone_name", name)', 'pass'),
    ('put(b"spot_width", width)\n            put_checkpoints(first)', 'put(b"spot_width", width)'),
    ('if width != MISSING_WIDTH:\n                put(b"spot_width", width)\n            put_checkpoints(first)\n',
     'put_checkpoints(first)\n            if width != MISSING_WIDTH:\n                put(b"spot_width", width)\n'),
    ('put(b"end_file")\n    return b"".join(out)\n\n\ndef house_mdf', 'put(b"end_file")\n    return b"".join(out)[:-1]\n\n\ndef house_mdf'),
    ('put(b"format_version", mission.version)\n', 'pass\n'),
    ('put(b"format_version", mission.version)\n', 'put(b"format_version", mission.version)\n    if mission.date:\n        put(b"creation_date", mission.date)\n'),
    ('if mission.version:\n        put(b"format_version", mission.version)\n', 'if mission.date:\n        put(b"creation_date", mission.date)\n    if mission.version:\n        put(b"format_version", mission.version)\n'),
    ('for number, in mission.goals:', 'for number, in sorted(mission.goals):'),
    ('for identifier, minimum, maximum in mission.limits:', 'for identifier, minimum, maximum in sorted(mission.limits):'),
    ('put(identifier, minimum, maximum)', 'put(identifier, maximum, minimum)'),
    ('len(text) <= out_len:', 'len(text) < out_len:'),
    ('len(text) <= out_len:', 'len(text) <= out_len + 1:'),
    ('text + bytes(out_len - len(text))', 'text + b"\\xa5" * (out_len - len(text))'),
    ('refuse(reply, Refused(file, 0, 19), room, names)', 'refuse(reply, Refused(1, 0, 19), room, names)'),
    ('refuse(reply, Refused(file, 0, 19), room, names)', 'reply.accepted, reply.refusal = False, (file, 0, 19, 0)'),
    ('return Written(reply, None, bytes(out_len))', 'return Written(reply, None, b"\\xa5" * out_len)'),
]


class Case:
    def __init__(self, label, mode, rndf, mdf, out):
        self.older, mode = mode > 2, 2 - mode % 2
        self.label = "".join(c if " " <= c <= "~" else "?" for c in label)[:90].encode()
        self.mode, self.rndf, self.mdf, self.out = mode, rndf, (mdf if mode == 2 else b""), out
        self.reply = self.judged(oracle)

    def judged(self, module):
        edition = module.DECEMBER_2006 if self.older else module.PRESENT
        return (module.write_mdf(self.rndf, self.mdf, LENT, self.out, edition) if self.mode == 2
                else module.write_rndf(self.rndf, LENT, self.out, edition))

    def key(self):
        return (self.mode, "written") if self.reply.accepted else self.reply.refusal[::2]

    def bytes(self):
        head = "%d%s\n" % (self.mode + 2 * self.older, "".join(" %04d" % n for n in (len(self.rndf), len(self.mdf), self.out, len(self.label))))
        assert len(head) == 22 and self.out <= MOST_OUT
        return head.encode() + self.label + b"\n" + self.rndf + self.mdf + b"\n"

    def said(self, reply=None):
        whole = reply or self.reply
        reply = whole.reply
        if whole.accepted:
            line = "written" + "".join(" %d" % reply.used[t] for t in oracle.RNDF_TABLES)
            line += " file" + "".join(" %d" % n for n in reply.file)
            if self.mode == 2:
                line += " mission" + "".join(" %d" % reply.used[t] for t in oracle.MDF_TABLES)
                line += " file" + "".join(" %d" % n for n in reply.mission)
            line += " bytes %d" % whole.written
        else:
            line = "refused %d %d %d %d" % whole.refusal
        used = lambda words: len(words) - next((i for i, w in enumerate(reversed(words)) if w), len(words))
        tables = "tables" + "".join(" %d" % used(whole.tables[t]) for t in ("segments", "points", "limits")[:self.mode + 1])
        kept = used(whole.output)
        return (self.label + b"\n" + line.encode() + b"\n" + tables.encode()
                + b"\noutput %d %d\n" % (len(whole.output), kept) + bytes(whole.output[:kept]) + b"\n")


taken, seen = [], set()


def take(case):
    identity = (case.mode, case.older, case.rndf, case.mdf, case.out)
    if identity not in seen:
        seen.add(identity)
        taken.append(case)


def as_bytes(t):
    return t if isinstance(t, bytes) else text(t)


def size(mode, rndf, mdf):
    """The length of the house writing, 0 if there is none."""
    return Case("", mode, rndf, mdf, MOST_OUT).reply.written or 0


def run(label, r, m, lengths=("exact",)):
    """m is None where the RNDF is written."""
    mode, rndf, mdf = (1, as_bytes(r), b"") if m is None else (2, as_bytes(r), as_bytes(m))
    exact = size(mode, rndf, mdf)
    outs = {"none": 0, "one": 1, "half": exact // 2, "short": max(0, exact - 1), "exact": exact, "more": exact + 1, "wide": exact + 40, "all": MOST_OUT}
    for name in lengths:
        take(Case("%s, output %s" % (label, name), mode, rndf, mdf, outs[name]))


EVERY = ("none", "one", "half", "short", "exact", "more", "wide", "all")


def lengths():
    run("yard A", YARD_A, None, EVERY)
    run("mission A", YARD_A, ROUND_1, EVERY)
    for label, r, m in (("B", YARD_B, MISSION_B), ("D", YARD_D, MISSION_D)):
        run("yard " + label, r, None, ("short", "exact"))
        run("mission " + label, r, m, ("short", "exact"))
    run("yard C", YARD_C, None, ("short", "wide"))
    last = text(YARD_A)[:-1]
    run("yard A, last LF missing", last, None, ("short", "exact", "more"))
    take(Case("yard A, last LF missing, output as long as the text", 1, last, b"", len(last)))
    last = text(ROUND_1)[:-1]
    run("mission A, last LF missing", text(YARD_A), last, ("short", "exact"))
    take(Case("mission A, last LF missing, output as long as the text", 2, text(YARD_A), last, len(last)))


def untidy():
    lane = ["exit>1.1.2>1.1.2", "stop>1.1.2", "checkpoint>1.1.2>9", "right_boundary>broken_white", "left_boundary>solid_yellow",
            "lane_width>0", "checkpoint>1.1.1>7", "stop>1.1.1", "exit>1.1.2>1.1.1", "stop>1.1.2", "exit>1.1.2>1.1.2", "checkpoint>1.1.1>8"]
    a = YARD_A[:7] + lane + YARD_A[9:]
    run("all options of a lane, backwards", a, None, ("short", "exact"))
    run("all options of a lane, other way", YARD_A[:7] + lane[::-1] + YARD_A[9:], None, ("exact", "wide"))
    run("options apart by blank lines and comments", YARD_A[:7] + [x for l in lane for x in ("", l, ">/* %s */" % l.replace(">", " "))] + YARD_A[9:], None, ("exact",))
    run("version and date, other way, CR LF", text(ins(YARD_A, 4, "creation_date>-0.000000", "format_version>1/"), "\r\n"), None, ("exact", "short"))
    run("mission's version and date, other way", YARD_A, ins(ROUND_1, 3, "creation_date>-0.000000", ">>format_version>>2/**/"), ("exact", "short"))
    for lat, lon in (("-0.000000", "-0.000000"), ("0.000000", "-0.000000"), ("-0.000000", "-0.000001"), ("-0.500000", "-180.000000"), ("-90.000000", "180.000000")):
        run("point %s %s" % (lat, lon), put(YARD_A, 10, "1.1.1>%s>%s" % (lat, lon)), None, ("exact",))
    run("names like coordinates and words", ins(put(YARD_A, 1, "RNDF_name>-0.000000"), 6, "segment_name>exit"), None, ("exact",))
    run("name with a slash before a comment", put(YARD_A, 1, "RNDF_name>a//*b*/"), None, ("exact",))
    run("name of 128", put(YARD_A, 1, "RNDF_name>" + "n" * 128), None, ("short", "exact"))
    run("zones: name, exits and spot's options backwards",
        ins(ins(put(YARD_D, 32, "checkpoint>3.1.2>1", "spot_width>32768"), 27, "exit>3.0.2>1.1.1", "exit>3.0.1>2.1.1"), 25, ">zone_name>Lot>"), None, ("short", "exact"))
    run("tabs all over", [">" + l.replace(">", ">>>") + ">" for l in YARD_B], None, ("exact",))
    run("spaces all over", ["  " + l.replace(">", " > ") + " " for l in YARD_B], [l.replace(">", " ") + "  /**/ " for l in MISSION_B], ("short", "exact"))
    run("mission with spaces all over", YARD_D, [" " + l.replace(">", "   ") + " /* x */ " for l in MISSION_D], ("exact",))
    run("comments all over", [l + "/* x > */" for l in YARD_B], [l + ">/**/>" for l in MISSION_B], ("exact",))
    run("blank lines before and behind", b"\n\r\n\t\n" + text(YARD_C) + b"\n\t\r\n/* end */", None, ("exact",))
    run("goals and limits in any order", YARD_D, put(put(MISSION_D, 4, "num_checkpoints>4"), 5, "32768", "1", "32768"), ("exact", "short"))


def dates():
    """L12: the house writing leaves the date out, and the tables show it. Texts that differ in dates alone have equal writings."""
    version = "format_version>2.0"
    spelled = {"none": [], "alone": ["creation_date>14-Mar-07"], "another": ["creation_date>15-Mar-07"], "longest": ["creation_date>" + "d" * 128], "with a comment": [" > creation_date>>14-Mar-07 /* when > */ "],
               "directly before a comment": ["creation_date>d//**/"], "between blank lines": ["", "creation_date>format_version", "/* creation_date>x */"],
               "before the version": ["creation_date>14-Mar-07", version], "behind the version": [version, "creation_date>14-Mar-07"], "before the version, with comments": ["creation_date>1/* */", version + "/* creation_date>2 */"],
               "a version alone": [version], "called as the version is": [version, "creation_date>2.0"]}
    for what, base, at in (("yard A", YARD_A, 4), ("mission A", ROUND_1, 3)):
        writings = {}
        for label, lines in spelled.items():
            whole = ins(base, at, *lines)
            texts = (whole, None) if what == "yard A" else (YARD_A, whole)
            run("%s, date: %s; output as without it" % (what, label), *texts, ("exact", "short") if label in ("alone", "longest", "behind the version") else ("exact",))
            done = Case("", 1 if what == "yard A" else 2, as_bytes(texts[0]), as_bytes(texts[1] or b""), MOST_OUT).reply
            writings.setdefault(version in "".join(lines), set()).add(bytes(done.output[:done.written]))
        assert {k: len(v) for k, v in writings.items()} == {False: 1, True: 1}, "texts that differ in dates alone"
        again = lambda *lines: (ins(base, at, *lines), None) if what == "yard A" else (YARD_A, ins(base, at, *lines))
        run("%s, two dates" % what, *again("creation_date>a", "creation_date>a"), ("wide",))
        run("%s, two dates, the version between" % what, *again("creation_date>a", version, "creation_date>b>c"), ("wide",))
    run("mission without a date, yard with one", ins(YARD_A, 4, "creation_date>y"), ROUND_1, ("exact", "short"))
    run("mission and yard, each with a date", ins(YARD_A, 4, "creation_date>y", version), ins(ROUND_1, 3, version, "creation_date>m"), ("exact", "short"))
    take(Case("2006: yard A, date alone", 3, as_bytes(ins(YARD_A, 4, "creation_date>y")), b"", len(text(YARD_A))))
    take(Case("2006: mission A, date alone", 4, as_bytes(ins(YARD_A, 4, "creation_date>y")), as_bytes(ins(ROUND_1, 3, "creation_date>m")), len(text(ROUND_1))))


def refused():
    run("empty", b"", None, ("all",))
    run("an RNDF for an MDF", YARD_A, YARD_A, ("wide",))
    run("no end_file", YARD_A[:-1], None, ("wide",))
    run("bad entry", put(YARD_A, 9, "exit>1.1.2>1.1.3"), None, ("wide",))
    run("bad entry, no output", put(YARD_A, 9, "exit>1.1.2>1.1.3"), None, ("none",))
    run("checkpoint again", ins(YARD_A, 9, "checkpoint>1.1.1>7"), None, ("all",))
    run("more rows than there is room for", ins(put(YARD_A, 7, "num_waypoints>82"), 12, *["1.1.%d>1.000000>1.000000" % i for i in range(3, 83)]), None, ("all",))
    run("other RNDF's name", YARD_A, put(ROUND_1, 2, "RNDF>yard_b"), ("wide",))
    run("bad RNDF in a pair", cut(YARD_A, 3), ROUND_1, ("wide",))
    run("no limit", YARD_B, put(cut(MISSION_B, 17), 13, "num_speed_limits>3"), ("wide",))


def older():
    """L10: the edition of December 6, 2006."""
    yellow = ins(YARD_A, 8, "right_boundary>solid_yellow")
    for label, mode, r, m in (("yard A", 3, YARD_A, b""), ("mission A", 4, YARD_A, ROUND_1), ("yard D", 3, YARD_D, b""), ("mission D", 4, YARD_D, MISSION_D),
                              ("solid_yellow", 3, yellow, b""), ("mission, solid_yellow", 4, yellow, ROUND_1), ("no spots", 3, YARD_B, b"")):
        take(Case("2006: " + label, mode, as_bytes(r), as_bytes(m), 1500))
    run("2007: solid_yellow", yellow, ROUND_1)


def pack(taken):
    """The cases in files, in order."""
    files = [b""]
    for case in taken:
        one = case.bytes()
        if len(files[-1]) + len(one) > FILE_ROOM:
            files.append(b"")
        files[-1] += one
    return files


def random_ones():
    """Random pairs, whole ones first, while there is room."""
    rng = random.Random(SEED)
    whole, met = 0, {}
    for k in range(4000):
        mode, rndf, mdf, _ = generate.one_case(rng)
        if len(rndf) > 1000 or len(mdf) > 600:
            continue
        exact = size(mode, rndf, mdf)
        case = Case("random %d" % k, mode, rndf, mdf, min(MOST_OUT, max(0, exact + rng.choice([-1, 0, 0, 0, 1, 25]))) if exact else rng.randint(0, 60))
        if exact:
            whole += 1
            if whole > WHOLE:
                continue
        else:
            met[case.key()] = met.get(case.key(), 0) + 1
            if met[case.key()] > EACH:
                continue
        take(case)
        if len(pack(taken)) > FILES:
            taken.pop()
            return


def noticed(module):
    """Whether a mutant of the oracle answers some case otherwise."""
    for case in taken:
        try:
            if case.said(case.judged(module)) != case.said():
                return True
        except Exception:
            return True
    return False


def mutants():
    source = open(oracle.__file__).read()
    survive = 0
    for old, new in MUTANTS:
        assert old in source, "not found: %r" % old
        module = types.ModuleType("mutant")
        exec(compile(source.replace(old, new, 1), "mutant", "exec"), module.__dict__)
        if not noticed(module):
            survive += 1
            print("SURVIVES: %r -> %r" % (old, new))
    print("%d mutants, %d survive" % (len(MUTANTS), survive))
    return 1 if survive else 0


def main():
    for part in (lengths, untidy, dates, refused, older, random_ones):
        part()
    if sys.argv[1:] == ["--mutants"]:
        return mutants()
    tally = {}
    for case in taken:
        tally[case.key()] = tally.get(case.key(), 0) + 1
    files = pack(taken)
    print("cases:", len(taken), "bytes", [len(f) for f in files])
    for key in sorted(tally, key=str):
        print(*key, tally[key])
    assert len(files) == FILES, "the program opens %d files" % FILES
    crate = os.path.join(here, "..", "crates", "writer_vectors")
    written = {os.path.join("data", "cases_%d" % i): whole for i, whole in enumerate(files, 1)}
    written["stdout"] = b"".join(case.said() for case in taken)
    if sys.argv[1:] == ["--check"]:
        found = differ(crate, written)
        print("%d cases, %d files of the crate are not as the oracle has them" % (len(taken), len(found)))
        return 1 if found else 0
    os.makedirs(os.path.join(crate, "data"), exist_ok=True)
    for name, whole in written.items():
        with open(os.path.join(crate, name), "wb") as out:
            out.write(whole)
    return 0


if __name__ == "__main__":
    sys.exit(main())
