#!/usr/bin/env python3
"""Asks the library what may stand where a text was refused (issue 38) and has the words judged by the oracle's reader (tests/damage.sh COUNT SEED expected builds everything and runs this).

    expected.py PROGRAM COUNT SEED      PROGRAM is tests/damage/reader.c, compiled
    expected.py --oracle COUNT SEED     no library: tests/oracle/telling.py stands in for it, so that judge and texts are tried alone
    expected.py --mutants COUNT SEED    no library: the stand-in's sentences made wrong, a few of each; are they noticed?

The texts: COUNT pairs of damage/pairs.py, each in the present edition and every second one in that of December 6, 2006 as well (mostly without `solid_yellow`, so that it gets further); yards A, B and C and their
missions with every line left out, doubled, cut off, replaced, with a field more or less, and with each field misspelt, 0, one off or too large (`placed`), in both editions; texts at the ends of ranges and of lists
(`edges`); and, from 2,250 pairs on, some of 16,777,215 bytes and some with 32,768 of a part, which are judged by a few lines only. Of each the refusal is the oracle's, with tables that are large enough. Texts that are accepted are counted and, as some others, asked about with refusals that they do not get.

The words are judged by tests/oracle/expecting.py: what they list is taken at that place, what they don't list is refused. Each question is put with an output of 512 bytes, of just the words' length, which have to give the same
words and zeros behind them, and of one byte less, which has to give 19, length 0 and zeros. 2, 3, 4 and refusals without a line have to give length 0 and zeros.

Printed: how often each number came by edition and file, how many sentences, items and other lines or fields were tried, every shape of sentence (numbers as N) with how often it came, to be read by eye, how many sentences are worded otherwise than
the stand-in's though both are true, and what differs, which is kept in target/damage. The status is 0 if nothing differs and every number from 2 to 10, from 12 to 18 and 25 came.

A case for the program is as compare.py has it, with mode 11, the line in place of the start and file and number in place of the route; it answers three times, with an output of 512 bytes, of the words' length and of one byte less (not where there are no words).
"""
import multiprocessing
import os
import random
import struct
import subprocess
import sys
import time

sys.dont_write_bytecode = True
import pairs                        # noqa: E402
import expecting                    # noqa: E402  (tests/oracle, by way of pairs)
import telling                      # noqa: E402
import test_expecting               # noqa: E402
import yards                        # noqa: E402
from pairs import oracle            # noqa: E402

ROOT = os.path.dirname(os.path.dirname(os.path.dirname(os.path.abspath(__file__))))
KEPT = os.path.join(ROOT, "target", "damage")
BLOCK = 250
EXPECTED = 11                       # the program's mode
ENOUGH = 512                        # bytes: "512 bytes are always enough"
OUTPUT_TOO_LONG = 19
NUMBERS = [*range(2, 11), *range(12, 19), 25]       # those that have to come
MOST_KEPT = 10                      # of a block
MUTANTS_OF_EACH = 12
HEAD = struct.Struct("<30I")        # kastepuhm_write_answer
ROOM = expecting.NO_ROW_SHORT
PRESENT, OLDER = oracle.PRESENT, oracle.DECEMBER_2006


class Question:
    """Two texts in an edition, and a refusal; whether they get it (if not, nothing is to be judged)."""
    __slots__ = ("edition", "rndf", "mdf", "refusal", "kinds", "own")

    def __init__(self, edition, rndf, mdf, refusal, kinds, own=True):
        self.edition, self.rndf, self.mdf, self.refusal, self.kinds, self.own = edition, rndf, mdf, refusal, kinds, own


def refusal_of(edition, rndf, mdf):
    """The reader's with room enough, None where it accepts."""
    try:
        form, rows = oracle.judge_rndf(rndf, ROOM, edition)
        if mdf is not None:
            oracle.judge_mdf(mdf, ROOM, rndf, form, rows)
    except oracle.Refused as refused:
        return refused.reply
    return None


# ---- texts

def near_lines(lines, n):
    """The text with line n (from 1) changed in every way."""
    line = lines[n - 1]
    fields = line.split(">")
    yield "end", lines[:n - 1]
    yield "left out", yards.cut(lines, n)
    yield "doubled", yards.ins(lines, n, line)
    yield "replaced", yards.put(lines, n, "x")
    yield "end_file", yards.put(lines, n, "end_file")
    yield "a field more", yards.put(lines, n, line + ">1")
    if len(fields) > 1:
        yield "a field less", yards.put(lines, n, ">".join(fields[:-1]))
    for k in range(0 if line[0].isdigit() else 1, len(fields)):
        parts = fields[k].split(".")
        others = [fields[k] + "x", fields[k] + "n" * 128, "0" + fields[k]]
        if all(part.lstrip("-").isdigit() for part in parts):
            others += [".".join([*parts[:j], value, *parts[j + 1:]]) for j in range(len(parts)) for value in ("0", str(int(parts[j]) + 1), str(int(parts[j]) - 1), "32769", "91", "181")] + ["999.000000"]
        for other in others:
            yield "field %d" % (k + 1), yards.put(lines, n, ">".join([*fields[:k], other, *fields[k + 1:]]))
    if len(fields) > 2:
        # one field misspelt and one not permitted: 8 behind and before a 9
        yield "two fields", yards.put(lines, n, ">".join(["0" if line[0].isdigit() and len(parts) == 1 else fields[0], *(["9.9.9"] if fields[1].count(".") == 2 else ["32769"]), fields[2] + "x"]))


def placed():
    """Every line of the hand-written yards and missions, changed in every way: (edition, RNDF, MDF or None, kinds)."""
    spotted = yards.put(yards.YARD_B, 62, "num_spots>1")        # for the older edition: a zone has a spot
    end = spotted.index("end_zone", 62)
    spotted = yards.ins(spotted, end + 1, "spot>4.1", "checkpoint>4.1.2>41", "4.1.1>0.000000>0.000000", "4.1.2>0.000000>0.000000", "end_spot")
    for edition, rndfs in ((PRESENT, [yards.YARD_A, yards.YARD_B, yards.YARD_C]), (OLDER, [spotted, yards.YARD_C])):
        for lines in rndfs:
            for n in range(1, len(lines) + 1):
                for kind, changed in near_lines(lines, n):
                    yield edition, yards.text(changed), None, ["placed, " + kind]
    for rndf, lines in ((yards.YARD_A, yards.ROUND_1), (yards.YARD_B, yards.MISSION_B)):
        for n in range(1, len(lines) + 1):
            for kind, changed in near_lines(lines, n):
                yield PRESENT, yards.text(rndf), yards.text(changed), ["placed, " + kind]


def edges():
    """Texts at the ends of ranges and of lists: (edition, RNDF, MDF or None, kinds)."""
    put, ins, text = yards.put, yards.ins, yards.text
    a, m = yards.YARD_A, yards.ROUND_1

    def of(kind, rndf, mdf=None, editions=(PRESENT, OLDER)):
        return [(edition, text(rndf), None if mdf is None else text(mdf), ["edge, " + kind]) for edition in editions]
    out = []
    for segments, zones in ((32768, "1"), (32768, "x"), (32767, "2"), (32767, "x"), (1, "32768"), (32768, "32769"), (2, "32767")):
        out += of("num_zones", put(put(a, 2, "num_segments>%d" % segments), 3, "num_zones>" + zones))
    for many in (1, 2, 3, 32767, 32768):
        lane = put(a, 7, "num_waypoints>%d" % many)[:7]
        for line in ("x", "stop>1.1.0", "stop>1.1.%d" % (many + 1), "checkpoint>1.2.1>1", "exit>1.1.%d>1.1" % many, "stop>x", "end_lane"):
            out += of("waypoints", lane + [line])
        first = [lane + ["1.1.1>0.000000>0.000000"], lane + ["1.1.1>0.000000>0.000000", "end_lane"]]
        for owed in first:                                  # thousands of lines that are owed are costly to try
            out += of("waypoints owed", owed, None, (PRESENT, OLDER) if many < 10 else (PRESENT,))
        out += of("no waypoint", lane)
        perimeter = put(yards.YARD_C, 15, "num_perimeterpoints>%d" % many)[:15]
        for line in ("x", "exit>2.0.0>1.1.1", "exit>2.0.%d>1.1.1" % (many + 1), "exit>2.0.%d>1.0.1" % many, "2.0.1>0.000000>0.000000"):
            out += of("perimeter", perimeter + [line], None, (PRESENT, OLDER) if many < 10 else (PRESENT,))
        goals = put(m, 4, "num_checkpoints>%d" % many)[:4]
        for line in ([], ["x"], ["7", "end_checkpoints"], ["0"], ["7"] * min(many, 3), ["7"] * min(many, 3) + ["7x"]):
            out += of("goals", a, goals + line, (PRESENT, OLDER) if many < 10 else (PRESENT,))
        limits = put(m, 8, "num_speed_limits>%d" % many)[:8]
        for line in ([], ["x"], ["1>0>0", "end_speed_limits"], ["0>0>0"], ["1>0>0"] * min(many, 3)):
            out += of("limits", a, limits + line, (PRESENT, OLDER) if many < 10 else (PRESENT,))
    for low, high in ((1, "x"), (2, "1"), (32767, "32766"), (32767, "x"), (32768, "32767"), (32768, "x"), (32769, "x"), (0, "32769"), (0, "x"), ("x", "0"), ("32769", "0")):
        out += of("speeds", a, put(m, 9, "1>%s>%s" % (low, high))) + of("speeds", a, put(m, 9, "0>%s>%s" % (low, high)))
    for many in (1, 2, 5, 6, 7, 8, 12, 100):
        lanes = [line for n in range(1, many + 1) for line in ("lane>1.%d" % n, "num_waypoints>1", "checkpoint>1.%d.1>%d" % (n, many + 1 - n), "1.%d.1>0.000000>0.000000" % n, "end_lane")]
        rndf = put(a[:5], 5, "num_lanes>%d" % many) + lanes + ["end_segment", "end_file"]
        out += of("lanes", ins(rndf, 8, "exit>1.1.1>1.%d.1" % (many + 1))) + of("checkpoints", rndf, put(m, 5, str(many + 1)))
        segments = [line for n in range(1, many + 1) for line in ("segment>%d" % n, "num_lanes>1", "lane>%d.1" % n, "num_waypoints>1", *(["checkpoint>1.1.1>7"] if n == 1 else []), "%d.1.1>0.000000>0.000000" % n, "end_lane", "end_segment")]
        rndf = put(a[:3], 2, "num_segments>%d" % many) + segments + ["end_file"]
        out += of("ids", rndf, put(m, 9, "%d>0>0" % (many + 1)))
        for given in {0, 1, 2, many - 2, many - 1, many} - {-1}:
            some = ["%d>0>0" % n for n in range(many, many - given, -1)]
            out += of("ids", rndf, put(m[:8], 8, "num_speed_limits>%d" % (given + 1)) + some + ["%d>0>0" % many] + m[9:]) if given else []
            out += of("ids missing", rndf, put(m[:8], 8, "num_speed_limits>%d" % given) + some + m[9:]) if given else []
        zones = [line for z in range(2, many + 2) for line in ("zone>%d" % z, "num_spots>1", "perimeter>%d.0" % z, "num_perimeterpoints>2", *(["exit>2.0.1>2.1.1"] if z == 2 else []), "%d.0.1>0.000000>0.000000" % z,
                 "%d.0.2>0.000000>0.000000" % z, "end_perimeter", "spot>%d.1" % z, "checkpoint>%d.1.2>%d" % (z, z), "%d.1.1>0.000000>0.000000" % z, "%d.1.2>0.000000>0.000000" % z, "end_spot", "end_zone")]
        yard = put(a[:13], 3, "num_zones>%d" % many)
        out += of("zones", yard + zones + ["end_file"]) + of("zones", put(yard, 9, "exit>1.1.2>2.1.2") + [line for line in zones if line[:4] != "exit"] + ["end_file"])
    out += of("no checkpoint", yards.cut(a, 8), m)
    for name in ("nothing", "1.1.1", "n" * 128, "a,b:(c)", "a_number", "!\"#$%&'()+,-./:;<=?@[]^_`{|}~"):
        out += of("name", put(a, 1, "RNDF_name>" + name), m)
    for number in (1, 32768):
        out += of("numbers", ins(put(a, 8, "checkpoint>1.1.2>%d" % number), 9, "checkpoint>1.1.1>%d" % number))
    return out


def wide(rng):
    """Texts in which something comes 32,768 times, refused at the last one of them: (edition, RNDF, MDF or None, kinds). Each is read a few times only."""
    out = []

    def of(which, word, lines, mdf=None):
        out.append((PRESENT, pairs.g.render(rng, lines, 0), mdf and pairs.g.render(rng, mdf, 0), ["wide, %s, %s" % (which, word)]))
    for which, word in (("segments", b"segment"), ("lanes", b"lane"), ("zones", b"zone"), ("spots", b"spot")):
        lines = pairs.wide_pair(rng, which)[0][1]
        last = max(i for i, fields in enumerate(lines) if fields[0] == word)
        of(which, "replaced", [*lines[:last], [b"x"]])
        of(which, "misspelt", [*lines[:last], [word, b"x"]])
    of("checkpoints", "all taken", pairs.crowded_pair(rng)[0][1])
    lines = pairs.wide_pair(rng, "segments")[0]
    limits = [i for i, fields in enumerate(lines[2]) if len(fields) == 3]
    of("limits", "given again", lines[1], [*lines[2][:limits[-1]], lines[2][limits[0]], *lines[2][limits[-1] + 1:]])
    of("limits", "missing", lines[1], [[fields[0], b"32767"] if fields[0] == b"num_speed_limits" else fields for i, fields in enumerate(lines[2]) if i != limits[7]])
    return out


def questions_of(seed, number, count):
    """The questions of a block: below 0 a stretch of the edges and places, from 0 on pairs of the generator."""
    rng = random.Random("expected %d %d" % (seed, number))
    cases = []
    if number < 0:
        cases = edges() + list(placed())
        size = -(-len(cases) // STRETCHES)                  # one behind the other: texts that begin alike are judged together, which is cheaper
        cases = cases[(-number - 1) * size:-number * size]
    else:
        large = pairs.large_cases(rng) if number == LARGE and count == BLOCK else []
        for k in range(count):
            case = large[k] if k < len(large) else pairs.make_case(rng)
            rndf, mdf = (text if length == len(text) else said(text, length) for text, length in ((case.rndf, case.rndf_length), (case.mdf, case.mdf_length)))
            cases.append((PRESENT, rndf, mdf, case.kinds))
            if k % 2:
                aged = rndf.replace(b"solid_yellow", b"broken_white") if case.rndf_length == len(rndf) and rng.random() < 0.75 else rndf
                cases.append((OLDER, aged, mdf, case.kinds))
        cases += wide(rng) if large else []
    out = []
    for k, (edition, rndf, mdf, kinds) in enumerate(cases):
        refusal = refusal_of(edition, rndf, mdf)
        if refusal is not None:
            # what is told of an RNDF hangs on nothing in the MDF: now and then it is not lent at all
            alone = refusal[0] == 1 and k % 4 == 0
            out.append(Question(edition, rndf, b"" if mdf is None or alone else mdf, refusal, kinds))
        if refusal is None or k % 16 == 0:
            out.append(Question(edition, rndf, mdf or b"", another_refusal(rng, refusal, rndf, mdf or b""), kinds, False))
    return out


LARGE = 8                           # the block that has the longest texts too
STRETCHES = 24                      # in so many jobs the edges and places are judged


def said(text, length):
    longer = pairs.Long(text)
    longer.length = length
    return longer


def another_refusal(rng, refusal, rndf, mdf):
    """One that the texts do not get."""
    while True:
        file, line, number, _ = refusal or (rng.choice([1, 2]), rng.randint(1, 1 + rndf[:5000].count(b"\n")), rng.choice(NUMBERS), 1)
        how = rng.randrange(6)
        if how == 0:
            line = max(0, line + rng.choice([-1, 1, 2, 1000]))
        elif how == 1:
            number = rng.choice([0, 1, *NUMBERS, 11, 19, 20, 26, 32, 255])
        elif how == 2:
            file = rng.choice([0, 1, 2, 3, 0xFFFFFFFF])
        elif how == 3:
            line = rng.choice([0, 1, 0x7FFFFFFF, 0x80000000, 0xFFFFFFFF])
        elif how == 4:
            file, line, number = rng.choice([1, 2]), rng.randint(1, 200), rng.choice(NUMBERS)
        if refusal is None or (file, line, number) != refusal[:3]:
            return file, line, number, 0


# ---- the program

def encode(question):
    file, line, number, _ = question.refusal
    # any number but 1 is the present edition
    edition = 1 if question.edition == OLDER else (0, 2, 257, 0xFFFFFFFF)[line % 4]
    texts = [bytes(question.rndf[:]), bytes(question.mdf[:])]
    return struct.pack("<BI2Q2I13I", EXPECTED, edition, len(question.rndf), len(question.mdf), *map(len, texts), *[0] * 10, ENOUGH, line, 2) + b"".join(texts) + struct.pack("<2I", file, number)


class Answer:
    """What was answered with one output: accepted, number, length, the output's bytes, and whether anything else was written."""

    def __init__(self, data):
        head = HEAD.unpack_from(data)
        self.accepted, self.number, self.length = head[0], head[3], head[29]
        self.output, self.elsewhere = data[HEAD.size:-4], any(data[-4:])
        self.others = head[5:29]    # rows and names: there are none


def answers(program, questions):
    """For each the answers with 512 bytes, with as many as there are words, and with one less; None where the program ended."""
    if program == "--oracle":
        return [stand_in(question) for question in questions]
    out, rest = [], questions
    while rest:
        done = subprocess.run([program], input=b"".join(map(encode, rest)), stdout=subprocess.PIPE, check=False).stdout
        at = 0

        def next_answer(size):
            nonlocal at
            data, at = done[at:at + HEAD.size + size + 4], at + HEAD.size + size + 4
            return Answer(data) if at <= len(done) else None
        taken = 0
        for _ in rest:
            taken += 1
            got = [next_answer(ENOUGH)]
            if got[0] is not None:
                got += [next_answer(size) for size in (got[0].length, got[0].length - 1) if size >= 0]
            out.append(None if None in got else got)
            if out[-1] is None:
                break
        rest = rest[taken:]
    return out


def stand_in(question):
    """As the library is to answer, by the oracle's words."""
    words = telling.tell(question.edition, question.rndf, question.mdf, question.refusal).encode() if question.own else b""
    got = []
    for size in (ENOUGH, len(words), len(words) - 1):
        if size >= 0:
            fits = len(words) <= size
            got.append(Answer(HEAD.pack(int(fits), 0, 0, 0 if fits else OUTPUT_TOO_LONG, *[0] * 25, len(words) if fits else 0) + (words + bytes(size - len(words)) if fits else bytes(size)) + bytes(4)))
    return got


def outputs_differ(got):
    """What is wrong with the answers by their outputs, whatever the words say."""
    whole, exact, *short = got
    wrong = []
    if any(one.elsewhere for one in got):
        wrong.append("something else was written")
    if whole.number or exact.number:
        wrong.append("number %d with %d bytes, %d with just enough" % (whole.number, len(whole.output), exact.number))
    if whole.length > len(whole.output) or exact.length != whole.length or exact.output != whole.output[:whole.length]:
        wrong.append("other words with an output that is just long enough")
    if any(whole.output[whole.length:]):
        wrong.append("not zero behind the words")
    for one in short:
        if one.number != OUTPUT_TOO_LONG or one.length or any(one.output) or one.accepted:
            wrong.append("an output that is a byte too short: number %d, length %d, %s" % (one.number, one.length, "not all zero" if any(one.output) else "all zero"))
    return wrong


def keep(seed, number, k, question, words, wrong):
    os.makedirs(KEPT, exist_ok=True)
    path = os.path.join(KEPT, "expected-%d-%d-%d" % (seed, number, k))
    for text, ending in ((question.rndf, ".rndf"), (question.mdf, ".mdf")):
        with open(path + ending, "wb") as f:
            f.write(bytes(text[:]))
    told = words.decode("latin-1")
    with open(path + ".txt", "w") as f:
        f.write("%srefused %d %d %d %d; damage: %s\n\n%s\n\n%s\n" % (("December 6, 2006; " if question.edition == OLDER else "", *question.refusal, ", ".join(question.kinds), told, "\n".join(wrong))))
    return "DIFFERS %s (%s), %srefused %d %d %d %d\n  %s\n  %s" % (os.path.relpath(path, ROOT), ", ".join(question.kinds), "December 6, 2006, " if question.edition == OLDER else "", *question.refusal, told[:300], "; ".join(wrong)[:300])


class Counts:
    def __init__(self):
        self.came, self.shapes, self.worded, self.numbers = {}, {}, {}, {}
        self.differing, self.lines, self.told, self.seconds = 0, [], [], 0.0

    def add(self, of, key, n=1):
        of[key] = of.get(key, 0) + n

    def merge(self, other):
        for of, more in (self.came, other.came), (self.shapes, other.shapes), (self.worded, other.worded), (self.numbers, other.numbers):
            for key, n in more.items():
                self.add(of, key, n)
        self.differing += other.differing
        self.lines += other.lines
        self.told += other.told
        self.seconds += other.seconds


def run_block(job):
    program, seed, number, count = job
    counts, began = Counts(), time.process_time()
    questions = questions_of(seed, number, count)
    for k, (question, got) in enumerate(zip(questions, answers(program, questions))):
        if got is None:
            wrong, words = ["no answer: the program ended"], b""
        else:
            wrong, words = outputs_differ(got), got[0].output[:got[0].length]
        if question.own:
            refused = question.refusal
            counts.add(counts.came, (question.edition, refused[0], refused[2]))
            verdict = expecting.judge(question.edition, question.rndf, question.mdf, refused, words)
            wrong += verdict.differs
            for what, n in (("sentences", int(bool(words))), ("items", verdict.items), ("others", verdict.others), ("lines still owed", verdict.owed), ("sentences of long texts", int(verdict.sparse)), ("told nothing", int(not words))):
                counts.add(counts.numbers, what, n)
            counts.add(counts.shapes, (refused[2], verdict.shape))
            if program != "--oracle" and not wrong and telling.tell(question.edition, question.rndf, question.mdf, refused) != words.decode("latin-1"):
                counts.add(counts.worded, (refused[2], verdict.shape))
        else:
            counts.add(counts.numbers, "refusals that the texts do not get: %s" % ("something told" if words else "nothing told"))
            if words:
                counts.told.append("%srefused %d %d %d is not what they get: %s" % ("December 6, 2006, " if question.edition == OLDER else "", *question.refusal[:3], words.decode("latin-1")[:200]))
        if wrong:
            counts.differing += 1
            if len(counts.lines) < MOST_KEPT:
                counts.lines.append(keep(seed, number, k, question, words, wrong))
    counts.told = counts.told[:2]
    counts.seconds = time.process_time() - began
    return counts


def mutate_block(job):
    """The stand-in's sentences made wrong: a few of each."""
    _, seed, number, count = job
    rng = random.Random("mutants %d %d" % (seed, number))
    counts = Counts()
    for question in questions_of(seed, number, count):
        if not question.own or len(question.rndf) + len(question.mdf) > 20_000:
            continue
        words = telling.tell(question.edition, question.rndf, question.mdf, question.refusal)
        if not words:
            continue
        lead = expecting.MAY_STAND if words.startswith(expecting.MAY_STAND) else ""
        wrongs = sorted({(wrong, label) for label, wrong in test_expecting.mutants(words[len(lead):], question.refusal[2]) if lead + wrong != words})
        for wrong, label in rng.sample(wrongs, min(MUTANTS_OF_EACH, len(wrongs))):
            counts.add(counts.numbers, "wrong sentences")
            if not expecting.judge(question.edition, question.rndf, question.mdf, question.refusal, lead + wrong if wrong else "", True).differs:
                counts.differing += 1
                counts.lines.append("NOT NOTICED of %s in %d: %s, for %s: %s" % (question.refusal, question.edition, label, words, wrong))
    return counts


def jobs_of(program, count, seed):
    return [(program, seed, -1 - k, 0) for k in range(STRETCHES)] + [(program, seed, b, min(BLOCK, count - b * BLOCK)) for b in range(-(-count // BLOCK))]


def run(program, count, seed):
    counts = Counts()
    work = mutate_block if program == "--mutants" else run_block
    with multiprocessing.Pool(len(os.sched_getaffinity(0))) as pool:
        for more in pool.imap_unordered(work, jobs_of(program, count, seed)):
            for line in more.lines:
                print(line, flush=True)
            counts.merge(more)
    if program == "--mutants":
        print("seed %d: %d wrong sentences, %d not noticed" % (seed, counts.numbers.get("wrong sentences", 0), counts.differing))
        return 1 if counts.differing else 0
    print("\n%-8s %16s %16s %16s %16s" % ("number", "RNDF", "RNDF, 2006", "MDF", "MDF, 2006"))
    for number in [1, *NUMBERS]:
        print("%-8d %16d %16d %16d %16d" % (number, *(counts.came.get((edition, file, number), 0) for file in (1, 2) for edition in (PRESENT, OLDER))))
    print("\n%8s  %6s  %s" % ("came", "number", "shape of the sentence"))
    for (number, shape), n in sorted(counts.shapes.items(), key=lambda item: (item[0][0], -item[1])):
        print("%8d  %6d  %s" % (n, number, shape or "(a name)" * (number == 14)))
    if counts.worded:
        print("\n%8s  %6s  %s" % ("came", "number", "worded otherwise than the stand-in's, though true"))
        for (number, shape), n in sorted(counts.worded.items()):
            print("%8d  %6d  %s" % (n, number, shape))
    for line in counts.told[:10]:
        print(line)
    print()
    for what, n in sorted(counts.numbers.items()):
        print("%-60s %10d" % (what, n))
    missing = [number for number in NUMBERS if not any(key[2] == number for key in counts.came)]
    if missing:
        print("did not come: %s" % missing)
    print("seed %d: %d pairs and %d places, %d sentences, %d items and %d others tried, %d differ (%d s of processor time)" % (seed, count, sum(len(questions_of(seed, -1 - k, 0)) for k in range(STRETCHES)),
          counts.numbers.get("sentences", 0), counts.numbers.get("items", 0), counts.numbers.get("others", 0), counts.differing, counts.seconds))
    return 1 if counts.differing or missing else 0


if __name__ == "__main__":
    sys.exit(run(sys.argv[1], int(sys.argv[2]), int(sys.argv[3])))
