#!/usr/bin/env python3
"""Compares the library with the oracle on pairs of texts, well-formed and damaged (tests/damage.sh builds everything and runs this).

    compare.py PROGRAM COUNT SEED [SORT]    PROGRAM is tests/damage/reader.c, compiled; COUNT pairs, in blocks that each have their own generator; with a SORT (pairs, maps, routes, missions, packed, same, mend, ends, packed-bytes) only that one
    compare.py --oracle COUNT SEED [SORT]   no library: the oracle stands in for it, so that what is held to each other here (the two writings of twins, a writing written again) is held for the oracle alone
    compare.py --judgements COUNT SEED [SORT]   no library: does the oracle judge packed forms as the second judgement of tests/oracle/packed.py does?
    compare.py --mutants COUNT SEED [SORT]  no library: do the cases notice each small mistake of tests/oracle/mutate.py (and maps.py, routes.py, missions.py, packed.py) in a copy of the oracle?

Of every pair the reply, every name, every row count and every number of every lent table have to be the oracle's; every fourth RNDF is read alone as well. Each reply is counted by
file and number, each refusal's column (request L7) by what its line is like: whether tabs or spaces lead it, whether it has a comment, whether several of its fields are at fault, and
which field the column is of. A case that differs is printed and kept in target/damage. The status is 0 if none differs and every refusal number came, those of a line also in a line that
is led by tabs or spaces.

The map is written too (request L2), of every second RNDF and of as many that are whole, into an output that is often just long enough or a byte too short: every byte of it has to
be the oracle's. What was written is then read by Python's json and held to the network (tests/oracle/maps.py, which knows nothing of the oracle's writer): features and their order,
properties, positions, the direction and the closing of rings. The cases worked out by hand there and the longest maps are among the first block's.

Routes (request L5), half as many as pairs, are judged over pairs that are mostly whole: good by construction, then damaged in none, one or two ways (tests/oracle/routes.py); the
cases worked out by hand there are in the first block. Reply, names, counts and tables have to be the oracle's.

Missions (request L13), half as many as pairs, over pairs that are mostly whole and yards in which much can't be reached: some have a good route by construction, others have any goals,
another start, or a start that is no point, and work space with as many rows as points, more or fewer (tests/oracle/missions.py); the cases worked out by hand there are in the first block. The work
space is lent with other numbers in it, ends where the memory ends and has to be zero afterwards, whatever is answered. tests/missions.sh holds the answers to those for routes.

Packed forms (request L11): as many as pairs are unpacked, of generated networks, each good or damaged by one to three of the kinds in tests/oracle/packed.py (rows, numbers, names, counts,
references; bytes, lengths, ends), and a quarter as many RNDFs are packed, with an output that is often a byte too short. The cases worked out by hand are in the first block, forms with
32,768 of something in every fortieth, forms of 16,777,215 bytes and one whose text would have more in the fifth, a network's form of 16,777,215 bytes in the forty-first. Beside reply, tables and output: the second judgement of packed.py has to agree with the oracle on each form; what
was unpacked, damaged or not, is packed again by the oracle from the program's answer and has to give the same bytes; what was packed is unpacked by the oracle as the same network but for its creation date (request L12). Every prefix and every change of
one byte of two yards' forms, each with tables for it and with fewer, are unpacked where SORT is `packed-bytes`.

Twins (request L14): half as many pairs of texts as COUNT, every second one two RNDFs, the others two MDFs, each with an RNDF of its own; spellings of one network or mission, or of near ones (tests/damage/same.py). The
library writes both, each in an edition of its own where the older one accepts it too. Their writings have to be equal exactly where the oracle says from the tables that they are the same yard or mission (oracle.same_yard,
oracle.same_mission), and that has to be what the generator knows; what was written is written again by the library, a mission half of the time with its RNDF's house writing, and has to give the same bytes, row counts
and whole output. Counted by kind of change: same, not the same, and not both written.

Mending (request L9): as many RNDFs as pairs, mostly accepted ones into which one to five of the three troubles were put, also near comments, CRs and spaces; others have none, were damaged further or otherwise
(tests/damage/mends.py). Every second one is in the older edition; the list is often a row or a word short, the output a byte. Where only the three troubles were put in, what comes out and what is listed are known by
construction, and the oracle is held to that too; so is it to the second judgement of tests/oracle/mending.py, line by line. What came out is mended again, which has to change nothing. The cases by hand are in the first
block, 32,768 and 32,769 items too (where the block is whole), texts of 16,777,215 bytes in the fifth.

Line ends (only where SORT is `ends`): COUNT RNDFs with every end that a line can have, of up to so many signs of comments, separators and line ends (pairs.py, end_case).

Every second pair, every fourth RNDF alone and half of the maps, routes, missions and packings are judged in the edition of December 6, 2006 (request L10), whose number is 1; the present one has any
other number.

A case for the program, little endian: 1 byte mode (1 RNDF alone, 2 pair, 3 map, 4 route, 5 mission, 6 RNDF's house writing, 7 MDF's, 8 packing, 9 unpacking: the bytes stand in place of the RNDF; 10 mending: the list stands in place of the segments; 11 what may stand here: see expected.py); the edition (4 bytes); both texts' lengths (8 bytes each) and how many bytes of each are given (4 each); the ten
tables' lengths and the output's (4 each); the start and how many points the route has, or words the work space (4 each); both texts' bytes; the route's points (4 each). Its answer: kastepuhm_write_answer (30 words: the column stands behind the number), the lent tables' words, the output's bytes, one word that is 0 if nothing else was written. Of mending the first seven words of the answer are kastepuhm_mend_answer, and the others 0.
"""
import array
import multiprocessing
import os
import random
import struct
import subprocess
import sys
import types

sys.dont_write_bytecode = True
import pairs                        # noqa: E402
import maps                         # noqa: E402  (tests/oracle, by way of pairs)
import mending                      # noqa: E402
import mends                        # noqa: E402
import packed                       # noqa: E402
import same                         # noqa: E402
from pairs import g, oracle         # noqa: E402

ROOT = os.path.dirname(os.path.dirname(os.path.dirname(os.path.abspath(__file__))))
KEPT = os.path.join(ROOT, "target", "damage")
BLOCK = 500
NUMBERS = [*range(1, 20), 21, 22, 23, 24, 25, 30, 31]
OF_A_LINE = [*range(3, 10), *range(12, 19), 25]     # the column hangs on what stands in the line
REQUESTED = ["9 of L8", "8 of L10", "9 of L10"]     # those that a request gives, at their usual places
LIKE = ["led", "comment", "several", "field 1", "field 2", "field 3"]
MOST_KEPT = 20                      # cases that differ, of a block
RNDF_ALONE, PAIR, MAP, ROUTE, MISSION = 1, 2, 3, 4, 5
WRITE_RNDF, WRITE_MDF = 6, 7        # the house writing; request L14
PACKING, UNPACKING = 8, 9           # request L11
MEND = 10                           # request L9
STAND_IN = oracle                   # for the program, where it is `--oracle`
OF_MENDING = [1, 11, 19, 26]
VERDICTS = ["same", "not the same", "not both written"]
OLDER = 16                          # added to a mode: in the edition of December 6, 2006
LABELS = {PAIR: "pair", RNDF_ALONE: "RNDF alone", MAP: "map", ROUTE: "route", MISSION: "mission", WRITE_RNDF: "writing", WRITE_MDF: "mission's writing", PACKING: "packing", UNPACKING: "unpacking", MEND: "mending"}
OF_PACKED = [(PACKING, n) for n in (11, 19)] + [(UNPACKING, n) for n in (1, 11, 27, 28, 29)]    # those that have to come
HEAD = struct.Struct("<30I")        # kastepuhm_write_answer
ROWS = ["segments", "lanes", "zones", "spots", "points", "checkpoints", "stops", "exits", "goals", "limits"]


def pairs_of(rng, number, count):
    """COUNT pairs as (mode, case), every fourth RNDF alone as well, and the map of every second."""
    cases = pairs.large_cases(rng) if number % 40 == 0 else []
    while len(cases) < count:
        cases.append(pairs.make_case(rng))
    modes = ((PAIR, RNDF_ALONE, MAP), (PAIR, PAIR | OLDER), (PAIR, MAP | OLDER), (PAIR, PAIR | OLDER, RNDF_ALONE | OLDER))
    return [(mode, case) for k, case in enumerate(cases) for mode in modes[k % 4]]


def maps_of(rng, number, count):
    """Maps of whole RNDFs, half as many; in the first block also those worked out by hand."""
    return [(MAP | OLDER * (k % 2), case) for k, case in enumerate([pairs.map_case(rng) for _ in range(count // 2)] + (pairs.maps_by_hand() if number == 0 else []))]


def routes_of(rng, number, count):
    """Routes, half as many; in the first block also those worked out by hand."""
    return [(ROUTE | OLDER * (k % 2), case) for k, case in enumerate([pairs.route_case(rng) for _ in range(count // 2)] + (pairs.routes_by_hand() if number == 0 else []))]


def missions_of(rng, number, count):
    """Missions, half as many; in the first block also those worked out by hand."""
    return [(MISSION | OLDER * (k % 2), case) for k, case in enumerate([pairs.mission_case(rng, k % 2) for k in range(count // 2)] + (pairs.missions_by_hand() if number == 0 else []))]


def ends_of(rng, number, count):
    """RNDFs alone with every line end that there is, one behind the other."""
    return [(RNDF_ALONE, pairs.end_case(number * BLOCK + k)) for k in range(count)]


def packed_of(rng, number, count):
    """Forms to be unpacked, and a quarter as many RNDFs to be packed; in the first block also those worked out by hand, in some those of the largest sizes."""
    forms = [pairs.unpacking_case(rng) for _ in range(count)]
    texts = [pairs.packing_case(rng) for _ in range(count // 4)]
    if number % 40 == 0 and count == BLOCK:
        forms += pairs.large_forms(rng)
        texts += pairs.large_packings(rng)
    if number == 0:
        forms += pairs.forms_by_hand()
    if number == 4:
        forms += pairs.forms_of_edge_size()
    if number == 40:
        forms.append(pairs.form_of_largest_size())
    return [(UNPACKING, case) for case in forms] + [(PACKING | OLDER * (k % 2), case) for k, case in enumerate(texts)]


def packed_bytes_of(rng, number, count):
    """Every prefix and every change of one byte of two forms, each twice; there are 2 * packed.ONE_BYTE_FORMS."""
    first = number * BLOCK
    return [(UNPACKING, pairs.one_byte_case(*packed.one_byte_form(k // 2), k)) for k in range(first, min(first + count, 2 * packed.ONE_BYTE_FORMS))]


def same_of(rng, number, count):
    """Twins, RNDFs and missions in turn: two texts each, one behind the other; now and then RNDFs of the largest counts."""
    out = []
    for k in range(count // 2):
        mode, twin = ((WRITE_RNDF, same.twin), (WRITE_MDF, same.mission_twin))[k % 2]
        out += [(mode | OLDER * older, case) for older, case in twin(rng)]
    if number % 40 == 0 and count == BLOCK:
        out += [(WRITE_RNDF | OLDER * older, case) for older, case in same.wide_twin(rng)]
    return out


def mend_of(rng, number, count):
    """RNDFs to be mended; in the first block also those worked out by hand, and those of the largest counts; in the fifth those of the largest size."""
    out = [(MEND | OLDER * (k % 2), mends.mend_case(rng, k % 2)) for k in range(count)]
    if number == 0:
        out += [(MEND | OLDER * older, case) for older in (0, 1) for case in mends.by_hand(older)]
        out += [(MEND, case) for case in (mends.many_cases(rng) if count == BLOCK else [])]
    if number == 4:
        out += [(MEND, case) for case in mends.largest_cases()]
    return out


SORTS = {"pairs": pairs_of, "maps": maps_of, "routes": routes_of, "missions": missions_of, "packed": packed_of, "same": same_of, "mend": mend_of, "ends": ends_of, "packed-bytes": packed_bytes_of}
USUAL = ["pairs", "maps", "routes", "missions", "packed", "same", "mend"]     # those that are run if none is named


def block_of(seed, number, count, sorts):
    """The cases of a block; each sort has its own generator."""
    out = []
    for sort in sorts:
        rng = random.Random("%s %d %d" % (sort.replace("pairs", "damage"), seed, number))    # the pairs are those of before there were sorts
        cases = [(mode, pairs.aged(case) if mode & OLDER and sort not in ("same", "mend") and rng.random() < 0.75 else case) for mode, case in SORTS[sort](rng, number, count)]
        for mode, case in cases:
            if kind_of(mode) in (MAP, PACKING):
                lend_output(rng, mode, case)
            elif kind_of(mode) in (WRITE_RNDF, WRITE_MDF):
                lend_for_writing(rng, mode, case)
        out += cases
    return out


def lend_output(rng, mode, case):
    """As many bytes as the map or the packed form has, or a little more or less; now and then far more, or none."""
    reply = oracle.read_rndf(said(case.rndf, case.rndf_length), case.room)
    size = len((oracle.geojson if kind_of(mode) == MAP else oracle.pack)(oracle.network_of(reply, case.rndf))) if reply.accepted else 100
    case.out = max(0, min(size, oracle.LARGEST_TEXT + 5) + rng.choice([0, 0, 0, 0, 0, 0, 1, 1, 2, 3, 7, 300, -1, -1, -size // 2, -size]))


def lend_for_writing(rng, mode, case):
    """As many bytes as the house writing has, or some more; now and then one too few."""
    case.out = len(case.rndf) + len(case.mdf) + 1           # a writing is at most a byte longer than its text
    size = judge(oracle, kind_of(mode), case)[1] or 100
    case.out = size + rng.choice([0] * 12 + [1, 1, 2, 7, 300, -1])


def said(text, length):
    """The text as the oracle is to see it."""
    if length == len(text):
        return text
    longer = pairs.Long(text)
    longer.length = length
    return longer


def kind_of(mode):
    return mode & ~OLDER


def judge(reader, mode, case):
    """The reader's reply, and what the output then holds: its bytes in use, and all of them."""
    rndf, mdf = said(case.rndf, case.rndf_length), said(case.mdf, case.mdf_length)
    edition = reader.DECEMBER_2006 if mode & OLDER else reader.PRESENT
    if kind_of(mode) in (MAP, PACKING):
        done = (reader.write_map if kind_of(mode) == MAP else reader.write_packed)(rndf, case.room, case.out, edition)
        return done.reply, done.written or 0, done.output
    if kind_of(mode) == MEND:
        done = getattr(reader, "mend", mending.mend)(edition, rndf, case.room["segments"] // 2, case.out)
        return done, done.length, done.output
    if kind_of(mode) in (WRITE_RNDF, WRITE_MDF):
        done = reader.write_rndf(rndf, case.room, case.out, edition) if kind_of(mode) == WRITE_RNDF else reader.write_mdf(rndf, mdf, case.room, case.out, edition)
        return done.reply, done.written or 0, done.output
    if kind_of(mode) == UNPACKING:
        return reader.unpack(rndf, case.room), 0, b""
    if kind_of(mode) == ROUTE:
        return reader.drive(rndf, mdf, case.room, case.start, case.route, edition), 0, b""
    if kind_of(mode) == MISSION:
        return reader.can_drive(rndf, mdf, case.room, case.start, len(case.route), edition), 0, b""
    return reader.read_pair(rndf, mdf, case.room, edition) if has_mdf(mode) else reader.read_rndf(rndf, case.room, edition), 0, b""


def has_mdf(mode):
    return kind_of(mode) in (PAIR, ROUTE, MISSION, WRITE_MDF)


def lent(mode, case):
    return [case.room[t] if has_mdf(mode) or t not in oracle.MDF_TABLES else 0 for t in ROWS]


def lent_output(mode, case):
    return case.out if kind_of(mode) in (MAP, PACKING, WRITE_RNDF, WRITE_MDF, MEND) else 0


def answer_size(mode, case):
    return HEAD.size + 4 * sum(lent(mode, case)) + lent_output(mode, case) + 4


def encode(mode, case):
    mdf, mdf_length = (case.mdf, case.mdf_length) if has_mdf(mode) else (b"", 0)
    start, route = (case.start, case.route) if kind_of(mode) in (ROUTE, MISSION) else (0, [])
    edition = 1 if mode & OLDER else (0, 2, 257, 0xFFFFFFFF)[len(case.rndf) % 4]
    head = struct.pack("<BI2Q2I13I", kind_of(mode), edition, case.rndf_length, mdf_length, len(case.rndf), len(mdf), *lent(mode, case), lent_output(mode, case), start, len(route))
    return head + case.rndf + mdf + struct.pack("<%dI" % len(route), *route)


def words(judged, mode, case):
    """What the program has to write for the oracle's answer."""
    reply, written, output = judged
    if not reply.accepted:
        return HEAD.pack(0, *reply.refusal, *[0] * 25) + bytes(4 * sum(lent(mode, case))) + output + bytes(4)
    if kind_of(mode) == MEND:
        rows = [word for row in reply.list for word in row]
        return HEAD.pack(1, 0, 0, 0, 0, reply.rows, reply.length, *[0] * 23) + struct.pack("<%dI" % case.room["segments"], *rows, *[0] * (case.room["segments"] - len(rows))) + output + bytes(4)
    head = HEAD.pack(1, 0, 0, 0, 0, *[reply.used.get(t, 0) for t in ROWS], *reply.file, *(reply.mission or [0] * 8), written)
    tables = [array.array("i" if t == "points" else "I", reply.tables[t]) for t in ROWS if t in reply.tables]
    if sys.byteorder == "big":
        for table in tables:
            table.byteswap()
    return head + b"".join(table.tobytes() for table in tables) + output + bytes(4)


def shown(answer, mode, case):
    """A reply and its tables, in words."""
    if len(answer) != answer_size(mode, case):
        return "no answer: the program ended"
    head = HEAD.unpack_from(answer)
    at = HEAD.size
    if kind_of(mode) == MEND and head[0]:
        return "accepted, %d rows, %d bytes, then %s\n  list %s\n  output %s%s" % (head[5], head[6], head[7:], struct.unpack_from("<%dI" % case.room["segments"], answer, at), output_in(answer, mode, case),
                                                                                "\n  something else was written" * any(answer[-4:]))
    out = ["accepted, rows %s, names %s, bytes written %d" % (head[5:15], head[15:29], head[29]) if head[0]
           else "refused %d %d %d %d" % head[1:5] + (", then %s" % (head[5:],) if any(head[5:]) else "")]
    for table, length in zip(ROWS, lent(mode, case)):
        out.append("  %s %s" % (table, struct.unpack_from("<%d%s" % (length, "i" if table == "points" else "I"), answer, at)))
        at += 4 * length
    out.append("  output %s" % answer[at:at + lent_output(mode, case)])
    if any(answer[at + lent_output(mode, case):]):
        out.append("  something else was written")
    return "\n".join(out)


def answers(program, cases):
    """What the library answers to each; a case at which the program ends gets none, and the rest are run again."""
    if program == "--oracle":
        return [words(judge(STAND_IN, *c), *c) for c in cases]
    out, rest = [], cases
    while rest:
        done = subprocess.run([program], input=b"".join(encode(*c) for c in rest), stdout=subprocess.PIPE, check=False).stdout
        at = 0
        for k, (mode, case) in enumerate(rest):
            size = answer_size(mode, case)
            out.append(done[at:at + size])
            at += size
            if len(out[-1]) < size:
                break
        rest = rest[k + 1:]
    return out


def keep(seed, number, k, mode, case, want, got):
    os.makedirs(KEPT, exist_ok=True)
    path = os.path.join(KEPT, "case-%d-%d-%d" % (seed, number, k))
    with open(path + (".packed" if kind_of(mode) == UNPACKING else ".rndf"), "wb") as f:
        f.write(case.rndf)
    if has_mdf(mode):
        with open(path + ".mdf", "wb") as f:
            f.write(case.mdf)
    oracles, ours = shown(want, mode, case), shown(got, mode, case)
    with open(path + ".txt", "w") as f:
        f.write("%s; damage: %s; lengths %d %d; numbers lent %s; output of %d bytes\n" % (LABELS[kind_of(mode)] + (", December 6, 2006" if mode & OLDER else ""), ", ".join(case.kinds),
                case.rndf_length, case.mdf_length, dict(zip(ROWS, lent(mode, case))), lent_output(mode, case)))
        if kind_of(mode) == ROUTE:
            f.write("start %d, route %s\n" % (case.start, case.route))
        if kind_of(mode) == MISSION:
            f.write("start %d, %d words of work space\n" % (case.start, len(case.route)))
        f.write("\nthe oracle:\n%s\n\nthe library:\n%s\n" % (oracles, ours))
    first = next(((a, b) for a, b in zip(oracles.splitlines(), ours.splitlines()) if a != b), ("the same", "the same, but it wrote elsewhere too"))
    return "DIFFERS %s (%s)\n  oracle:  %s\n  library: %s" % ((os.path.relpath(path, ROOT), ", ".join(case.kinds)) + tuple(x.strip()[:300] for x in first))


def map_said(judged, mode, case, got):
    """What Python's json finds otherwise in a written map, and how often each shape came in it."""
    reply, written, _ = judged
    if kind_of(mode) != MAP or not reply.accepted:
        return [], {}
    network = oracle.network_of(reply, case.rndf)
    at = HEAD.size + 4 * sum(lent(mode, case))
    try:
        return maps.differences(got[at:at + written], network), maps.shapes(network)
    except (ValueError, KeyError, TypeError, AttributeError) as wrong:
        return ["%s: %s" % (type(wrong).__name__, wrong)], {}


def network_said(answer, mode, case):
    """The network of an accepting answer, its names from the bytes that were lent."""
    head, at = HEAD.unpack_from(answer), HEAD.size
    reply = oracle.Reply()
    reply.used, reply.file, reply.tables = dict(zip(ROWS, head[5:15])), head[15:21], {}
    for table, length in zip(ROWS, lent(mode, case)):
        reply.tables[table] = struct.unpack_from("<%d%s" % (length, "i" if table == "points" else "I"), answer, at)
        at += 4 * length
    return oracle.network_of(reply, case.rndf)


def packed_said(judged, mode, case, got):
    """What the second judgement, packing again or unpacking say otherwise of a form, and what is counted of it. `got` is the program's answer."""
    reply, written, _ = judged
    wrong, count = [], {}
    if kind_of(mode) == UNPACKING:
        number = 0 if reply.accepted else reply.refusal[2]
        second = packed.judged(said(case.rndf, case.rndf_length))
        if second != (0 if number == 11 else number):
            wrong.append("the oracle says %d, the second judgement %d" % (number, second))
        damaged = not {"none", "by hand"} & set(case.kinds)
        if number in (0, 11) and "by hand" not in case.kinds:
            count["forms %s, %s" % ("damaged" if damaged else "as they were packed", "good" if number == 0 else "good, too few rows")] = 1
        if reply.accepted and len(got) == answer_size(mode, case):
            try:
                if oracle.pack(network_said(got, mode, case)) != case.rndf:
                    wrong.append("packed again it is another form")
                count["forms packed again"] = 1
            except (OverflowError, IndexError, TypeError, ValueError) as fault:
                wrong.append("what was unpacked can't be packed: %s" % fault)
    elif kind_of(mode) == PACKING and reply.accepted and len(got) == answer_size(mode, case):
        form = got[HEAD.size + 4 * sum(lent(mode, case)):][:written]
        again = oracle.unpack(form, packed.rows_needed(form) if packed.judged(form) == 0 else {t: 0 for t in oracle.RNDF_TABLES})
        if not again.accepted or oracle.network_of(again, form) != oracle.network_of(reply, case.rndf).undated():
            wrong.append("what was packed is unpacked otherwise")
        count["bytes of texts packed"], count["bytes of their forms"], count["networks packed"] = len(case.rndf), written, 1
    return wrong, count


def output_in(answer, mode, case):
    """The whole output of a program's answer."""
    return answer[len(answer) - 4 - lent_output(mode, case):len(answer) - 4]


def writings_again(cases, gots):
    """What was mended, to be mended again; what was written, to be written again: into an output of the same length, in the same edition or the present one; a mission with its RNDF or that one's house writing."""
    out = []
    for k, ((mode, case), got) in enumerate(zip(cases, gots)):
        if kind_of(mode) == MEND and len(got) == answer_size(mode, case) and HEAD.unpack_from(got)[0] == 1:
            mended = output_in(got, mode, case)[:HEAD.unpack_from(got)[6]]
            again = mends.lent_case(None, mended, ["mended again"], ([], mended), mode & OLDER, True)
            again.out = case.out
            out.append((k, (mode, again)))
        if kind_of(mode) not in (WRITE_RNDF, WRITE_MDF) or len(got) != answer_size(mode, case) or HEAD.unpack_from(got)[0] != 1:
            continue
        writing = output_in(got, mode, case)[:HEAD.unpack_from(got)[29]]
        rndf, mdf = (writing, b"") if kind_of(mode) == WRITE_RNDF else (case.rndf, writing)
        if kind_of(mode) == WRITE_MDF and k % 4 < 2:
            rndf = oracle.house_rndf(oracle.network_of(oracle.read_rndf(rndf, case.room), rndf))
        again = pairs.text_case(rndf, mdf, case.room, ["written again"])
        again.out, again.same = case.out, None
        out.append((k, (mode if k % 3 else kind_of(mode), again)))
    return out


def written_alike(got, other):
    """Whether two answers have the same bytes, row counts and whole output: (mode, case, answer) each."""
    (mode, case, answer), (other_mode, other_case, other_answer) = got, other
    if len(answer) != answer_size(mode, case) or len(other_answer) != answer_size(other_mode, other_case):
        return False
    head, other_head = HEAD.unpack_from(answer), HEAD.unpack_from(other_answer)
    return head[0] == other_head[0] == 1 and head[5:15] == other_head[5:15] and head[29] == other_head[29] and output_in(answer, mode, case) == output_in(other_answer, other_mode, other_case)


def mended_alike(got, other):
    """Whether the second answer, to what came out of the first, has an empty list and the same output."""
    (mode, case, answer), (other_mode, other_case, other_answer) = got, other
    if len(answer) != answer_size(mode, case) or len(other_answer) != answer_size(other_mode, other_case):
        return False
    head, other_head = HEAD.unpack_from(answer), HEAD.unpack_from(other_answer)
    return other_head == (1, 0, 0, 0, 0, 0, head[6], *[0] * 23) and output_in(answer, mode, case) == output_in(other_answer, other_mode, other_case)


def mend_said(judged, mode, case):
    """What construction and the second judgement say otherwise of a mending, and what is counted of it."""
    reply, wrong, count = judged[0], [], {}
    number = 0 if reply.accepted else reply.refusal[2]
    rows = reply.list[:reply.rows]
    edition = oracle.DECEMBER_2006 if mode & OLDER else oracle.PRESENT
    if number not in (0, 19, 26):
        return wrong, count
    if case.comes_out is not None:
        room = {t: oracle.STRIDE[t] * (len(case.rndf) + 1) for t in oracle.RNDF_TABLES}
        if oracle.read_rndf(case.comes_out[1], room, edition).accepted != (number != 26) or number == 0 and (rows, judged[2][:judged[1]]) != case.comes_out:
            wrong.append("by construction otherwise: %s" % (case.comes_out[0],))
        count["mended as it was by construction" if number == 0 else "not mended, by construction"] = 1
    if len(case.rndf) < 20000:
        second = mending.second(edition, case.rndf)
        if (second is None) != (number == 26) or number == 0 and second != (rows, judged[2][:judged[1]]):
            wrong.append("the second judgement has %s" % ("26" if second is None else second[0]))
        count["mendings judged twice"] = 1
    if number == 0 and case.kinds != ["mended again"]:
        count["mended, lines listed: %s" % (str(len(rows)) if len(rows) < 6 else "6 or more")] = 1
        for which in (1, 2, 3):
            count["lines listed as %d" % which] = sum(row[1] == which for row in rows)
        count["mended though damaged further or otherwise"] = int(bool(rows) and case.comes_out is None)
    return wrong, count


def twins_said(first, second):
    """What is wrong with the writings of two texts, and whether they are the same yard ('same', 'not the same', or 'not both written'). Each is (mode, case, the oracle's judgement, the program's answer)."""
    (mode, case, judged, got), (other_mode, other, other_judged, other_got) = first, second
    if not (judged[0].accepted and other_judged[0].accepted):
        return [], "not both written"
    if kind_of(mode) == WRITE_RNDF:
        alike = oracle.same_yard(judged[0], case.rndf, other_judged[0], other.rndf)
    else:
        alike = oracle.same_mission(judged[0], case.mdf, other_judged[0], other.mdf)
    wrong = [] if alike == other.same else ["by construction %s, by the oracle %s" % (other.same, alike)]
    written, other_written = (output_in(answer, m, c)[:HEAD.unpack_from(answer)[29]] if len(answer) == answer_size(m, c) else None for m, c, answer in ((mode, case, got), (other_mode, other, other_got)))
    if written is None or other_written is None or (written == other_written) != alike:
        wrong.append("%s by the oracle, and their writings are %s" % ("the same" if alike else "not the same", "equal" if written == other_written else "not equal"))
    return wrong, "same" if alike else "not the same"


def requested(refusal, rndf):
    """Whether this is the 9 of a spot's checkpoint on waypoint 1 (request L8), or the 8 or 9 of the older edition (L10)."""
    if refusal[0] != 1 or refusal[2] not in (8, 9):
        return []
    lines = [line.replace(b"\t", b" ").split() for line in rndf.split(b"\n", refusal[1])[:refusal[1]]]
    if refusal[2] == 8:
        return ["8 of L10"] * (rndf.split(b"\n", refusal[1])[refusal[1] - 1][refusal[3] - 1:].startswith(b"solid_yellow") and lines[-1][0].endswith(b"_boundary"))
    if lines[-1][:2] == [b"num_spots", b"0"]:
        return ["9 of L10"]
    opened = [fields for fields in lines if fields and fields[0] in (b"spot", b"lane", b"perimeter", b"end_spot", b"end_lane")]
    return ["9 of L8"] * (bool(opened) and opened[-1][0] == b"spot" and lines[-1][0] == b"checkpoint" and lines[-1][1] == opened[-1][1] + b".1")


class Watched(oracle.Lines):
    """The oracle's lines; the last one whose fields were looked at is remembered, with their kinds."""
    last = None

    def values(self, line, kinds):
        Watched.last = line, kinds
        return super().values(line, kinds)


oracle.Lines = Watched


def fields_at_fault():
    """Of the last line: the fields that are not of their kind, out of range, or found not to be permitted there."""
    line, kinds = Watched.last
    at_fault = set(line.off)
    for field, kind in enumerate(kinds, len(line.fields) - len(kinds)):
        spell, permitted = oracle.KINDS[kind]
        value = spell(line.fields[field], line.starts[field])
        if value is None or not permitted(value):
            at_fault.add(field)
    return at_fault


def line_like(refusal, case):
    """What the line of a refusal is like (LIKE)."""
    file, line, number, column = refusal
    if number not in OF_A_LINE:
        return []
    whole = (case.rndf if file == 1 else case.mdf).split(b"\n", line)[line - 1]
    like = ["led"] * (whole[:1] in (b"\t", b" ")) + ["comment"] * (b"/*" in whole)
    if number > 4:
        like.append("field %d" % (len(whole[:column - 1].split()) + 1))
    return like + ["several"] * (number in (8, 9) and len(fields_at_fault()) > 1)


def run_block(job):
    """Counts by reply, by kind of damage, by shape on the maps, by column of a refusal and by what its line is like, of twins by kind of change, and what differs."""
    program, seed, number, count, sorts = job
    cases = block_of(seed, number, count, sorts)
    gots = answers(program, cases)
    again = writings_again(cases, gots)
    first_of = {len(cases) + i: k for i, (k, _) in enumerate(again)}
    cases = cases + [case for _, case in again]
    gots = gots + answers(program, [case for _, case in again])
    replies, kinds, shapes, columns, twins, differing, before = {}, {}, {}, {}, {}, [], None
    for k, ((mode, case), got) in enumerate(zip(cases, gots)):
        judged = judge(oracle, mode, case)
        reply = judged[0]
        want = words(judged, mode, case)
        key = "ok" if reply.accepted else (reply.refusal[0], reply.refusal[2])
        replies[mode, key] = replies.get((mode, key), 0) + 1
        if not reply.accepted:
            for which in [reply.refusal[2]] + requested(reply.refusal, case.rndf):
                for key in [reply.refusal[3]] + line_like(reply.refusal, case):
                    columns[which, key] = columns.get((which, key), 0) + 1
        for kind in set(case.kinds) if has_mdf(mode) or kind_of(mode) in (UNPACKING, MEND) else ():
            drawn, taken = kinds.get((kind_of(mode), kind), (0, 0))
            kinds[kind_of(mode), kind] = (drawn + 1, taken + reply.accepted)
        by_json, more = map_said(judged, mode, case, got)
        by_packing, counted = packed_said(judged, mode, case, got)
        more.update(counted)
        if kind_of(mode) == MEND:
            wrong, counted = mend_said(judged, mode, case)
            more.update(counted)
            if k in first_of and not mended_alike((*cases[first_of[k]], gots[first_of[k]]), (mode, case, got)):
                wrong.append("case %d mended again is not the same" % first_of[k])
            if wrong:
                differing.append("DIFFERS by mending, case %d of block %d (%s): %s" % (k, number, ", ".join(case.kinds), "; ".join(wrong)))
        for shape, n in more.items():
            shapes[shape] = shapes.get(shape, 0) + n
        if want != got:
            differing.append(keep(seed, number, k, mode, case, want, got) if len(differing) < MOST_KEPT else "DIFFERS")
        if kind_of(mode) in (WRITE_RNDF, WRITE_MDF):
            wrong = []
            if k in first_of:
                if not written_alike((*cases[first_of[k]], gots[first_of[k]]), (mode, case, got)):
                    wrong = ["case %d written again is not written alike" % first_of[k]]
            elif case.same is not None:
                wrong, verdict = twins_said(before, (mode, case, judged, got))
                for kind in [" all", *case.kinds]:          # once for all, and under each way in which it came about
                    key = LABELS[kind_of(mode)], kind, verdict
                    twins[key] = twins.get(key, 0) + 1
            before = mode, case, judged, got
            if wrong:
                differing.append("DIFFERS by writing, case %d of block %d (%s): %s" % (k, number, ", ".join(case.kinds), "; ".join(wrong)))
        if by_json:
            differing.append("DIFFERS by json, case %d of block %d: %s" % (k, number, "; ".join(by_json)[:300]))
        if by_packing:
            differing.append("DIFFERS by packing or unpacking, case %d of block %d (%s): %s" % (k, number, ", ".join(case.kinds), "; ".join(by_packing)[:300]))
    return replies, kinds, shapes, columns, twins, differing


def print_counts(replies, kinds, shapes, columns, twins):
    def of(mode, key):
        return replies.get((mode, key), 0)
    for older, edition in (0, "present edition"), (OLDER, "December 6, 2006"):
        pair, alone, drawn, route, mission = (kind | older for kind in (PAIR, RNDF_ALONE, MAP, ROUTE, MISSION))
        print("\n%-16s %10s %10s %12s %8s %8s %8s" % (edition, "pair: RNDF", "pair: MDF", "RNDF alone", "map", "route", "mission"))
        print("%-16s %21d %12d %8d %8d %8d" % ("accepted", of(pair, "ok"), of(alone, "ok"), of(drawn, "ok"), of(route, "ok"), of(mission, "ok")))
        for number in NUMBERS:
            print("%-16d %10d %10d %12d %8d %8d %8d" % (number, of(pair, (1, number)), of(pair, (2, number)), of(alone, (1, number)), of(drawn, (1, number)),
                                                    *(sum(of(one, (file, number)) for file in (0, 1, 2)) for one in (route, mission))))
        print("%-16s %61d" % ("11, file 0", of(mission, (0, 11))))
    print("\n%-16s %16s %16s %10s" % ("packed forms", "packing: present", "December 6, 2006", "unpacking"))
    for key, number in [("ok", "accepted")] + [(n, n) for n in (*range(1, 14), 19, 25, 27, 28, 29)]:
        both = [sum(n for (one, reply), n in replies.items() if one == mode and (reply == key or reply[1:] == (key,))) for mode in (PACKING, PACKING | OLDER, UNPACKING)]
        print("%-16s %16d %16d %10d" % (number, *both))
    print("\n%-16s %16s %16s" % ("mending", "present", "December 6, 2006"))
    for key, number in [("ok", "accepted")] + [(n, n) for n in OF_MENDING]:
        print("%-16s %16d %16d" % (number, *(sum(n for (one, reply), n in replies.items() if one == mode and (reply == key or reply[1:] == (key,))) for mode in (MEND, MEND | OLDER))))
    for mode in (PAIR, ROUTE, MISSION, UNPACKING, MEND):
        print("\n%-28s %8s %8s" % ("damage (%ss)" % LABELS[mode], "drawn", "accepted"))
        for (_, kind), (drawn, taken) in sorted(item for item in kinds.items() if item[0][0] == mode):
            print("%-28s %8d %8d" % (kind[:28], drawn, taken))
    print("\n%-8s %8s %8s %s  %s" % ("refusal", "came", "columns", " ".join("%8s" % like for like in LIKE), "the commonest columns, and how often"))
    for number in NUMBERS + REQUESTED:
        found = sorted(((n, column) for (one, column), n in columns.items() if one == number and column not in LIKE), reverse=True)
        print("%-8s %8d %8d %s  %s" % (number, sum(n for n, _ in found), len(found), " ".join("%8d" % columns.get((number, like), 0) for like in LIKE),
                                       ", ".join("%d: %d" % (column, n) for n, column in found[:5])))
    print("\n%-40s %8s" % ("on the maps, of packed forms and mendings", "came"))
    for shape, n in sorted(shapes.items()):
        print("%-40s %8d" % (shape, n))
    for label, what in (LABELS[WRITE_RNDF], "twins: RNDFs"), (LABELS[WRITE_MDF], "twins: missions"):
        print("\n%-44s %8s %8s %8s" % (what + ", by how the second came about", "same", "not", "not both written"))
        for kind in sorted({kind for one, kind, _ in twins if one == label}):
            print("%-44s %8d %8d %8d" % (kind, *(twins.get((label, kind, verdict), 0) for verdict in VERDICTS)))


def compare(program, count, seed, sorts):
    jobs = [(program, seed, b, min(BLOCK, count - b * BLOCK), sorts) for b in range(-(-count // BLOCK))]
    replies, kinds, shapes, columns, twins, differing, done = {}, {}, {}, {}, {}, 0, 0
    with multiprocessing.Pool(len(os.sched_getaffinity(0))) as pool:
        for more, more_kinds, more_shapes, more_columns, more_twins, lines in pool.imap_unordered(run_block, jobs):
            for key, n in more.items():
                replies[key] = replies.get(key, 0) + n
            for counted, more_counted in (shapes, more_shapes), (columns, more_columns), (twins, more_twins):
                for key, n in more_counted.items():
                    counted[key] = counted.get(key, 0) + n
            for kind, (drawn, taken) in more_kinds.items():
                kinds[kind] = tuple(map(sum, zip(kinds.get(kind, (0, 0)), (drawn, taken))))
            for line in lines:
                print(line, flush=True)
            differing += len(lines)
            done += 1
            if done % 40 == 0:
                print("%d of %d blocks" % (done, len(jobs)), file=sys.stderr, flush=True)
    print_counts(replies, kinds, shapes, columns, twins)
    missing = [n for n in NUMBERS if not any(key != "ok" and key[1] == n for _, key in replies)]
    missing += ["%d in a line led by tabs or spaces" % n for n in OF_A_LINE if not columns.get((n, "led"))]
    missing += [which for which in REQUESTED if not any(one == which for one, _ in columns)]
    missing = missing if sorts == USUAL else []
    missing += ["%d with file 0" % n for n in (11, 30, 31) if "missions" in sorts and not any(key == (0, n) for _, key in replies)]
    if "packed" in sorts:
        missing += ["%d of %s" % (n, LABELS[mode]) for mode, n in OF_PACKED if not any(kind_of(one) == mode and key[1:] == (n,) for one, key in replies)]
    if "mend" in sorts:
        missing += ["%d of mending" % n for n in OF_MENDING if not any(kind_of(mode) == MEND and key[1:] == (n,) for mode, key in replies)]
    if "same" in sorts:
        missing += ["a %s that is %s" % (label, verdict) for label in (LABELS[WRITE_RNDF], LABELS[WRITE_MDF]) for verdict in VERDICTS if not any(key[::2] == (label, verdict) for key in twins)]
    if missing:
        print("never came: " + ", ".join(map(str, missing)))
    counts = [sum(n for (mode, _), n in replies.items() if kind_of(mode) == one) for one in (PAIR, RNDF_ALONE, ROUTE, MISSION, MAP)]
    counts += [sum(replies.get((mode, "ok"), 0) for mode in (MAP, MAP | OLDER)), sum(n for (mode, _), n in replies.items() if mode & OLDER)]
    forms = [sum(n for (mode, key), n in replies.items() if kind_of(mode) == one and key in keys) for one in (PACKING, UNPACKING) for keys in ({key for _, key in replies}, {"ok"})]
    mended = [sum(n for (mode, key), n in replies.items() if kind_of(mode) == MEND and key in keys) for keys in ({key for _, key in replies}, {"ok"})]
    written = [sum(n for (mode, key), n in replies.items() if kind_of(mode) in (WRITE_RNDF, WRITE_MDF) and key in keys) for keys in ({key for _, key in replies}, {"ok"})]
    print("\nseed %d: %d pairs, %d RNDFs alone, %d routes, %d missions and %d maps (%d written), %d packings (%d packed) and %d unpackings (%d unpacked), %d writings (%d written), %d mendings (%d mended), %d of them in the older edition, %d differ"
          % (seed, *counts[:6], *forms, *written, *mended, counts[6], differing))
    return 1 if differing or missing else 0


def judge_block(job):
    """Of a block's forms, without a library: replies by kind of damage, and where the second judgement differs."""
    seed, number, count, sorts = job
    replies, wrong = {}, []
    for mode, case in block_of(seed, number, count, sorts):
        if kind_of(mode) == UNPACKING:
            judged = judge(oracle, mode, case)
            key = "good" if judged[0].accepted else judged[0].refusal[2]
            more, _ = packed_said(judged, mode, case, words(judged, mode, case))
        elif kind_of(mode) == PACKING:
            judged = judge(oracle, mode, case)
            key = "packed" if judged[0].accepted else "packing refused"
            more, _ = packed_said(judged, mode, case, words(judged, mode, case))
        else:
            continue
        for kind in ["", *set(case.kinds)] if kind_of(mode) == UNPACKING else [""]:
            replies[kind, key] = replies.get((kind, key), 0) + 1
        wrong += ["DIFFERS, block %d (%s): %s; %s" % (number, ", ".join(case.kinds), "; ".join(more), case.rndf[:2000].hex())] if more else []
    return replies, wrong


def judgements(count, seed, sorts):
    jobs = [(seed, b, min(BLOCK, count - b * BLOCK), sorts) for b in range(-(-count // BLOCK))]
    replies, differing = {}, 0
    with multiprocessing.Pool(len(os.sched_getaffinity(0))) as pool:
        for more, wrong in pool.imap_unordered(judge_block, jobs):
            for key, n in more.items():
                replies[key] = replies.get(key, 0) + n
            for line in wrong:
                print(line, flush=True)
            differing += len(wrong)
    keys = ["good", 11, 1, 27, 28, 29]
    print("%-32s %s" % ("damage", " ".join("%8s" % key for key in keys)))
    for kind in sorted({kind for kind, _ in replies}):
        print("%-32s %s" % (kind or "all", " ".join("%8d" % replies.get((kind, key), 0) for key in keys)))
    forms = sum(replies.get(("", key), 0) for key in keys)
    print("seed %d: %d forms, %d networks packed and %d packings refused, %d judged otherwise" % (seed, forms, replies.get(("", "packed"), 0), replies.get(("", "packing refused"), 0), differing))
    return 1 if differing else 0


def writers_mistakes():
    """Those of tests/writer_vectors.py."""
    sys.path.insert(0, os.path.join(ROOT, "tests"))
    import writer_vectors
    return writer_vectors.MUTANTS


def mutants(count, seed, sorts):
    import mutate
    cases = [c for b in range(-(-count // BLOCK)) for c in block_of(seed, b, min(BLOCK, count - b * BLOCK), sorts) if len(c[1].rndf) + len(c[1].mdf) < 1 << 20]

    def told(reader, mode, case):
        try:
            r, *written = judge(reader, mode, case)
            return (r.refusal, r.rows, r.list, written) if kind_of(mode) == MEND else (r.refusal, r.used, r.file, r.mission, r.tables, written)
        except Exception:
            return None
    right = [told(oracle, *c) for c in cases]
    survive = 0
    mistakes = [(mending if sort == "mend" else oracle, *mistake) for sort in sorts for mistake in {"pairs": mutate.MUTANTS, "maps": maps.MUTANTS, "routes": pairs.routes.MUTANTS, "missions": pairs.missions.MUTANTS, "packed": packed.MUTANTS, "same": writers_mistakes(), "mend": mending.MUTANTS}[sort]]
    for mistaken, old, new in mistakes:
        source = open(mistaken.__file__).read()
        assert old in source, old
        mutant = types.ModuleType("mutant")
        exec(compile(source.replace(old, new, 1), "mutant", "exec"), mutant.__dict__)
        if mistaken is mending:                             # the oracle with this `mend`
            mutant = types.SimpleNamespace(**{**vars(oracle), "mend": mutant.mend})
        if old not in mutate.HARMLESS and all(told(mutant, *c) == want for c, want in zip(cases, right)):
            survive += 1
            print("not noticed: %r -> %r" % (old, new))
    print("%d mistakes, %d not noticed" % (sum(old not in mutate.HARMLESS for _, old, _ in mistakes), survive))
    return 1 if survive else 0


if __name__ == "__main__":
    program, count, seed = sys.argv[1], int(sys.argv[2]), int(sys.argv[3])
    sorts = sys.argv[4:] or USUAL
    if program == "--judgements":
        sys.exit(judgements(count, seed, sys.argv[4:] or ["packed"]))
    sys.exit(mutants(count, seed, sorts) if program == "--mutants" else compare(program, count, seed, sorts))
