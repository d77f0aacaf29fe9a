"""glue.py PAGE.html COUNT SEED: the reader's worker as it stands in the page, beside the oracle and the planners' programs' own cases. Compared are reply, column, names, the used rows of every table; of a refusal the
sentence with its line and caret, and what may stand there, to the letter where that is worked out by hand and else by the oracle's judge (expecting.py); the house writings, the map and the packed form that can be saved; what is mended, and its words; whether a mission can be driven, and its words; the identifiers of points; and that each
part's lines, which the page finds by itself, hold it. The cases: those of tests/check_cases.py that are texts, in both editions, and its largest; those of mend_cases.py and reach_cases.py; COUNT damaged and
whole pairs (tests/damage/pairs.py) from SEED, every third alone, every second in the older edition; and a quarter as many RNDFs with trouble that can be mended (tests/damage/mends.py). The page lends tables by itself,
so 11 must never come."""
import base64
import json
import os
import random
import subprocess
import sys

sys.dont_write_bytecode = True
HERE = os.path.dirname(os.path.abspath(__file__))
ROOT = os.path.dirname(os.path.dirname(HERE))
for folder in ("tests", "tests/oracle", "tests/damage"):
    sys.path.insert(0, os.path.join(ROOT, folder))
import check_cases   # noqa: E402
import expecting     # noqa: E402
import mend_cases    # noqa: E402
import mending       # noqa: E402
import mends         # noqa: E402
import oracle        # noqa: E402
import pairs         # noqa: E402
import reach_cases   # noqa: E402

N, MDF = "network.rndf", "mission.mdf"
MOST_WORDS = 2000       # changed lines of which the page says something


class Case:
    """`said`: what is said of mending, to the letter, where it is known; `drive`: what is said of the start; `expected`: what may stand there, by hand."""
    def __init__(self, label, edition, rndf, mdf, start=None, drive=None, said=None, mended=None, sentence=None, expected=None):
        self.label, self.edition, self.rndf, self.mdf = label, edition, check_cases.as_bytes(rndf), check_cases.as_bytes(mdf)
        self.start, self.drive, self.said, self.mended, self.sentence, self.expected = start, drive, said, mended, sentence, expected

    def fed(self):
        fed = {"edition": self.edition, "rndf": base64.b64encode(self.rndf).decode(), "mdf": None if self.mdf is None else base64.b64encode(self.mdf).decode()}
        return dict(fed, start=self.start) if self.start is not None else fed


def of_check_cases():
    older, present = check_cases.older()
    told = check_cases.at_each_place() + check_cases.of_one_line() + check_cases.of_references()
    for edition, cases in ("2007", check_cases.one_refusal_each() + told + present + check_cases.largest()), ("2006", older):
        for label, rndf, mdf, want in cases:
            refused = check_cases.is_refusal(want)
            yield Case(label, edition, rndf, mdf, sentence=None if refused else "", expected=check_cases.may_stand(want[2], "".join(want[4:]))[1:] if refused else "")
    for label, rndf, mdf, want in check_cases.as_printed():
        sentence, expected = check_cases.parted(want)
        yield Case(label, "2007", rndf, mdf, sentence=sentence + "\n", expected=expected)


def of_mend_cases():
    for label, options, given, out, sentences in mend_cases.mended():
        out = check_cases.as_bytes(given).replace(b"num_waypoints\t3", b"num_waypoints\t2") if out is None else check_cases.as_bytes(out)
        yield Case("mend: " + label, "2006" if options == mend_cases.OLDER else "2007", given, None, said="\n".join(sentences[:MOST_WORDS]), mended=out)
    for label, options, given, *_ in mend_cases.past():
        yield Case("26: " + label, "2006" if options == mend_cases.OLDER else "2007", given, None, said="%s: %s (26)\n" % (N, check_cases.WORDS[26]))


def of_reach_cases():
    for label, rndf, mdf, start, _, want in reach_cases.driven() + reach_cases.largest():
        told = reach_cases.sentence(want, start, check_cases.as_bytes(mdf))[0]
        yield Case("drive: " + label, "2007", rndf, mdf, start, told + ("\n" if "\n" in told else ""))


def of_pairs(rng, count):
    for k in range(count):
        case = pairs.make_case(rng)
        if k % 2 and rng.random() < 0.75:
            case = pairs.aged(case)
        yield Case("pair %d" % k, "2006" if k % 2 else "2007", bytes(case.rndf), None if k % 3 == 0 else bytes(case.mdf))


def of_mends(rng, count):
    for k in range(count):
        yield Case("mends %d" % k, "2006" if k % 2 else "2007", bytes(mends.mend_case(rng, k % 2).rndf), None)


def words_of(given, mended, rows):
    """What run-mend says of each changed line (crates/mend_words)."""
    def fields(line):
        return line.split(b"/*")[0].replace(b"\r", b" ").split()
    given, mended, gone, out = given.split(b"\n"), mended.split(b"\n"), 0, []
    for line, which in rows[:MOST_WORDS]:
        said = {2: "option given again, taken out", 3: "behind end_file, taken out"}.get(which) or "the count is %s, not %s" % (fields(mended[line - 1 - gone])[1].decode(), fields(given[line - 1])[1].decode())
        gone += which != 1
        out.append("%s:%d: %s" % (N, line, said))
    return "\n".join(out) or "%s: nothing to mend" % N


def first_word_is_mdf(text):
    for line in text.split(b"\n"):
        words = (line[:-1] if line.endswith(b"\r") else line).split(b"/*")[0].replace(b"\t", b" ").split()
        if words:
            return words[0] == b"MDF_name"
    return False


def kind(text):
    return "packed" if text[:1] == b"\2" else "mdf" if first_word_is_mdf(text) else "rndf"


def sentence(refusal, case):
    file, line, number, column = refusal
    return check_cases.told(MDF if file == 2 else N, case.mdf if file == 2 else case.rndf, line, number, column)[0] + "\n"


def due(case):
    by = oracle.DECEMBER_2006 if case.edition == "2006" else oracle.PRESENT
    lines = 2 + max(case.rndf.count(b"\n"), (case.mdf or b"").count(b"\n"))
    room = {t: oracle.STRIDE[t] * min(lines, 200000) for t in oracle.TABLES}
    alone = oracle.read_rndf(case.rndf, room, by)
    reply = alone if case.mdf is None else oracle.read_pair(case.rndf, case.mdf, room, by)
    out = {"accepted": bool(reply.accepted), "refusal": [0, 0, 0, 0] if reply.accepted else list(reply.refusal), "sentence": "" if reply.accepted else sentence(reply.refusal, case),
           "kinds": [kind(case.rndf), None if case.mdf is None else kind(case.mdf)], "names": (list(reply.file) + list(reply.mission or [0] * 8)) if reply.accepted else [0] * 14}
    out["tables"] = {t: list(reply.tables[t][:reply.used[t] * oracle.STRIDE[t]]) if reply.accepted else [] for t in oracle.TABLES if case.mdf is not None or t not in oracle.MDF_TABLES}

    def saved(of, writing):
        return [True, "", base64.b64encode(writing()).decode()] if of.accepted else [False, sentence(of.refusal, case), ""]
    big = len(case.rndf) > 300000       # maps of these are longer than can be written, or slow in Python
    out["save map"] = None if big else saved(alone, lambda: oracle.geojson(oracle.network_of(alone, case.rndf)))
    out["save packed"] = None if big else saved(alone, lambda: oracle.pack(oracle.network_of(alone, case.rndf)))
    out["save rndf"] = None if big else saved(alone, lambda: oracle.house_rndf(oracle.network_of(alone, case.rndf)))
    if case.mdf is not None:
        out["save mdf"] = None if big else saved(reply, lambda: oracle.house_mdf(oracle.mission_of(reply, case.mdf)))
    return out, alone


def line_faults(got, case, alone):
    """The lines that the page found hold what they should, by the lines' own fields."""
    if not alone.accepted:
        return [] if got["lines"] is None else ["lines of a refused RNDF"]
    fields = [line.split(b"/*")[0].replace(b"\r", b"").split() for line in case.rndf.split(b"\n")]
    lines, ids = got["lines"], got.get("ids", [])
    if lines is None:
        return ["no lines"]
    wrong = []
    if ids != [fields[line][0].decode() for line in lines["points"][:3000]] or got["rows"] != list(range(len(ids))):
        wrong.append("points")
    for name, word, end in ("segments", b"segment", b"end_segment"), ("lanes", b"lane", b"end_lane"), ("zones", b"zone", b"end_zone"), ("perimeters", b"perimeter", b"end_perimeter"), ("spots", b"spot", b"end_spot"):
        count = alone.used["zones" if name == "perimeters" else name]
        if [fields[i][0] for i in lines[name]["from"]] != [word] * count or [fields[i][0] for i in lines[name]["to"]] != [end] * count or any(a > b for a, b in zip(lines[name]["from"], lines[name]["to"])):
            wrong.append(name)
    stride = oracle.STRIDE["checkpoints"]
    if [int(fields[i][2]) for i in lines["checkpoints"]] != list(alone.tables["checkpoints"][:alone.used["checkpoints"] * stride:stride]):
        wrong.append("checkpoints")
    for name, word in ("stops", b"stop"), ("exits", b"exit"):
        if [fields[i][0] for i in lines[name]] != [word] * alone.used[name]:
            wrong.append(name)
    if got["accepted"] and case.mdf is not None:
        fields = [line.split(b"/*")[0].replace(b"\r", b"").split() for line in case.mdf.split(b"\n")]
        if [int(fields[i][0]) for i in got["missionLines"]["goals"]] != got["tables"]["goals"] or [int(n) for i in got["missionLines"]["limits"] for n in fields[i]] != got["tables"]["limits"]:
            wrong.append("goals or limits")
    return ["lines: " + name for name in wrong]


def expected_faults(got, case):
    """What may stand there: by hand where it is known, else by the oracle's judge; it takes long over large texts."""
    if case.expected is not None or got["accepted"]:
        return [] if got["expected"] == (case.expected or "") else ["expected %r, not %r" % (got["expected"], case.expected or "")]
    if len(case.rndf) + len(case.mdf or b"") > 300000:
        return []
    by = oracle.DECEMBER_2006 if case.edition == "2006" else oracle.PRESENT
    return ["expected %r: %s" % (got["expected"], wrong) for wrong in expecting.judge(by, case.rndf, case.mdf, tuple(got["refusal"]), got["expected"], first=True).differs]


def mend_faults(got, case):
    """Beside the oracle, and where they are known beside the words."""
    accepted, said, out, rows = got["mend"]
    lines = case.rndf.count(b"\n") + 1
    if len(case.rndf) > 16777215:
        return [] if said == "%s: %s (1)\n" % (N, check_cases.WORDS[1]) else ["mending: " + said]
    wrong = []
    if len(case.rndf) < 300000:
        reply = mending.mend(oracle.DECEMBER_2006 if case.edition == "2006" else oracle.PRESENT, case.rndf, lines, len(case.rndf) + 4 * lines)
        if (bool(reply.accepted), reply.rows if reply.accepted else 0) != (accepted, rows):
            wrong.append("mending: %s, %d rows" % (accepted, rows))
        elif accepted and base64.b64decode(out) != reply.output[:reply.length]:
            wrong.append("the mended text")
        elif accepted and said != words_of(case.rndf, reply.output[:reply.length], reply.list[:reply.rows]):
            wrong.append("words of mending: %r" % said[:300])
    if case.said is not None and said != case.said:
        wrong.append("said of mending: %r, not %r" % (said[:200], case.said[:200]))
    if case.mended is not None and (not accepted or base64.b64decode(out) != case.mended):
        wrong.append("mended by hand")
    return wrong


def main(page, count, seed):
    cases = [*of_check_cases(), *of_mend_cases(), *of_reach_cases()]
    by_hand = len(cases)
    cases += of_pairs(random.Random("glue %s" % seed), int(count))
    cases += of_mends(random.Random("glue mends %s" % seed), int(count) // 4)
    fed = "".join(json.dumps(case.fed()) + "\n" for case in cases)
    done = subprocess.run(["node", "--max-old-space-size=3000", os.path.join(HERE, "glue.js"), page], input=fed.encode(), stdout=subprocess.PIPE, check=True).stdout.decode().splitlines()
    differ, accepted, numbers = 0, 0, {}
    for case, line in zip(cases, done):
        got = json.loads(line)
        want, alone = due(case)
        accepted += want["accepted"]
        if not want["accepted"]:
            numbers[want["refusal"][2]] = numbers.get(want["refusal"][2], 0) + 1
        wrong = ["%s: %r, not %r" % (key, str(got.get(key))[:300], str(want[key])[:300]) for key in want if want[key] is not None and got.get(key) != want[key]]
        wrong += line_faults(got, case, alone) + mend_faults(got, case) + expected_faults(got, case)
        if case.sentence is not None and got["sentence"] != case.sentence:
            wrong.append("sentence %r, not %r" % (got["sentence"], case.sentence))
        if case.drive is not None and got.get("drive") != case.drive:
            wrong.append("drive %r, not %r" % (got.get("drive"), case.drive))
        if wrong:
            differ += 1
            print("DIFFERS %s: %s" % (case.label, "; ".join(wrong)))
    differ += len(cases) - len(done)
    print("glue: %d cases (%d by hand, %d pairs and RNDFs to mend from seed %s), %d accepted, refusals %s; %d differ" % (len(cases), by_hand, len(cases) - by_hand, seed, accepted, dict(sorted(numbers.items())), differ))
    return 1 if differ else 0


if __name__ == "__main__":
    sys.exit(main(*sys.argv[1:]))
