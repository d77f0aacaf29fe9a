"""What may stand where a text was refused, in words (issue 38): a stand-in for the library, so that
the judge (expecting.py) can be tried on as many texts as one likes before there is one.

    tell(edition, rndf, mdf, (file, line, number, column))

The words are made of what the oracle's reader would have taken at that place.  Beside the library it
is a second wording: where the two differ and the judge lets both pass, the documents leave room.
"""

import oracle
from expecting import (CUT_AFTER, ENDED, LARGEST, MAY_STAND, NO_ROW_SHORT, OPTIONS, TELL_NOTHING, WITHOUT, Text, Place,
                       dotted, fields_of, integer, kind_of, kinds_of)


class Asked(oracle.Lines):
    """The reader's lines; what it would take is remembered when it asks for the next one."""
    permitted, given = (), ()

    def statement(self, permitted, given=()):
        Asked.permitted, Asked.given = permitted, set(given)
        return super().statement(permitted, given)


def asked_at_the_end(file, edition, text):
    """What the reader would take, and which options it has, at the line where it refuses."""
    usual, oracle.Lines = oracle.Lines, Asked
    try:
        oracle.form_of_rndf(text, edition) if file == 1 else oracle.form_of_mdf(text)
    except oracle.Refused:
        pass
    finally:
        oracle.Lines = usual
    return Asked.permitted, Asked.given


def tell(edition, rndf, mdf, refusal):
    file, line, number, column = refusal
    if number in TELL_NOTHING or line == 0:
        return ""
    text = rndf if file == 1 else mdf
    if number == 18:
        return WITHOUT + BY_NUMBER[18](edition, rndf, mdf, refusal)
    if number in BY_NUMBER:
        return MAY_STAND + BY_NUMBER[number](edition, rndf, mdf, refusal)
    return MAY_STAND + BY_FORM[number](Text(file, edition, text, line), column)


def statements(text, column):
    if text.before and text.before[-1][0] == b"end_file":
        return ENDED
    line = b"x\n" if not text.fields else b"\t".join(text.fields) + b"\n"
    permitted, given = asked_at_the_end(text.file, text.edition, text.head + line)
    place, forms = text.place, []
    for word in permitted:
        if word in given:
            continue
        if word == oracle.DIGIT_LINE:
            # L8: a spot's first waypoint gets 25 before its checkpoint is given
            if not (place.sort == "spot" and place.met == 0 and b"checkpoint" not in given):
                forms.append(place.statement(b"0"))
        else:
            forms.append(place.statement(word))
    forms.sort(key=lambda form: OPTIONS.index(form[0]) if form[0] in OPTIONS else -1)
    told = ", ".join(" ".join(form) for form in forms)
    if len(forms) == 1 and (forms[0][0] in ("NUMBER", "ID") or forms[0][0][0].isdigit()):
        owed = place.points - place.met
        told += " (1 such line is still owed)" if owed == 1 else " (%d such lines are still owed)" % owed
    return told


def count(text, column):
    form = text.place.statement(text.fields[0])
    return "%s (%s)" % (" ".join(form), "1 field" if len(form) == 1 else "%d fields" % len(form))


def numbers(low, high):
    return str(low) if low == high else "a number from %d to %d" % (low, high)


def run(prefix, low, high):
    first, last = (dotted((*prefix, n)).decode() for n in (low, high))
    return first if low == high else "%s to %s" % (first, last)


def field(text, column):
    place, fields = text.place, text.fields
    form = place.statement(fields[0])
    k = len(fields_of(text.raw[:column - 1]))
    kind = kind_of(form, k, place)
    if form[k] == "NAME":
        return "a name of 1 to 128 bytes"
    if form[k] in ("LATITUDE", "LONGITUDE"):
        most = {"LATITUDE": 90, "LONGITUDE": 180}[form[k]]
        return "a %s from -%d.000000 to %d.000000, six digits behind the point" % (form[k].lower(), most, most)
    if form[k] == "BOUNDARY":
        return ", ".join(word.decode() for word in kind.words)
    if form[k] == "POINT":
        return run(kind.prefix, kind.low, kind.high)
    if form[k] == "ENTRY":
        return "X.Y.Z with X from %d to %d, Y from %d to %d, Z from %d to %d" % tuple(n for one in kind.ranges for n in one)
    if form[k] == "MAXIMUM":
        permitted = all(one.has(value) for one, value in zip(kinds_of(form, place), fields[:k]))
        if not permitted:
            return numbers(0, LARGEST)
        return "0, or a number from %d to %d" % (integer(fields[k - 1]), LARGEST)
    if form[k] in ("NUMBER", "ID", "MINIMUM"):
        return numbers(kind.low, kind.high)
    return form[k]


def cut(items):
    items = [str(item) for item in items]
    rest = len(items) - CUT_AFTER
    return ", ".join(items[:CUT_AFTER]) + (" and %d more" % rest if rest > 0 else "")


def lines_before(text, line):
    return [fields for fields in map(fields_of, text.split(b"\n")[:line - 1]) if fields]


def entry(edition, rndf, mdf, refusal):
    form = oracle.form_of_rndf(rndf, edition)
    parts = [run((s, n), 1, form.lanes[first + n - 1][1]) for s, (first, lanes, *_) in enumerate(form.segments, 1) for n in range(1, lanes + 1)]
    if Place(1, edition, lines_before(rndf, refusal[1])).sort == "lane":
        parts += [run((z, 0), 1, zone[1]) for z, zone in enumerate(form.zones, len(form.segments) + 1)]
    return cut(parts)


def number(edition, rndf, mdf, refusal):
    return "a number from 1 to %d that no line before declares" % LARGEST


def name(edition, rndf, mdf, refusal):
    return oracle.name_of(rndf, *oracle.form_of_rndf(rndf, edition).name).decode()


def goal(edition, rndf, mdf, refusal):
    found = [n for n, _ in oracle.form_of_rndf(rndf, edition).checkpoints]
    return "a checkpoint of the RNDF: " + cut(found) if found else "nothing, for the RNDF has no checkpoint"


def without_limit(edition, rndf, mdf, refusal):
    _, rows = oracle.judge_rndf(rndf, NO_ROW_SHORT, edition)
    before = lines_before(mdf, refusal[1])
    given = {int(fields[0]) for fields in before[[fields[0] for fields in before].index(b"num_speed_limits") + 1:]}
    return [n for n in range(1, len(rows["segments"]) + len(rows["zones"]) + 1) if n not in given]


def identifier(*what):
    found = without_limit(*what)
    return "an id that has no limit yet: " + cut(found) if found else "nothing, for every segment and zone has its limit"


BY_FORM = {5: statements, 6: statements, 10: statements, 25: statements, 7: count, 8: field, 9: field}
BY_NUMBER = {12: entry, 13: number, 14: name, 15: goal, 16: identifier, 17: identifier, 18: lambda *what: cut(without_limit(*what))}
