"""How sharp is the corpus?  Each small mistake below is put into a copy of
oracle.py in memory; a mistake that changes no answer of cases.bin survives.

    python3 mutate.py [directory]       the directory of cases.bin
"""

import os
import sys
import types

import casefile

MUTANTS = [
    ("LARGEST_LINE = 512 ", "LARGEST_LINE = 511 "),
    ("LARGEST_LINE = 512 ", "LARGEST_LINE = 513 "),
    ("LARGEST_INTEGER = 32_768", "LARGEST_INTEGER = 32_767"),
    ("LARGEST_INTEGER = 32_768", "LARGEST_INTEGER = 32_769"),
    ("LARGEST_INTEGER = 32_768", "LARGEST_INTEGER = 65_535"),
    ("LARGEST_NAME = 128", "LARGEST_NAME = 127"),
    ("LARGEST_NAME = 128", "LARGEST_NAME = 129"),
    ("MISSING_WIDTH = 65_535", "MISSING_WIDTH = 0"),
    ('line.find(b"*/", opened + 2)', 'line.find(b"*/", opened + 1)'),
    ('line.find(b"*/", opened + 2)', 'line.rfind(b"*/", opened + 2)'),
    ('line.find(b"/*")', 'line.rfind(b"/*")'),
    ("line[closed + 2:].strip(SPACING)", "line[closed + 2:].strip()"),
    ("line[closed + 2:].strip(SPACING)", "line[closed + 2:].strip(TAB)"),
    ("line[closed + 2:].strip(SPACING)", 'line[closed + 2:].strip(b" ")'),
    ("line[closed + 2:].strip(SPACING)", 'b""'),
    ('rb"[^\\t ]+"', 'rb"[^\\t]+"'),
    ('rb"[^\\t ]+"', 'rb"[^ ]+"'),
    ("            line = line[:-1]\n", '            line = line.rstrip(b"\\r")\n'),
    ("            line = line[:-1]\n", "            pass\n"),
    ("if b not in (0x5C, 0x2A)", "if b not in (0x5C,)"),
    ("if b not in (0x5C, 0x2A)", "if b not in (0x2A,)"),
    ("b in [9] + list(range(32, 127))", "b in [9] + list(range(31, 127))"),
    ("b in [9] + list(range(32, 127))", "b in [9] + list(range(33, 127))"),
    ("b in [9] + list(range(32, 127))", "b in [9, 11] + list(range(32, 127))"),
    ("b in [9] + list(range(32, 127))", "b in [9, 32] + list(range(34, 127))"),
    ("b in [9] + list(range(32, 127))", "b in [9] + list(range(32, 126))"),
    ("b in [9] + list(range(32, 127))", "b in [9] + list(range(32, 128))"),
    ("b for b in [9] + list(range(32, 127))", "b for b in list(range(32, 127))"),
    ("bytes([9] + list(range(32, 127)))", "bytes([9] + list(range(33, 127)))"),
    ("bytes([9] + list(range(32, 127)))", "bytes([9] + list(range(32, 128)))"),
    ("bytes([9] + list(range(32, 127)))", "bytes(range(32, 127))"),
    ("bytes([9] + list(range(32, 127)))", "bytes(range(1, 127))"),
    ("bytes([9] + list(range(32, 127)))", "ALLOWED_OUTSIDE"),
    ('(?:0|[1-9][0-9]{0,4})', '(?:0|[1-9][0-9]{0,5})'),
    ('(?:0|[1-9][0-9]{0,4})', '(?:0|[1-9][0-9]{0,3})'),
    ('(?:0|[1-9][0-9]{0,4})', '(?:[0-9]{1,5})'),
    ('(0|[1-9][0-9]{0,2})', '(0|[1-9][0-9]{0,3})'),
    ('(0|[1-9][0-9]{0,2})', '(0|[1-9][0-9]{0,1})'),
    ('(0|[1-9][0-9]{0,2})', '([0-9]{1,3})'),
    ('([0-9]{6})"', '([0-9]{5,6})"'),
    ('([0-9]{6})"', '([0-9]{6,7})"'),
    ('rb"(-?)(0', 'rb"([-+]?)(0'),
    ("return -size if minus else size",
     "return int(minus + degrees) * 1_000_000 + (int(millionths) if int(minus + degrees) >= 0 else -int(millionths))"),
    ("-90_000_000 <= value <=", "-90_000_000 < value <="),
    ("<= value <= 90_000_000", "<= value < 90_000_000"),
    ("<= value <= 90_000_000", "<= value <= 90_000_001"),
    ("<= value <= 90_000_000", "<= value <= 180_000_000"),
    ("-180_000_000 <= value <=", "-180_000_001 <= value <="),
    ("<= value <= 180_000_000", "<= value < 180_000_000"),
    ("raise Refused(self.file, self.count + 1, 10)", "raise Refused(self.file, self.count, 10)"),
    ("self.count += 1\n        line =", "self.count += 1 if lf >= 0 else 0\n        line ="),
    ("lines.permit(line, m > 0)", "pass"),
    ("lines.permit(line, m + n <= LARGEST_INTEGER)", "pass"),
    ("lines.permit(line, m + n <= LARGEST_INTEGER)", "lines.permit(line, m + n < LARGEST_INTEGER)"),
    ("lines.permit(line, identifier == segment)", "pass"),
    ("lines.permit(line, lanes > 0)", "pass"),
    ("lines.permit(line, identifier == (segment, lane))", "lines.permit(line, identifier[1] == lane)"),
    ("lines.permit(line, identifier == (segment, lane))", "lines.permit(line, identifier[0] == segment)"),
    ("and 1 <= waypoint[2] <= points", "and 0 <= waypoint[2] <= points"),
    ("and 1 <= waypoint[2] <= points", "and 1 <= waypoint[2] <= points + 1"),
    ("and 1 <= waypoint[2] <= points", "and 1 <= waypoint[2] < points"),
    ("waypoint[0] == m and waypoint[1] == n", "waypoint[0] == m"),
    ("waypoint[0] == m and waypoint[1] == n", "waypoint[1] == n"),
    ("lines.permit(line, entry[0] > 0 and entry[2] > 0)", "lines.permit(line, entry[0] > 0)"),
    ("lines.permit(line, entry[0] > 0 and entry[2] > 0)", "lines.permit(line, entry[2] > 0)"),
    ("lines.permit(line, entry[0] > 0 and entry[2] > 0)", "lines.permit(line, min(entry) > 0)"),
    ("entry[0] > 0 and entry[1] > 0 and entry[2] > 0", "entry[0] > 0 and entry[2] > 0"),
    ("entry[0] > 0 and entry[1] > 0 and entry[2] > 0", "entry[1] > 0 and entry[2] > 0"),
    ("entry[0] > 0 and entry[1] > 0 and entry[2] > 0", "entry[0] > 0 and entry[1] > 0"),
    ('lines.permit(line, number > 0)      # "Ch', 'pass      # "Ch'),
    ("identifier == due, 0)", "identifier == due)"),
    ("<= waypoint[2] <= points, 1)", "<= waypoint[2] <= points)"),
    ("<= waypoint[2] <= points, 1)", "<= waypoint[2] <= points, 0)"),
    ("min(self.line.off)", "max(self.line.off)"),
    ("min(self.line.off)", "self.line.off[0]"),
    ("self.starts[field] - self.start + 1", "self.starts[field] - self.start"),
    ("self.starts[field] - self.start + 1", "self.starts[field] + 1"),
    ("number, 2, 513)", "number, 2, 512)"),
    ("number, 2, 513)", "number, 2, len(line))"),
    ("3, opened + 1)", "3, 1)"),
    ("first_other(outside, ALLOWED_OUTSIDE) + 1)", "1)"),
    ("opened + 2 + first_other(inside", "opened + first_other(inside"),
    ("self.refuse(line, 0, 5)", "self.refuse(line, -1, 5)"),
    ("self.refuse(line, 0, 6)", "self.refuse(line, -1, 6)"),
    ("self.refuse(line, 0, 7)", "self.refuse(line, -1, 7)"),
    ("self.refuse(line, field, 8)", "self.refuse(line, 0, 8)"),
    ("self.refuse(line, field, 8)", "self.refuse(line, -1, 8)"),
    ("identifier == due, 0)", "identifier[2] == due[2], 0)"),
    ("identifier == due, 0)", "identifier[:2] == due[:2], 0)"),
    ("lines.permit(line, identifier == zone)", "pass"),
    ("spots > 0 or not lines.older", "True"),
    ("spots > 0 or not lines.older", "spots > 0"),
    ("spots > 0 or not lines.older", "spots > 1 or not lines.older"),
    ('return None if field == b"solid_yellow" else', "return"),
    ('return None if field == b"solid_yellow" else', 'return None if field == b"solid_white" else'),
    ("left, = lines.values(line, [boundary])", 'left, = lines.values(line, ["boundary"])'),
    ("right, = lines.values(line, [boundary])", 'right, = lines.values(line, ["boundary"])'),
    ("edition == DECEMBER_2006", "edition != DECEMBER_2006"),
    ("edition == DECEMBER_2006", "False"),
    ("lines.permit(line, identifier == (zone, 0))", "lines.permit(line, identifier[0] == zone)"),
    ("lines.permit(line, identifier == (zone, 0))", "lines.permit(line, identifier[1] == 0)"),
    ("lines.permit(line, identifier == (zone, spot))", "lines.permit(line, identifier[1] == spot)"),
    ("len(form.spots) if spots > 0 else 0", "len(form.spots)"),
    ("lines.permit(line, width > 0)", "pass"),
    ("lines.permit(line, waypoint[2] == 2, 1)", "pass"),
    ("lines.permit(line, waypoint[2] == 2, 1)", "lines.permit(line, waypoint[2] == 2, 0)"),
    ("lines.permit(line, waypoint[2] == 2, 1)", "lines.permit(line, waypoint[2] == 1, 1)"),
    ('if b"checkpoint" not in given:', "if False:"),
    ('if b"checkpoint" not in given:', "if not given:"),
    ("        lines.settle()\n        lines.refuse(line, 0, 25)", "        lines.refuse(line, 0, 25)"),
    ("lines.refuse(line, 0, 25)", "lines.refuse(line, 1, 25)"),
    ("lines.refuse(line, 0, 25)", "lines.refuse(line, 0, 9)"),
    ("        given.add(what)         # R9", "        (given.add(what) if what != b'checkpoint' else 0)         # R9"),
    ("maximum == 0 or minimum <= maximum", "maximum == 0 or minimum < maximum"),
    ("maximum == 0 or minimum <= maximum", "minimum <= maximum"),
    ("maximum == 0 or minimum <= maximum", "maximum <= 1 or minimum <= maximum"),
    ("maximum == 0 or minimum <= maximum", "True"),
    ("lines.permit(line, identifier > 0, 0)", "pass"),
    ("lines.permit(line, identifier > 0, 0)", "lines.permit(line, identifier > 0)"),
    ("lines.permit(line, goals > 0)", "pass"),
    ("lines.permit(line, limits > 0)", "pass"),
    ("return length // STRIDE[table]", "return -(-length // STRIDE[table])"),
    ("return length // STRIDE[table]", "return length"),
    ("    if line is not None:\n        lines.refuse(line, 0, 5)", "    pass"),
    ("    line = lines.next_or_none()\n    if line is not None:\n        lines.refuse(line, 0, 5)", "    pass"),
    ("if not 1 <= x <= m:", "if m < x <= m + len(form.zones) and y <= form.zones[x - m - 1][3] and z <= 2:\n            return form.spots[form.zones[x - m - 1][2] + y - 1][0] + z - 1\n        if not 1 <= x <= m:"),
    ("if y > lanes:", "if first_lane + y - 1 >= len(form.lanes):"),
    ("    if z > points:\n", "    if first + z - 1 >= len(form.points):\n"),
    ("if not m + 1 <= x <= m + len(form.zones):", "if x == 1:\n            return 0\n        if not m + 1 <= x <= m + len(form.zones):"),
    ("line < first_fault[0]", "False"),
    ("line < first_fault[0]", "True"),
    ("        met.add(number)\n    if first", "        met = {number}\n    if first"),
    ("raise Refused(2, line, 14, column)", "pass"),
    ("raise Refused(2, line, 14, column)", "raise Refused(2, line, 14, 1)"),
    ("raise Refused(2, line, 15, column)", "raise Refused(2, line, 15)"),
    ("raise Refused(2, line, 16, column)", "raise Refused(2, line, 16, 1)"),
    ("raise Refused(2, line, 17, column)", "raise Refused(2, line, 17, column + 1)"),
    ("(line, 12, column)", "(line, 12, 1)"),
    ("(line, 13, column)", "(line, 13, column - 1)"),
    ("if name_of(text, *form.rndf) != name_of(rndf_text, *rndf_form.name)", "if form.rndf[1] != rndf_form.name[1]"),
    ("if name_of(text, *form.rndf) != name_of(rndf_text, *rndf_form.name)", "if not name_of(text, *form.rndf).startswith(name_of(rndf_text, *rndf_form.name))"),
    ("if name_of(text, *form.rndf) != name_of(rndf_text, *rndf_form.name)", "if not name_of(rndf_text, *rndf_form.name).startswith(name_of(text, *form.rndf))"),
    ("if number not in numbers:", "if False:"),
    ("if identifier > ids:", "if identifier > ids + 1:"),
    ("if identifier > ids:", "if identifier > len(rndf_rows['segments']):"),
    ("        if identifier in met:\n            raise Refused(2, line, 17, column)\n", ""),
    ("raise Refused(2, line, 18, column)", "pass"),
    ("raise Refused(2, line, 18, column)", "raise Refused(2, line, 18, 1)"),
    ("raise Refused(2, line, 18, column)", "raise Refused(2, line + 1, 18, column)"),
    ("form.end_place = line.place(0)\n    end_of", "form.end_place = (lines.count + 1, 1)\n    end_of"),
    ("        if what in given:\n            self.refuse(line, 0, 6)\n", ""),
    ("        if what in given:\n            self.refuse(line, 0, 6)\n",
     "        if what in given and len(line.fields) == 2:\n            self.refuse(line, 0, 6)\n"),
    ("            values.append(value)\n", "            values.append(value)\n            if not KINDS[kind][1](value):\n                self.refuse(line, field, 9)\n"),
    ("        if len(line.fields) - first != len(kinds):", "        if len(line.fields) - first < len(kinds):"),
    ("        if len(line.fields) - first != len(kinds):", "        if len(line.fields) - first > len(kinds):"),
    ("raise Refused(2, 0, 11)", "raise Refused(1, 0, 11)"),
    ("form.exits.append((first + waypoint[2] - 1, entry", "form.exits.append((waypoint[2] - 1, entry"),
    ("form.exits.append((first + point[2] - 1", "form.exits.append((first + point[2]"),
    ("form.checkpoints.append([number, first + waypoint[2] - 1])", "form.checkpoints.append([number, waypoint[2] - 1])"),
    ("form.stops.append([first + waypoint[2] - 1])", "form.stops.append([waypoint[2] - 1])"),
    ("            right, = lines", "            left, = lines"),
    ("form.version = name\n", "form.date = name\n"),
    ("            form.date = name\n", "            pass\n"),
    ("        given.add(what)\n\n\ndef end_of_file", "        (given.add(what) if what != b'creation_date' else 0)\n\n\ndef end_of_file"),
    ("len(field)) if", "len(field) + 0 * start) if start > 0 or"),
    ("flat.extend([0] * (length - len(flat)))", "flat.extend([0] * (length // 2 * 2 - len(flat)))"),
    ("self.at = end\n", "self.at = end + 0\n"),
]
# the last one changes nothing and has to survive; so does the "+ 0 * start" one
HARMLESS = {"self.at = end\n", "len(field)) if"}


def main(directory="."):
    import oracle
    source = open(oracle.__file__).read()
    with open(os.path.join(directory, "cases.bin"), "rb") as corpus:
        cases = list(casefile.decode(corpus.read()))
    judged = lambda module: [casefile.judge(*case, module) for case in cases]
    right = [(x.refusal, x.used, x.file, x.mission, x.tables) for x in judged(oracle)]
    survivors = 0
    for old, new in MUTANTS:
        if source.count(old) < 1:
            print("NOT FOUND:", repr(old))
            continue
        module = types.ModuleType("mutant")
        exec(compile(source.replace(old, new, 1), "mutant", "exec"), module.__dict__)
        killed = 0
        for case, want in zip(cases, right):
            try:
                x = casefile.judge(*case, module)
                got = (x.refusal, x.used, x.file, x.mission, x.tables)
            except Exception:
                got = None
            if got != want:
                killed += 1
                break
        if not killed and old not in HARMLESS:
            survivors += 1
            print("SURVIVES: %r -> %r" % (old, new))
    print("%d mutants, %d survive" % (len(MUTANTS) - len(HARMLESS), survivors))


if __name__ == "__main__":
    sys.exit(main(*sys.argv[1:2]))
