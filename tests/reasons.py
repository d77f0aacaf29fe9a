#!/usr/bin/env python3
"""Compares the reasons of refusals: the table of docs/REFUSALS.md, the definition (crates/reasons/specs/Reasons.antt) and the code's table
(crates/reasons/src/lib.rt, reason); and the words of 11 with file 0 (docs/REFUSALS.md: in brackets; the definition: short_work; the code: put_reason_of). Prints the lines that
differ; the status is 1 if any does.

That code and definition agree is proved; docs/REFUSALS.md is held to them here.
"""
import difflib
import os
import re
import sys

ROOT = os.path.dirname(os.path.dirname(os.path.abspath(__file__)))


def lines_of(path, pattern):
    with open(os.path.join(ROOT, path), encoding="utf-8") as file:
        return [match.groups() for match in re.finditer(pattern, file.read(), re.M)]


def of_readme():
    """{number: words}, without what stands in brackets of file 0"""
    return {int(number): words for number, words in lines_of("docs/REFUSALS.md", r"^\| (\d+) \| ([^|]+?)(?: \(file 0, [^|]+\))? \| [^|]+ \| [^|]+ \|$")}


def of_work():
    """The words of 11 with file 0: of docs/REFUSALS.md, of the definition and of the code."""
    return [lines_of(path, pattern) for path, pattern in (
        ("docs/REFUSALS.md", r"^\| 11 \| [^|]+ \(file 0, for the work space of `kastepuhm_check_mission`: ([^|]+)\) \|"),
        ("crates/reasons/specs/Reasons.antt", r'^short_work = ascii "(.*)"$'),
        ("crates/reasons/src/lib.rt", r'^ +return put_bytes\(out, at, b"(the work space .*)"\);$'))]


def of_definition():
    rows = lines_of("crates/reasons/specs/Reasons.antt", r'^    ∷ (?:ascii "(.*)"|no_reason)$')
    return {number: words for number, (words,) in enumerate(rows, 1) if words is not None}


def of_code():
    return {int(number): words for number, words in lines_of("crates/reasons/src/lib.rt", r'^        (\d+) =>\s+b"(.*)",$')}


def listed(table):
    return ["%d %s\n" % row for row in sorted(table.items())]


def main():
    readme = listed(of_readme())
    differ = len(readme) != 31
    if differ:
        print("docs/REFUSALS.md has %d refusal numbers, not 31" % len(readme))
    work = of_work()
    if len(work[0]) != 1 or work != [work[0]] * 3:
        differ = True
        print("11 with file 0: %s" % work)
    for path, table in (("crates/reasons/specs/Reasons.antt", of_definition()), ("crates/reasons/src/lib.rt", of_code())):
        found = list(difflib.unified_diff(readme, listed(table), "docs/REFUSALS.md", path))
        sys.stdout.writelines(found)
        differ = differ or bool(found)
    return 1 if differ else 0


if __name__ == "__main__":
    sys.exit(main())
