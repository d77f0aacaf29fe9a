#!/usr/bin/env python3
"""The table of docs/LANDINGS.md: tools/landings.py [--write] [--times FILE] [--commits]

Each landing with its last commit, the gate's times there, the lines to believe and what it moved; and the times before and after in its note's Gate line. It ends with status 1 where docs/LANDINGS.md has other rows; `--write`
writes them. FILE is what tools/gate-times.sh writes (docs/gate-times.tsv): a commit without a line there is 'to be timed'. `--commits` prints the commits, to hand to tools/gate-times.sh.
A new landing is a line more in LANDINGS and a note whose Gate line begins `before: to be timed; after: to be timed.`

How it counts.
- A landing is all that lies between the last commit of the one before and its own (LANDINGS below): `git diff --shortstat` of the two.
- Times of a landing and of the one before it are told of one machine where both were timed there; a commit may have lines of several machines.
- Lines to believe: tools/believe.py as it is here over the tree of that commit, with those of its doors that were there then, 'in all' as it says: what the contracts need and whatever those files import.

Git and Python's own library, no more."""

import collections
import io
import os
import re
import subprocess
import sys
import tarfile
import tempfile

sys.path.insert(0, os.path.dirname(os.path.abspath(__file__)))
sys.dont_write_bytecode = True
import believe

ROOT = os.path.join(os.path.dirname(os.path.abspath(__file__)), '..')
NOTES = os.path.join(ROOT, 'docs', 'LANDINGS.md')
BEGIN, END = '<!-- by tools/landings.py: begin -->', '<!-- end -->'
UNTIMED = 'to be timed'
BEFORE = 'd38fcb4'  # landing 4, the last without a row

# landing, request, last commit, in the order in which they landed
LANDINGS = [line.split(' | ') for line in '''
5 | the base, 5 to 7 | 8132781
6 | ready for the requests | a129b5b
7 | L6 | 72655a5
8 | L1 | eb9b459
9 | L3 | a50fe3c
10 | L4 | 0fad0c7
6, the rest | ready for the requests | 5540ef9
11 | L2 | 41df3ea
12 | L5 | 8eb8be2
13 | L8 | f02ec37
14 | L7 | dcdbb26
15 | L10 | 8e5a56e
16 | speed (issue 23) | 02ee95e
17 | speed (issue 23) | 4fd96fd
18 | L13 | d9d0999
19 | L11 | 05ebad8
20 | L12 | 4bf35a7
21 | L14 | e55178f
22 | L9 | bc0a9b9
23 | held to the letter (issue 36) | a764a0d
24 | where its users are (issue 37) | 4a35b94
25 | what may stand here (issue 38) | d83c870
'''.strip().splitlines()]

# what is moved, apart: pathspecs
DATA = ['glob)crates/*_vectors/data/**', 'glob)crates/*_vectors/std*']
MOVED = [['crates'] + [':(exclude,' + d for d in DATA], [':(' + d for d in DATA], ['.', ':(exclude)crates']]


def git(*words, raw=False):
    out = subprocess.run(['git', '-C', ROOT] + list(words), check=True, stdout=subprocess.PIPE).stdout
    return out if raw else out.decode()


def moved(before, commit, paths):
    """Files, lines in and out."""
    told = git('diff', '--shortstat', before, commit, '--', *paths)
    numbers = [re.search(r'(\d+) ' + word, told) for word in ('file', 'insertion', 'deletion')]
    files, more, less = (int(n.group(1)) if n else 0 for n in numbers)
    return '%s: +%s -%s' % (format(files, ','), format(more, ','), format(less, ',')) if files else ''


def believed(commit):
    """Lines and files, by believe.py over the tree of that commit."""
    with tempfile.TemporaryDirectory() as folder:
        tarfile.open(fileobj=io.BytesIO(git('archive', commit, 'crates', 'crates.txt', raw=True))).extractall(folder)
        kept = believe.ROOT, believe.CRATES, believe.DOORS
        believe.ROOT, believe.CRATES = folder, os.path.join(folder, 'crates')
        there = [(door, ' '.join(f for f in functions.split() if stands(f))) for door, functions in believe.DOORS]
        believe.DOORS = [d for d in there if d[1]]
        tree = believe.Tree()
        files = tree.imported({f for _, _, needed in believe.count(tree)[0] for f in needed})
        believe.ROOT, believe.CRATES, believe.DOORS = kept
        return '%s in %d' % (format(believe.size(files), ','), len(files))


def stands(function):
    crate, name = function.split('::')
    path = os.path.join(believe.CRATES, crate, 'src', 'lib.rt')
    if not os.path.exists(path):
        return False
    with open(path, encoding='utf-8') as f:
        return re.search(r'^(?:pub )?(?:extern "C" )?fn %s\b' % re.escape(name), f.read(), re.M) is not None


Gate = collections.namedtuple('Gate', 'commit passed failed wall processor others kind which kit')


def timed(path):
    """commit -> its gates, the last one last."""
    gates = collections.defaultdict(list)
    if os.path.exists(path):
        with open(path, encoding='utf-8') as f:
            for line in f:
                gate = Gate(*line.rstrip('\n').split('\t'))
                gates[gate.commit].append(gate)
    return gates


def before_and_after(before, after):
    """The last gates of each, on one machine where both have one; None where there is none."""
    both = [g.which for g in after if any(b.which == g.which for b in before)]
    last = [[g for g in gates if g.which == both[-1]] if both else gates for gates in (before, after)]
    return [gates[-1] if gates else None for gates in last]


def clock(seconds):
    return '%d min %d s' % divmod(int(seconds), 60)


def cells(gate, letters):
    """Passed, wall, processor time, machine."""
    if gate is None:
        return [UNTIMED] * 3 + ['']
    verdict = 'no verdict' if gate.passed == '-' else gate.passed if gate.failed == '0' else '%s passed, %s failed' % (gate.passed, gate.failed)
    return [verdict, clock(gate.wall), clock(gate.processor), letters[gate.which]]


def told(gate):
    """In a Gate line: neither a semicolon nor a point in it."""
    if gate is None or gate.passed == '-':
        return 'no verdict' if gate else UNTIMED
    return '%s passed%s in %s, %s of processor time' % (gate.passed, '' if gate.failed == '0' else ', %s failed' % gate.failed, clock(gate.wall), clock(gate.processor))


def machines(times, letters):
    """A sentence for each machine, and one for what was timed on several."""
    for which, letter in letters.items():
        here = [g for gates in times.values() for g in gates if g.which == which]
        others = max(100 * int(g.others) / max(1, int(g.processor)) for g in here)
        yield 'Machine %s: %s, kit `%s`; everything else on it took at most %.1f in 100 of a gate\'s own processor time meanwhile.' % (letter, here[0].kind, here[0].kit, others)
    for commit, gates in times.items():
        if len({g.which for g in gates}) > 1:
            yield '%s on several: %s.' % (commit, '; '.join('%s in %s, %s of processor time' % (letters[g.which], clock(g.wall), clock(g.processor)) for g in gates))


def with_gate_line(notes, number, before, after):
    """The notes with the times of that landing in its Gate line; a part of a landing has its own behind its name there."""
    note, _, part = number.partition(', ')
    line = re.compile(r'(^## %s\. (?:(?!^## ).)*?^- \*\*Gate\*\*: %s)before: [^;\n]*; after: [^.\n]*\.' % (note, r'[^\n]*?%s: ' % part.capitalize() if part else ''), re.M | re.S)
    if not line.search(notes):
        raise SystemExit('landings: the note of landing %s has no Gate line with before and after' % number)
    return line.sub(lambda m: '%sbefore: %s; after: %s.' % (m.group(1), before, after), notes, count=1)


def main():
    options = sys.argv[1:]
    commits = [commit for _, _, commit in LANDINGS]
    if '--commits' in options:
        print(' '.join(commits))
        return 0
    times = timed(options[options.index('--times') + 1] if '--times' in options else os.path.join(ROOT, 'docs', 'gate-times.tsv'))
    letters = {which: chr(ord('A') + n) for n, which in enumerate(dict.fromkeys(g.which for gates in times.values() for g in gates))}
    with open(NOTES, encoding='utf-8') as f:
        had = f.read()
    rows = ['| landing | request | last commit | passed | wall | processor time | machine | lines to believe, in files | crates: files, lines | vectors\' data | the rest |', '|' + '---|' * 11]
    notes, last = had, BEFORE
    for number, request, commit in LANDINGS:
        before, after = before_and_after(times.get(last, []), times.get(commit, []))
        rows.append('| ' + ' | '.join([number, request, commit] + cells(after, letters) + [believed(commit)] + [moved(last, commit, paths) for paths in MOVED]) + ' |')
        notes = with_gate_line(notes, number, 'landing 4\'s note' if last == BEFORE else told(before), told(after))
        last = commit
    if notes.count(BEGIN) != 1:
        raise SystemExit('landings: docs/LANDINGS.md has no place for the table (%s .. %s)' % (BEGIN, END))
    start, rest = notes.split(BEGIN)
    rows += [''] + ['- ' + sentence for sentence in machines(times, letters)]
    notes = start + BEGIN + '\n' + '\n'.join(rows) + '\n' + END + rest.split(END, 1)[1]
    if '--write' in options:
        with open(NOTES, 'w', encoding='utf-8') as f:
            f.write(notes)
    elif notes != had:
        there = had.splitlines()
        print('\n'.join('landings: docs/LANDINGS.md does not have: %s' % line for line in notes.splitlines() if line not in there))
        return 1
    print('%d landings, %d timed' % (len(commits), sum(commit in times for commit in commits)))
    return 0


if __name__ == '__main__':
    sys.exit(main())
