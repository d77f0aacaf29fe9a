#!/usr/bin/env python3
"""What has to be believed, counted: tools/believe.py [--write] [--unused] [--why FILE]

The files of definitions (`specs/`) that the contracts of the exported functions rest on, with their lines, door by door and in all; docs/PROMISES.md ('What you have to
believe') and README.md ('Proved, and believed') say the same, or this ends with status 1 and says what differs. `--write` writes the figures there. Python's own library, no more.

How it counts.
- A door is one or more exported functions (DOORS below): the entry points of the crates and, for C and Rust, each function of `yard` that `yard_c` exports (`#[unsafe(no_mangle)] pub extern "C"`), none left out;
  what `yard_c` exports has the clauses of `yard`'s function of that name.
- A function's contract is what stands in its clauses (`requires`, `ensures`). It rests on the definitions that these name, by the `ghost use` lines of its file; each definition
  rests on those that it names in turn: of its own file, or by a `use` line of its file. A name that is handed on by `pub use` leads through every file that hands it on.
- A file of which a door needs one definition is counted for it whole, as people read it: comments, blank lines and `use` lines too, but for the line
  that imports the logic's own library (today's `rt ci` asks for it: tools/port-operators.py). A door's figure is what it needs beyond the doors before it.
- In all it is counted more strictly, by `use` lines alone: whatever a counted file imports from some `specs/`, needed or not. No file comes in by this that no door needs.
- Not counted: the logic's own library (Rattle.std, mathlib, lib, Prim) and the types that code declares (`specs.declared`: structs and enums of `src/`), which are listed; and what a contract names without resting on it
  (LEFT_OUT below, each with its reason).

Trees from before issue 47, in an older Rattle's spelling (`Rattle·c.specs.M`, `_+_`, clauses between ⌜ and ⌝, all of C's functions in `yard`), are counted too: tools/landings.py hands them in.

It fails where
- PROMISES or README say another figure or list another file;
- a counted file does not begin `-- WHAT A READER MUST BELIEVE`;
- a file begins so, is not counted, and is not listed in PROMISES as some theorem's or program's own;
- a counted file imports one that no door needs, or the doors before L9 to L14, or all but the last two, or the last, need more lines than they may (MOST). The last two, the words of refusals and what may stand where a
  text is refused, are counted apart."""

import os
import re
import sys

ROOT = os.path.join(os.path.dirname(os.path.abspath(__file__)), '..')
CRATES = os.path.join(ROOT, 'crates')
LABEL = '-- WHAT A READER MUST BELIEVE'
LIBRARY = 'use Rattle.std.specs.Prelude.{'

# door, its functions: crate::function. The first seven stood before L9 to L14; the words of refusals and what may stand there, behind the others, are counted apart.
DOORS = [
    ('readers', 'reader::read_rndf reader::read_pair'),
    ('look-ups', 'look_up::point_of look_up::point_of_word look_up::points_of'),
    ('names', 'rows::name_of'),
    ('house writing', 'writer::write_rndf writer::write_mdf'),
    ('map', 'map_writer::write_map'),
    ('routes', 'route::check_route'),
    ('library', 'yard::kastepuhm_read_rndf yard::kastepuhm_read_pair yard::kastepuhm_point_of yard::kastepuhm_points_of yard::kastepuhm_write_rndf yard::kastepuhm_write_mdf yard::kastepuhm_write_map yard::kastepuhm_check_route'),
    ('packing', 'packer::write_packed yard::kastepuhm_write_packed'),
    ('unpacking', 'unpacker::read_packed yard::kastepuhm_read_packed'),
    ('missions', 'reach::check_mission yard::kastepuhm_check_mission'),
    ('mending', 'mend::mend yard::kastepuhm_mend'),
    ('words', 'yard::kastepuhm_sentence yard::kastepuhm_is_mission answers::write_sentence'),
    ('expected', 'expected::write_expected yard::kastepuhm_expected'),
]
BEFORE = 7
WORDS = len(DOORS) - 2
SPOKEN = {'look-ups': 'the look-ups', 'house writing': 'the house writing', 'map': 'the map', 'library': 'the library', 'words': 'the words of refusals', 'expected': 'what may stand where a text is refused'}
MOST = (1750, 2200, 250)

# names in contracts that nobody has to believe, and why
LEFT_OUT = {
    'expected/specs/Words.expected_words_of': 'the argument `words` of AnswersExpected: it settles what the law leaves open, the order of a list and what is told of a refusal that these texts do not get; its field `right` says what counts, whatever they are',
}

# the same in trees from before issue 47
LEFT_OUT_BEFORE = {'expected/specs/Words.expectedWords'}

USE = re.compile(r'^\s*(?:ghost )?(?:unfoldable )?(pub )?use ([^\s{;]+?)(?:\.\{([^}]*)\})?(?: as ([^\s;]+))?;?\s*$')
SIGNATURE = re.compile(r'^(?:abbrev |unfoldable )?(?:pub )?([^\s(){}:]+)(?: \{[^}]*\})* :(?: |$)')
DECLARED = re.compile(r'^Rattle[.·](\w+?)(?:·specs)?\.specs\.declared\.(\w+)')
OURS = re.compile(r'^Rattle[.·](\w+?)(?:·specs)?\.(specs\..*)$')
TYPE = re.compile(r'^(?:pub )?(?:data|record) ([^\s(){}:]+)')


def tokens(text):
    """The words of a text; of a projection, as `f.value`, also what stands before the point."""
    words = set(re.split(r'[\s(){};,]+', text))
    return words | {word.split('.')[0] for word in words}


def is_named(name, words):
    """Whether these words have this name: itself, or the signs of an operator (`◌+◌`; `_+_` in an older Rattle, whose other names have no `_`)."""
    is_operator = '◌' in name or name.startswith('_') or name.endswith('_')
    return name in words or is_operator and any(part in words for part in re.split('[◌_]', name) if part)


def bare(line):
    """A line without its comment."""
    return re.sub(r'(^|\s)--(\s.*)?$', '', line)


class File:
    """A file of definitions: what each of its names rests on, and what it imports."""

    def __init__(self, path):
        self.path = path
        self.name = path[:-len('.antt')]
        with open(os.path.join(CRATES, path), encoding='utf-8') as f:
            self.lines = [line for line in f.read().splitlines() if not line.startswith(LIBRARY)]
        self.labelled = self.lines[0].startswith(LABEL)
        self.imports = []  # (module, [(name, here)] or None, qualifier, handed on)
        self.items = {}  # name -> item; an item is [its names, its words]
        self.parse()

    def parse(self):
        modules, item, inside = [], None, None  # modules: (indent, words of its parameters); inside: the indent of an open data or record
        for line in self.lines:
            text = bare(line)
            if not text.strip():
                continue
            use = USE.match(text)
            if use:
                handed, module, names, qualifier = use.groups()
                if names is not None:
                    names = [(w.split(' as ')[0].strip(), w.split(' as ')[-1].strip()) for w in names.split(',')]
                self.imports.append((module, names, qualifier, bool(handed)))
                continue
            indent = len(text) - len(text.lstrip())
            while modules and indent <= modules[-1][0]:
                modules.pop()
            at = modules[-1][0] + 2 if modules else 0
            text = text.strip()
            if inside is not None and indent > inside:  # a field, a constructor, or more of one
                item[1] |= tokens(text)
                many = re.match(r'^(?:pub )?([^:(){}]+) :', text)
                if many and indent == inside + 2:
                    for name in many.group(1).split():
                        item[0].append(name)
                continue
            inside = None
            if text.startswith('module ') and text.endswith(' where'):
                modules.append((indent, tokens(text)))
                continue
            shared = set().union(*(m[1] for m in modules))
            if indent == at and TYPE.match(text):
                item, inside = [[TYPE.match(text).group(1)], tokens(text) | shared], indent
                self.add(item)
            elif indent == at and SIGNATURE.match(text):
                item = [[SIGNATURE.match(text).group(1)], tokens(text) | shared]
                self.add(item)
            elif item is not None:
                item[1] |= tokens(text)
        for each in list(self.items.values()):
            for name in each[0]:
                self.items.setdefault(name, each)

    def add(self, item):
        self.items[item[0][0]] = item


class Tree:
    def __init__(self):
        """Every file of definitions, bottom up: crates as crates.txt has them, files as `specs/Lib` lists them."""
        self.files = {}
        with open(os.path.join(ROOT, 'crates.txt'), encoding='utf-8') as f:
            self.crates = re.findall(r'^(\w+)(?: [^:#\n]*)?:', f.read(), re.M)
        for crate in self.crates:
            lib = os.path.join(CRATES, crate, 'specs', 'Lib.antt')
            if os.path.exists(lib):
                with open(lib, encoding='utf-8') as f:
                    for name in re.findall(r'^(?:pub )?mod (\w+)', f.read(), re.M):
                        path = '%s/specs/%s.antt' % (crate, name)
                        self.files[path] = File(path)
        for at, file in enumerate(self.files.values()):
            file.at = at

    def file_of(self, module):
        """The file of a module; None for the logic's own and for declared types."""
        found = OURS.match(module)
        if not found or found.group(1) not in self.crates:
            return None
        path = found.group(1) + '/' + found.group(2).replace('.', '/') + '.antt'
        if path in self.files:
            return self.files[path]
        if not found.group(2).startswith('specs.declared.'):
            raise SystemExit('believe: no file for %s' % module)
        return None

    def declared(self, files):
        types = set()
        for file in files:
            for module, _, _, _ in file.imports:
                found = DECLARED.match(module)
                if found and found.group(1) in self.crates:
                    types.add('%s::%s' % found.groups())
        return sorted(types)

    def meant(self, imports, words):
        """The (file, name) that these words name by these imports."""
        for module, names, qualifier, _ in imports:
            file = self.file_of(module)
            if file is None:
                continue
            if names is not None:
                for name, here in names:
                    if is_named(here, words):
                        yield file, name
            if qualifier is not None:
                for word in words:
                    if word.startswith(qualifier + '.'):
                        yield file, word[len(qualifier) + 1:]

    def needed(self, start):
        """The names that these (file, name) rest on, themselves too."""
        seen, todo = set(), list(start)
        while todo:
            file, name = todo.pop()
            if (file, name) in seen:
                continue
            seen.add((file, name))
            if name in file.items:
                names, words = file.items[name]
                todo += [(file, other) for other in names if other != name]
                todo += [(file, other) for other in file.items if other in words]
                todo += self.meant(file.imports, words)
            else:  # handed on by `pub use`
                todo += [(f, n) for f, n in self.meant([i for i in file.imports if i[3]], {name})]
        return seen

    def imported(self, files):
        """These files and whatever their `use` lines lead to."""
        seen, todo = set(), list(files)
        while todo:
            file = todo.pop()
            if file not in seen:
                seen.add(file)
                todo += [f for f in (self.file_of(i[0]) for i in file.imports) if f]
        return seen


def clauses_of(source, name):
    """The clauses of a function, as they stand."""
    found = re.search(r'^(?:pub )?(?:extern "C" )?fn %s\b.*?^\{' % re.escape(name), source, re.M | re.S)
    if not found:
        return []
    if '⌜' in found.group(0):
        return re.findall(r'⌜(.*?)⌝', found.group(0), re.S)
    return [clause.strip() for clause in re.split(r'^\s*(?:requires|ensures)\b[^{]*\{', found.group(0)[:-1], flags=re.M)[1:]]


def contract(function):
    """The imports of a function's file, and the words of its clauses."""
    crate, name = function.split('::')
    source = source_of(crate)
    clauses = clauses_of(source, name)
    if not clauses:
        raise SystemExit('believe: %s has no contract' % function)
    imports = []
    for line in source.splitlines():
        use = USE.match(line) if line.startswith('ghost use ') else None
        if use:
            names = use.group(3)
            imports.append((use.group(2), None if names is None else [(w.strip(), w.strip()) for w in names.split(',')], use.group(4), False))
    return imports, tokens(' '.join(clauses))


def source_of(crate):
    with open(os.path.join(CRATES, crate, 'src', 'lib.rt'), encoding='utf-8') as f:
        return f.read()


def exported():
    """The functions that C calls, and those of them whose clauses are not those of the function of that name in `yard`."""
    source, yard = source_of('yard_c'), source_of('yard')
    names = re.findall(r'^#\[unsafe\(no_mangle\)\]\npub extern "C" fn (\w+)', source, re.M)
    return names, [name for name in names if clauses_of(source, name) != clauses_of(yard, name)]


def number(n):
    return format(n, ',')


def size(files):
    return sum(len(f.lines) for f in files)


def series(words):
    return words[0] if len(words) == 1 else ', '.join(words[:-1]) + ' and ' + words[-1]


def count(tree):
    """Each door with the files that it needs, in the order in which they are first needed, and all names needed."""
    doors, names = [], set()
    for door, functions in DOORS:
        start = []
        for function in functions.split():
            imports, words = contract(function)
            start += [(f, name) for f, name in tree.meant(imports, words) if '%s.%s' % (f.name, name) not in {*LEFT_OUT, *LEFT_OUT_BEFORE}]
        seen = tree.needed(start)
        names |= seen
        doors.append((door, functions, {f for f, _ in seen}))
    return doors, names


def sentence(doors):
    """What README and PROMISES say."""
    had, told = set(), []
    for i, (door, _, files) in enumerate(doors):
        more = files - had
        had |= files
        if i == 0:
            told.append('%s lines for the %s' % (number(size(more)), door))
        else:
            told.append('%s for %s' % (number(size(more)), SPOKEN.get(door, door)))
        if i == BEFORE - 1:
            before = size(had)
        if i == WORDS - 1:
            answers = set(had)
    return 'The definitions that have to be believed are %s, then %s: %s for what stood before L9 to L14; and %s: %s lines in %d files; and %s.' % (
        told[0], series(told[1:BEFORE]), number(before), series(told[BEFORE:WORDS]), number(size(answers)), len(answers), series(told[WORDS:]))


def tables(doors, said):
    """The two tables of PROMISES. said: what was said of a file there."""
    had, rows, sums = set(), [], []
    for door, functions, files in doors:
        more = sorted(files - had, key=lambda f: f.at)
        had |= files
        for f in more:
            first = re.sub(r'^%s\. ' % re.escape(LABEL), '', f.lines[0]).split('. ')[0].replace('|', '\\|')
            rows.append('| %s | %d | %s | %s |' % (f.name, len(f.lines), door, said.get(f.name, first)))
        sums.append('| %s | %s | %s | %s | %s |' % (door, ', '.join('`%s`' % f for f in functions.split()), number(size(more)), number(size(files)), number(size(had))))
    return '\n'.join(['| file | lines | first needed for | what it says |', '|---|---|---|---|'] + rows + ['', '| door | functions | lines more | all that it needs | together |', '|---|---|---|---|---|'] + sums)


BEGIN, END = '<!-- counted by tools/believe.py: begin -->', '<!-- end -->'
README_SENTENCE = re.compile(r'The definitions that have to be believed are [^\n]*? files(?:; and [\d,]+ for [^\n.]*)?\.')


def main():
    options = sys.argv[1:]
    tree = Tree()
    wrong = []
    doors, names = count(tree)
    listed = {function for _, functions, _ in doors for function in functions.split() if function.startswith('yard::')}
    names_of_c, others = exported()
    wrong += ['yard_c::%s is exported and stands in no door' % name for name in names_of_c if 'yard::' + name not in listed]
    wrong += ['%s stands in a door, and yard_c does not export it' % name for name in sorted(listed) if name[len('yard::'):] not in names_of_c]
    wrong += ['the clauses of yard_c::%s are not those of yard::%s' % (name, name) for name in others]

    had = set()
    for i, (door, _, files) in enumerate(doors):
        more = sorted(files - had, key=lambda f: f.at)
        had |= files
        print('%s: %s more, %s in all that it needs, %s together' % (door, number(size(more)), number(size(files)), number(size(had))))
        for f in more:
            print('  %4d  %s' % (len(f.lines), f.name))
        if i == BEFORE - 1:
            print('-- before L9 to L14: %s lines in %d files' % (number(size(had)), len(had)))
            if size(had) > MOST[0]:
                wrong.append('the doors before L9 to L14 need %s lines, more than %s' % (number(size(had)), number(MOST[0])))
        if i == WORDS - 1:
            answers = tree.imported(had)
            print('-- before the words of refusals: %s lines in %d files' % (number(size(answers)), len(answers)))
            if size(answers) > MOST[1]:
                wrong.append('all doors but the last two need %s lines, more than %s' % (number(size(answers)), number(MOST[1])))
        if i == len(doors) - 1 and size(more) > MOST[2]:
            wrong.append('%s needs %s lines beyond the others, more than %s' % (door, number(size(more)), number(MOST[2])))
    everything = tree.imported(had)
    print('-- in all: %s lines in %d files' % (number(size(everything)), len(everything)))
    print('-- types that code declares, not counted: %s' % ', '.join(tree.declared(everything)))
    for name, why in sorted(LEFT_OUT.items()):
        print('-- left out: %s, %s' % (name, why))
    for f in sorted(everything, key=lambda f: f.at):
        if f not in had:
            by = sorted(g.name for g in everything if f in (tree.file_of(i[0]) for i in g.imports))
            wrong.append('%s (%d lines) is imported by %s, and no door needs it' % (f.name, len(f.lines), series(by)))
        if not f.labelled:
            wrong.append('%s is counted and does not begin `%s`' % (f.name, LABEL))

    if '--unused' in options:
        for f in sorted(everything, key=lambda f: f.at):
            left = [n for n, item in f.items.items() if n == item[0][0] and (f, n) not in names]
            if left:
                print('-- not needed, in %s: %s' % (f.name, ', '.join(left)))
    if '--why' in options:
        asked = options[options.index('--why') + 1]
        for f in sorted(everything, key=lambda f: f.at):
            for module, used, _, _ in f.imports:
                g = tree.file_of(module)
                if g and g.name == asked:
                    print('-- %s: %s' % (f.name, 'all' if used is None else ', '.join(n for n, _ in used)))

    # PROMISES and README
    promises = os.path.join(ROOT, 'docs', 'PROMISES.md')
    readme = os.path.join(ROOT, 'README.md')
    with open(promises, encoding='utf-8') as f:
        promised = f.read()
    with open(readme, encoding='utf-8') as f:
        told = f.read()
    if promised.count(BEGIN) != 1 or END not in promised.split(BEGIN)[-1]:
        raise SystemExit('believe: docs/PROMISES.md has no place for the tables (%s .. %s)' % (BEGIN, END))
    before, rest = promised.split(BEGIN)
    there, after = rest.split(END, 1)
    said = {row[0]: row[3] for row in (tuple(c.strip() for c in line.strip('|').split(' | ')) for line in there.splitlines()) if len(row) == 4}
    should = '\n' + sentence(doors) + '\n\n' + tables(doors, said) + '\n'
    # those of theorems and programs: rows of the table behind it
    own = re.compile(r'^\| (\w+/specs/[\w/]+) \| (\d+) \|', re.M)
    if '--write' in options:
        after = own.sub(lambda m: '| %s | %d |' % (m.group(1), len(tree.files[m.group(1) + '.antt'].lines)) if m.group(1) + '.antt' in tree.files else m.group(0), after)
        with open(promises, 'w', encoding='utf-8') as f:
            f.write(before + BEGIN + should + END + after)
        there = should
        if README_SENTENCE.search(told):
            told = README_SENTENCE.sub(lambda m: sentence(doors), told, count=1)
            with open(readme, 'w', encoding='utf-8') as f:
                f.write(told)
    if there != should:
        has, wants = there.splitlines(), should.splitlines()
        wrong += ['docs/PROMISES.md does not have: %s' % line for line in wants if line not in has]
        wrong += ['docs/PROMISES.md has: %s' % line for line in has if line not in wants]
        if sorted(has) == sorted(wants):
            wrong.append('docs/PROMISES.md has its rows in another order')
    if sentence(doors) not in told:
        wrong.append('README.md does not say: %s' % sentence(doors))
    owned = {name + '.antt': int(lines) for name, lines in own.findall(after)}
    for path, f in tree.files.items():
        if f.labelled and f not in everything and path not in owned:
            wrong.append('%s (%d lines) begins `%s`, is not counted, and docs/PROMISES.md does not list it' % (f.name, len(f.lines), LABEL))
    for path, lines in owned.items():
        f = tree.files.get(path)
        if f is None or not f.labelled or f in everything:
            wrong.append('docs/PROMISES.md lists %s as a theorem\'s or program\'s own: %s' % (path, 'there is no such file' if f is None else 'it is counted' if f in everything else 'it does not begin `%s`' % LABEL))
        elif len(f.lines) != lines:
            wrong.append('docs/PROMISES.md says %d lines of %s, it has %d' % (lines, f.name, len(f.lines)))
    for what in wrong:
        print('believe: ' + what)
    print('%s' % ('%d wrong' % len(wrong) if wrong else 'as docs/PROMISES.md and README.md say'))
    return 1 if wrong else 0


if __name__ == '__main__':
    sys.exit(main())
