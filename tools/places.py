#!/usr/bin/env python3
"""The places in crates/*/src that today's Rattle lets one write better, counted (issue 48): tools/places.py [--list] [--members] [--point N] [--crate NAME]

It prints for each of the eight points of docs/DESIGN-PASS.md how many places it finds, how many of these are kept with a reason, and how many are to do. `--list` prints each place: point, file and line, what it is
-> what it could be; `--members` each function of a group too. Comments, strings and must-fail are not looked at; the tests' own crates (`.._vectors`) are. Python's own library, no more.

What counts as one place.
- 1: an enum of the shape of Option or Result (also with one more variant); a constant or a function's answer that stands for `none`; of each crate, all signatures and fields in which a number of one family (KINDS) stands for a kind or
  a refusal; each variant that holds one; each run of constants that names such numbers.
- 2: each group of functions whose signature and body are the same once names and numbers are taken for one another (consistently; TWIN_TOKENS tokens or more), or of structs or enums that are.
- 3: each `while` that moves its own variable, and each `for` over the indices of one slice that reads nothing else by it. Loops that halve are point 6.
- 4: each function that does what a derive, From, TryFrom, Default or Display would: equality, order, a test for a variant, a copy field by field, a conversion, a value of nothing but zeros, the printing of an own type.
- 5: each run of three parameters or more that three functions or more have (the longest first), and each clause that three have.
- 6: of each crate, the functions that have a slice and next to it how much of it counts, by the pair's names; each array cut to a length beside it; each search by halving; by reading, parallel tables and arenas.
- 7: each `match` whose every arm only calls a function, and those that choose a kind's step by number.
- 8: of each crate, the answers in proofs/; what of them the check finds alone, it alone can say.
BY_READING lists what no pattern finds; where such a place is changed and its words are still there, its line goes with the change.

A place is kept where a line `// Kept as it is: REASON` stands at it, in the comment right above it, or up to three lines above it in the same block; for a loop, a copy or a match, above its function too. What has several
members is kept where its line in the list is, twins where one of them is. A reason that begins with points, `// Kept as it is: (3, 5) REASON`, counts for these alone."""

import collections
import difflib
import glob
import itertools
import os
import re
import sys

ROOT = os.path.join(os.path.dirname(os.path.abspath(__file__)), '..')
POINTS = {1: 'own Option or Result, numbers for kinds', 2: 'twins', 3: 'loops by index', 4: 'derives, From, Display by hand', 5: 'what travels together', 6: 'buffers, tables, searches', 7: 'switches on steps', 8: 'proofs: crates that have answers'}
TWIN_TOKENS, NEAR_TOKENS, NEAR = 24, 34, 0.95
NUMBER = r'(?:u8|u16|u32|u64|usize|i32|i64)'
FAULTS = {'Refused', 'Fault', 'Bad', 'Wrong', 'TooLong', 'TooBig', 'NoFile', 'NotThere', 'Again'}
NOTHING = {'No', 'Nothing', 'Nowhere', 'Blank'}

# name of a parameter or field of type u8 -> what its numbers stand for
KINDS = {name: family for family, names in {
    'a kind of statement or order': 'kind item end in_rndf in_mdf', "a refusal's number": 'number', "a refusal's file": 'file', 'a row of the table of places': 'row next more done',
    'a cell of the table of places': 'cell', 'an option': 'slot option', 'the shape of a statement': 'shape', 'the rank of a line': 'rank', 'a boundary': 'boundary left right as_boundary', 'which change of a line': 'which',
}.items() for name in names.split()}

# What the patterns find and is no place: point, function.
NOT = {(2, name): why for name, why in {
    'records::put_point': 'two coordinates, and two numbers of an exit: their likeness means nothing',
    'reader_vectors::put_pair_reply': 'like a reply of the writers only in having two cases',
    'expected_words::put_entry_words': 'other words', 'yard_check::say_help': 'other words', 'yard_pack::say_help': 'other words', 'yard_reach::say_help': 'other words', 'yard_same::say_help': 'other words',
    'line_vectors::main': 'three lines', 'number_vectors::main': 'three lines', 'word_vectors::main': 'three lines',
}.items()} | {(1, 'number_vectors::field'): 'a letter of the test', (4, 'house_lines::put_fields'): "a line's bytes, not a value", (4, 'network::at_end'): 'a test'}

# What no pattern finds: point, file under crates/, what stands in its line (the first that has it), what it is -> what it could be.
BY_READING = [
    (1, 'column/src/lib.rt', 'fn column_at(text: &[u8], from: usize, number: u8) -> usize', 'column_at: 0 stands for no column -> Option<usize>'),
    (1, 'find_line/src/lib.rt', 'pub fn mdf_line(text: &[u8], kind: u8, row: u32) -> u32', 'mdf_line: 0 stands for no line -> Option<u32>'),
    (1, 'legs/src/lib.rt', ') -> usize', 'first_unmarked, later_stuck, first_stuck: the row behind the last stands for none -> Option<usize>'),
    (1, 'made_out/src/lib.rt', 'pub fn fields_needed(kind: u8) -> u8', 'fields_needed and order_fields_needed: 0 stands for no kind -> goes with an enum of kinds'),
    (1, 'plain_line/src/lib.rt', 'fn shape_of(kind: u8) -> u8', 'shape_of: 9 stands for a shape that is not told here -> Option of an enum'),
    (1, 'route/src/lib.rt', 'fn stray(lanes: &[u32]', 'stray: the place behind the last stands for none -> Option<usize>'),
    (1, 'expected_forms/src/lib.rt', '    some: bool,', 'Listing: a flag beside a place -> a method of the pen'),
    (1, 'expected_forms/src/lib.rt', 'list: Listing, may: bool, f: Form', 'put_also: a flag beside a form -> Option<Form>'),
    (1, 'expected_references/src/lib.rt', 'Triple::No => Id { x: 0, y: 0, z: 0 },', 'id_of: 0.0.0 stands for no identifier -> Option<Id>'),
    (1, 'expected_references/src/lib.rt', 'Number::No => 0,', 'number_in: 0 stands for no number -> Option<u32>'),
    (1, 'house_lines/src/lib.rt', 'there: bool, point: bool', 'put_further: a flag beside a field -> Option<Span>'),
    (1, 'line/src/lib.rt', '4 stands for more than three', 'Fields: a count of 4 stands for more than three -> an enum, or Option'),
    (1, 'made_out/src/lib.rt', 'fn side_made(kind: u8, b: u8)', 'side_made: 0 stands for no boundary -> Option of an enum'),
    (1, 'mend_passes/src/lib.rt', '0.0.0 where there is none', 'third_id and entry_on: 0.0.0 stands for none -> Option<Id>'),
    (1, 'moves/src/lib.rt', 'none, without points, where there is no such lane', 'lane_of and zone_of: a part without points stands for none -> Option<Part>'),
    (1, 'plain_order/src/lib.rt', 'MissionSaid::Is(_, _, _) => 0,', 'MissionSaid::number: 0 stands for none -> goes with Result'),
    (1, 'said_line/src/lib.rt', 'Said::Is(_, _, _, _) => 0,', 'Said::number: 0 stands for none -> goes with Result'),
    (1, 'reader/src/lib.rt', 'fn mdf_told(text: &[u8], fault: Fault) -> u32', 'mdf_told: 0 stands for no column -> Option<u32>'),
    (1, 'references/src/lib.rt', 'Triple::No => Id { x: 0, y: 0, z: 0 },', 'id_from: 0.0.0 stands for no identifier -> Option<Id>'),
    (1, 'refusal/src/lib.rt', 'column (0 where there is none)', 'Refusal: a line, a column of 0 stand for none -> Option<u32>'),
    (1, 'rows/src/lib.rt', 'A missing name is 0, 0.', 'Stretch: 0, 0 stands for a missing name -> Option<Stretch>'),
    (1, 'unpacked_rows/src/lib.rt', 'fn word_at(bytes: &[u8], at: usize, skip: usize) -> u32', 'word_at: 0 stands for no bytes -> Option<u32>'),
    (1, 'walk/src/lib.rt', '    pub line: u32,', 'Seen: a line of 0 stands for not met -> Option<u32>'),
    (1, 'yard_check/src/main.rt', 'fn load_asked<', "asked: a flag beside the MDF's name in five functions -> Option<&[u8]>"),
    (2, 'judge/src/lib.rt', 'let i = rndf_keyword(s);', 'kind_of of judge and of mission_judge -> a trait of the two files'),
    (2, 'look_up/src/lib.rt', 'fn two_others(', 'two_, four_ and eight_others, as the nine of scan -> one over a test'),
    (2, 'mission/src/lib.rt', 'MissionLine::Blank(e) => {', 'the walks of network and mission, and what they gather -> one over a trait of the two files'),
    (2, 'mission_place/src/lib.rt', 'pub fn is_over(self) -> bool', 'Place and MissionPlace: start, is_over, index, has, opted, cell, refuses -> a trait of places'),
    (2, 'packed_frame/src/lib.rt', 'fn stretch_of(start: u32, size: u32)', 'is name_of_size of unpacked_rows'),
    (2, 'packed_parts/src/lib.rt', 'if is_exit(bytes, at, spots, points, end) {', 'are_checkpoints, are_exits; are_zone_exits, are_zone_checkpoints: so many records, each with a test -> one with a closure'),
    (2, 'packed_rows/src/lib.rt', 'if is_point(bytes, at) {', 'are_records_of, are_points, are_lanes: so many records, each with a test -> one with a closure'),
    (2, 'plain_word/src/lib.rt', 'fn pair(a: u8, b: u8) -> u64', 'pair, two_at, four_at, eight_at are those of word'),
    (2, 'plain_word/src/lib.rt', 'pub fn boundary_at(', 'keyword_at and boundary_at -> one over a table'),
    (2, 'read_rows/src/lib.rt', 'pub fn segment_at(', 'ten .._at that differ in the row -> a trait of rows: its stride, its words, the row of words'),
    (2, 'records/src/lib.rt', 'fn put_segment(', 'eight put_.. that differ in the row -> that trait'),
    (2, 'rows/src/lib.rt', 'pub fn store_segment(', 'ten store_.. that differ in the row -> that trait'),
    (2, 'unpacked_rows/src/lib.rt', 'fn segment_told(', 'eight .._told that differ in the row -> that trait'),
    (2, 'scan/src/lib.rt', 'pub fn separator_from(', 'byte_from, two_from, separator_from, not_separator_from and the five like it differ in the test -> one with a closure, as position'),
    (2, 'scan/src/lib.rt', 'fn two_without(', 'two_, four_, eight_ of without, plain and inside: nine that differ in the test -> three over a test'),
    (2, 'summary/src/main.rt', 'fn first(s: &[u8], n: usize)', 'first of shown, again in house, summary, reader_vectors and writer_vectors'),
    (2, 'yard_check/src/main.rt', 'const SEGMENT_WORDS', 'the same eight sizes of tables in seven programs -> in one crate, as functions of the bytes'),
    (2, 'yard_reach/src/main.rt', 'fn spot_point(first: u32, z: u32)', 'is in_part of references'),
    (3, 'house_lines/src/lib.rt', 'let a = put_pass(text, from, 1, out, at);', 'put_passes: six calls, rank by rank -> for'),
    (4, 'house_lines/src/lib.rt', 'if same(word, b"exit") {', 'rank_of and is_first compare word by word -> match'),
    (4, 'mission_progress/src/lib.rt', 'name: name_at(start, length),', 'file_after: a row made anew to change one field -> ..file'),
    (4, 'output/src/lib.rt', '(0 - (z as i64)) as u32', 'put_coordinate -> unsigned_abs'),
    (4, 'output/src/lib.rt', '(n / 256) as u8', 'put_u16_be, put_u32_be -> to_be_bytes'),
    (4, 'packed_rows/src/lib.rt', 'a as usize * 256 + b as usize', 'pair, two_at, four_at -> from_be_bytes'),
    (4, 'plain_word/src/lib.rt', 'a as u64 + 256 * b as u64', 'pair, two_at, four_at, eight_at -> u64::from_le_bytes'),
    (4, 'progress/src/lib.rt', 'let named = file_row(named(start, length), version, date);', 'file_named, version_told, date_told, segment_named, lane_wide, zone_named, spot_wide: a row made anew to change one field -> the field is set'),
    (4, 'records/src/lib.rt', '(n / 256 % 256) as u8', 'put_short -> to_be_bytes'),
    (4, 'records/src/lib.rt', '4294967295 - (size - 1)', 'put_signed -> cast_unsigned and to_be_bytes'),
    (4, 'shown/src/lib.rt', 'let three = same(first(s, 3)', 'is_order_mark -> starts_with'),
    (4, 'unpacked_rows/src/lib.rt', 'let below = (4294967295 - word) as i32;', 'signed_of -> cast_signed'),
    (4, 'word/src/lib.rt', 'a as u64 + 256 * b as u64', 'pair, two, four, eight -> u64::from_le_bytes'),
    (4, 'yard/src/lib.rt', 'const NO_MISSION_FILE', 'values of nothing but zeros written out, in refused and taken too -> derive Default'),
    (5, 'expected_references/src/lib.rt', 'fn put_before(', 'put_before, put_number, put_part, put_list_end: pen, head and count of a list -> a struct with methods'),
    (5, 'marks/src/lib.rt', 'pub fn is_marked(marks: &[u8; 4096], number: u16)', 'marks in 4096 bytes, in three crates -> a struct with methods'),
    (5, 'place_table/src/lib.rt', 'pub fn rndf_cell(table: &[[u8; 30]; 27]', 'a table lent to every function that looks a cell up -> a type of its own, with what the tables are as its invariant'),
    (6, 'expected_words/src/lib.rt', '    pub count: u8,', 'Form: three items and how many of them count -> an array with its length, or Options'),
    (6, 'line/src/lib.rt', '    pub count: u8,', 'Fields: three spans and how many of them count -> an array with its length, or Options'),
    (6, 'made_out/src/lib.rt', 'const SHAPE: [u8; 30]', 'SHAPE, ORDER_SHAPE: tables beside the kinds -> methods of the enums'),
    (6, 'mend_lines/src/lib.rt', '    pub since: [bool; 31],', 'Before: a flag for each kind by its number -> a set of kinds'),
    (6, 'place/src/lib.rt', '    pub first: bool,', 'Given: three flags by number -> a set of options'),
    (6, 'rows/src/lib.rt', 'pub const SEGMENT_STRIDE', 'rows as words of a flat table by strides -> slices of rows'),
    (6, 'search/src/lib.rt', 'work[at] = (top + 2) as u32;', 'a stack of links within the words of the work space -> an enum of marks, or Vec'),
    (6, 'unpacked_rows/src/lib.rt', '    pub segments: usize,', 'Places beside Counts: where each table begins, and how many rows -> one Table of each'),
    (7, 'expected/src/lib.rt', 'fn put_of_rndf(', 'put_of_rndf: a step by number -> a method of the enum of refusals'),
]

Place = collections.namedtuple('Place', 'point at what holder members')
Fn = collections.namedtuple('Fn', 'file line name owner params result clauses body start note')
Type = collections.namedtuple('Type', 'file line kind name parts')


# ## Reading a file

class File:
    def __init__(self, path):
        with open(path, encoding='utf-8') as f:
            self.text = f.read()
        self.path = os.path.relpath(path, ROOT)
        self.crate = self.path.split('/')[1]
        self.lines = self.text.split('\n')
        # the same length without comments and without what stands in strings
        self.code = re.sub(r"//[^\n]*|b?\"(?:\\.|[^\"\\])*\"|b'(?:\\.|[^'\\])'", blank, self.text)

    def line(self, offset):
        return self.text.count('\n', 0, offset) + 1

    def note(self, line):
        "The comment right above a line."
        i = line - 2
        while i >= 0 and re.match(r'\s*(//|#\[)', self.lines[i]):
            i -= 1
        return ' '.join(l.strip()[2:].strip() for l in self.lines[i + 1:line - 1] if l.strip().startswith('//'))

    def kept(self, line):
        "The reason why what stands on this line is kept."
        m = KEPT.search(self.lines[line - 1])
        above, near = line - 2, line - 4
        while not m and above >= 0 and self.lines[above].strip() and (above >= near or re.match(r'\s*(//|#\[)', self.lines[above])):
            m = KEPT.search(self.lines[above])
            above -= 1
        return m and m[1]


KEPT = re.compile(r'// Kept as it is: (.*)')


def blank(m):
    s = m[0]
    return ' ' * len(s) if s.startswith('//') else s[:2] + '_' * (len(s) - 3) + s[-1] if s[0] == 'b' else s[0] + '_' * (len(s) - 2) + s[-1]


def closing(code, at):
    "Behind the bracket that closes the one at `at`."
    depth = 0
    for i in range(at, len(code)):
        depth += (code[i] in '([{') - (code[i] in ')]}')
        if depth == 0:
            return i + 1


def behind_generics(code, at):
    depth = 0
    for i in range(at, len(code)):
        depth += (code[i] == '<') - (code[i] == '>' and code[i - 1] != '-')
        if depth == 0:
            return i


def cut(text):
    "At the commas outside brackets."
    text = text.replace('->', ' \u2192')
    parts, depth, last = [], 0, 0
    for i, c in enumerate(text):
        depth += (c in '([{<') - (c in ')]}>')
        if c == ',' and depth == 0:
            parts.append(text[last:i])
            last = i + 1
    return [' '.join(p.split()) for p in parts + [text[last:]] if p.strip()]


# up to the bracket of a clause, of the body, or the end of what has no body
CLAUSE = re.compile(r'(?:\[(?:\[[^]]*\]|[^][])*\]|[^{;[])*?(?:\b(requires|ensures)\s*\w*\s*\{|[{;])')


def functions(f):
    impls = [(m.start(), closing(f.code, m.end() - 1), m[1]) for m in re.finditer(r'^impl(?:<[^>]*>)? (?:\w[^{]* for )?(\w+)[^{]*\{', f.code, re.M)]
    for m in re.finditer(r'\bfn (\w+)', f.code):
        opens = f.code.index('(', behind_generics(f.code, m.end()))
        behind = closing(f.code, opens)
        body = behind
        clauses = []
        while True:
            c = CLAUSE.match(f.code, body)
            if not c[1]:
                break
            body = closing(f.code, c.end() - 1)
            clauses.append((c[1], ' '.join(f.text[c.end():body - 1].split())))
        if c[0].endswith(';'):
            continue
        result = re.match(r'\s*(?:->\s*([^{]*?))?\s*(?:where[^{]*|requires[^{]*|ensures[^{]*)?\{', f.code[behind:])
        params = [tuple(p.removeprefix('mut ').split(': ', 1)) for p in cut(f.code[opens + 1:behind - 1]) if ': ' in p]
        start = c.end() - 1
        owner = next((name for a, b, name in impls if a < m.start() < b), None)
        line = f.line(m.start())
        yield Fn(f, line, m[1], owner, params, result and result[1] or '', clauses, f.code[start:closing(f.code, start)], start, f.note(line))


def types(f):
    for m in re.finditer(r'^(?:pub )?(struct|enum) (\w+)(?:<[^>]*>)?\s*([({])', f.code, re.M):
        inside = f.code[m.end():closing(f.code, m.end() - 1) - 1]
        yield Type(f, f.line(m.start()), m[1], m[2], [p.removeprefix('pub ') for p in cut(inside)])


FILES = [File(p) for p in sorted(glob.glob(os.path.join(ROOT, 'crates/*/src/**/*.rt'), recursive=True))]
FNS = [fn for f in FILES for fn in functions(f)]
TYPES = [t for f in FILES for t in types(f)]
OWN = {t.name for t in TYPES}


def place(point, f, line, what, holder=None, members=()):
    return Place(point, (f, line), what, holder, list(members) or [(f, line)])


def named(fn):
    return f'{fn.file.crate}::' + (f'{fn.owner}::' if fn.owner else '') + fn.name


def grouped(point, members, what):
    "One place of several functions or types."
    return place(point, members[0].file, members[0].line, what, members=[(m.file, m.line) for m in members])


def tokens(code):
    return re.findall(r"b?\"_*\"|b'_*'|[\w◌]+|[^\w\s]", code)


WORDS = set('if else while for in let mut return match self fn pub ref as break continue loop true false impl struct enum bool len'.split())
NAME = re.compile(r"[\w◌]|b\"|b'")


def shape(code):
    "The tokens, each name and number taken for the place where it came first, every type of number for one."
    first = {}
    return tuple('number' if re.fullmatch(NUMBER, t) else t if t in WORDS or not NAME.match(t) else first.setdefault(t, len(first)) for t in tokens(code))


# ## The points

def point_1():
    for t in TYPES:
        if t.kind == 'enum':
            yield from own_enum(t)
    for f in FILES:
        yield from numbers_for_none(f)
    for fn in FNS:
        if re.fullmatch(NUMBER, fn.result) and fn.name not in ('word', 'digit') and (NONE_SAID.search(fn.note) or re.search(r'\bNO_[A-Z]+\b', fn.body)):
            yield place(1, fn.file, fn.line, f'{named(fn)} answers a {fn.result} that may stand for none -> Option')
        if (1, named(fn)) in NOT:
            continue
        handed = sum(len(p.findall(fn.body)) for p in HANDED_ON)
        if handed:
            yield place(1, fn.file, fn.line, f'{named(fn)} hands on a refusal or none by hand, {times(handed)} -> ?')
    uses = collections.defaultdict(list)
    for fn in FNS:
        for family in {KINDS.get(name) for name, kind in fn.params if kind == 'u8' or (name, kind) == ('file', 'u32')} | {answered(fn)}:
            if (1, named(fn)) not in NOT:
                uses[fn.file.crate, family].append(fn)
    for t in TYPES:
        for family in {KINDS.get(part.split(': ')[0]) for part in t.parts if part.endswith(': u8')}:
            uses[t.file.crate, family].append(t)
    for (_, family), members in uses.items():
        if family:
            yield grouped(1, members, f'{family} is a number in {len(members)} signatures and types -> an enum')


HANDED_ON = [re.compile(p.replace('NONE', '|'.join(NOTHING | FAULTS)).replace('FAULT', 'Fault|Refused|Bad|Wrong')) for p in [
    r'else \{\s*return [A-Z]\w*::(?:NONE)\b',
    r'let [\w:]+ = (\w+) else \{\s*return \1;',
    r'if let [A-Z]\w*::(?:FAULT)\(\w+\) = [^{]*\{\s*return [A-Z]\w*::(?:FAULT)\b',
    r'[A-Z]\w*::(?:FAULT)\((\w+)\) => (?:return )?[A-Z]\w*::(?:FAULT)\(\1\)',
]]
NONE_SAID = re.compile(r'\b(?:[A-Z]+_[A-Z]+|\d+)`? (?:where|without|until)\b|, or \d+\b|no kind where')


def times(n):
    return 'once' if n == 1 else f'{n} times'


def own_enum(t):
    names = [re.match(r'\w+', v)[0] for v in t.parts]
    held = dict(zip(names, (v[len(n):].strip('()') for n, v in zip(names, t.parts))))
    bad = [n for n in names if n in FAULTS or held[n] in ('Fault', 'Refusal')]
    full = [n for n in names if held[n]]
    none = [n for n in names if not held[n] and n in NOTHING]
    value = next((held[n] for n in full if n not in bad), '')
    value = f'({value})' if ',' in value or not value else value
    better = None
    if len(names) == 2 and full and bad:
        better = f'Result<{value}, ..>'
    elif len(names) == 2 and len(full) == 1:
        better = f'Option<{value}>'
    elif len(full) == 1 and len(names) > 2:
        better = f'Result<{value}, ..> with an enum of what is the matter'
    elif none and set(names) == set(none + bad):
        better = 'Result<(), ..> with an enum of the others'
    elif none and bad:
        better = 'Result<Option<..>, ..>'
    elif none and full:
        better = 'Option of what the others say'
    if better:
        yield place(1, t.file, t.line, f'enum {t.name} {{{", ".join(t.parts)}}} -> {better}')
    for n in names:
        if re.search(r'\bu8\b', held[n]) and n not in ('Byte', 'Two'):
            yield place(1, t.file, t.line, f'{t.name}::{n}({held[n]}): a number for a kind or a refusal -> an enum')


def numbers_for_none(f):
    consts = [(f.line(m.start(1)), m[1], m[2], m[3]) for m in re.finditer(r'^ *(?:pub )?const (\w+): ([^=]+) = ([^;]+);', f.code, re.M)]
    run = [c for c in consts if c[2] == 'u8' and re.fullmatch(r'\d+', c[3])]
    if len(run) >= 3:
        yield place(1, f, run[0][0], f'{len(run)} constants of type u8, {run[0][1]} to {run[-1][1]}, name what is one of several -> an enum with derives')
    for line, name, kind, _ in consts:
        if re.fullmatch(NUMBER + '|Feet', kind) and re.match(r'NO_|MISSING|TOO_|BLANK|LEFT_OUT', name):
            yield place(1, f, line, f'const {name}: {kind}, a number for none -> Option or Result, or a variant')


def answered(fn):
    "The family of the number that a function answers, by its name."
    if fn.result == 'u8' and 'fields' not in fn.name:
        for word, name in (('shape', 'shape'), ('kind', 'kind'), ('keyword', 'kind'), ('first_order', 'kind'), ('index', 'row'), ('row', 'row'), ('rank', 'rank'), ('cell', 'cell'), ('side', 'boundary'), ('boundary', 'boundary'), ('number', 'number')):
            if word in fn.name:
                return KINDS[name]


def point_2():
    parent = {}

    def top(i):
        while parent.get(i, i) != i:
            i = parent[i]
        return i
    items = [fn for fn in FNS if fn.body.count('\n') >= 3 and len(tokens(fn.body)) >= 14 and (2, named(fn)) not in NOT]
    same = collections.defaultdict(list)
    for i, fn in enumerate(items):
        same[shape(f'({", ".join(": ".join(p) for p in fn.params)}) {fn.result} {fn.body}')].append(i)
    for group in same.values():
        for a, b in itertools.combinations(group, 2):
            if len(tokens(items[a].body)) >= TWIN_TOKENS or akin(items[a], items[b]):
                parent[top(b)] = top(a)
    plain = [tuple('n' if re.match(r'\d', t) else t if t in WORDS or not NAME.match(t) else 'i' for t in tokens(fn.body)) for fn in items]
    for a, b in itertools.combinations(range(len(items)), 2):
        if min(len(plain[a]), len(plain[b])) >= NEAR_TOKENS and akin(items[a], items[b]) and top(a) != top(b):
            m = difflib.SequenceMatcher(None, plain[a], plain[b], autojunk=False)
            if m.real_quick_ratio() >= NEAR and m.quick_ratio() >= NEAR and m.ratio() >= NEAR:
                parent[top(b)] = top(a)
    groups = collections.defaultdict(list)
    for i, fn in enumerate(items):
        groups[top(i)].append(fn)
    for t in TYPES:
        if len(t.parts) >= 2:
            groups[t.kind, t.name if t.kind == 'enum' else '', tuple(sorted(t.parts))].append(t)
    for members in groups.values():
        if len(members) > 1:
            names = [named(m) if isinstance(m, Fn) else f'{m.kind} {m.file.crate}::{m.name}' for m in members]
            yield grouped(2, members, f'{len(members)} twins: {", ".join(names)} -> a generic one, a const parameter, or a trait')


def akin(a, b):
    "Their names share a word that says what they are about."
    return bool(set(a.name.split('_')) & set(b.name.split('_')) - STOP)


STOP = set('put say with of at is are to the no and as in has kastepuhm'.split())


def point_3():
    for fn in FNS:
        for m, body in loops(fn):
            moved = [v for v in re.findall(r'\b[a-z_]\w*\b', m[1]) if re.search(rf'\b{v} (?:[+-]?=) ', body)]
            if moved and '.read(' not in body and not re.search(r'/ 2\b', body):
                if re.search(r'\b(?:e|stop) \+ 1|far_byte_from|next\.from', body):
                    what = 'a walk over lines -> an iterator over lines'
                elif re.search(r'\+= 8|\bk \+ 8', body):
                    what = 'by eights -> chunks_exact(8)'
                elif re.search(r'\breturn\b', body):
                    what = 'up to the first that .. -> for with return, or all, any, position, try_fold'
                else:
                    what = 'counted by hand -> for, or a chain'
                yield place(3, fn.file, fn.file.line(fn.start + m.start()), f'while {m[1].strip()} in {named(fn)}: {what}', holder=(fn.file, fn.line))
        for m in re.finditer(r'\bfor (\w+) in [^{]*?\b(\w+)\.len\(\) \{', fn.body):
            body = fn.body[m.end():closing(fn.body, m.end() - 1)]
            uses, own = len(re.findall(rf'\b{m[1]}\b', body)), len(re.findall(rf'\b{m[2]}\[{m[1]}\]', body))
            if own:
                yield place(3, fn.file, fn.file.line(fn.start + m.start()), f'for {m[1]} in ..{m[2]}.len() in {named(fn)} -> ' + ('for x in it, or fill' if own == uses else 'zip, enumerate or copy_from_slice'), holder=(fn.file, fn.line))
        flat = ' '.join(fn.body.split())
        for pattern, better in METHODS:
            if re.search(pattern, flat):
                yield place(3, fn.file, fn.line, f'{named(fn)} by hand -> {better}')


# what a body spells out -> the library's method
METHODS = [(re.compile(p), better) for p, better in [
    (r'\bif (\w+)(?: as usize)? < (\w+)\.len\(\) \{ \2\[\1(?: as usize)?\] \} else \{ \w+ \}', 'get with copied and unwrap_or'),
    (r'&\w+\[[^\]]*\.\.[^\]]*\] \} else \{ &?\w+(?:\[\.\.0\])? \}', 'get with a range and unwrap_or'),
    (r'if (\w+) == 0 \{ 0 \} else \{ \1(?: as usize)? - 1 \}|if 0 < (\w+) \{ \(\2 - 1\) as usize \} else \{ 0 \}|if (\w+) < (\w+) \{ \4 - \3 \} else \{ 0 \}|if (\w+) < (\w+) \{ return 0; \} \5 - \6 \}', 'saturating_sub'),
    (r'if ([\w.]+(?:\(\))?) <=? ([\w.]+(?:\(\))?) \{ \1 \} else \{ \2 \}', 'min'),
    (r'if (\w+) < (?:4294967295|65535|255) \{ (?:return )?\1 as \w+(?: \+ 1)?;? \}', 'try_from with unwrap_or(MAX), or saturating_add'),
    (r'if \d+ <= (\w+) \{ \1 <= \d+ \} else \{ false \}|if (\w+) < b?\S+ \{ return false; \} \2 <= \S+ \}$', 'a range that contains it'),
    (r'== FULL\b|FULL as usize <=', 'checked_add or saturating_add'),
]]


def loops(fn):
    for m in re.finditer(r'\bwhile ([^{]*)\{', fn.body):
        yield m, fn.body[m.end():closing(fn.body, m.end() - 1)]


def point_4():
    for fn in FNS:
        what = (4, named(fn)) not in NOT and by_derive(fn)
        if what:
            yield place(4, fn.file, fn.line, f'{named(fn)} by hand -> {what}')
        for m in re.finditer(r'\b([A-Z]\w+) \{((?:\s*\w+: [^,{}]+,?)+)\s*\}', fn.body):
            copied = [v for a, v, b in re.findall(r'(\w+): (\w+)\.(\w+)\b(?!\()', m[2]) if a == b]
            if not what and len(copied) >= 2 and len(set(copied)) == 1:
                yield place(4, fn.file, fn.file.line(fn.start + m.start()), f'{m[1]} copied field by field from {copied[0]} in {named(fn)} -> the value itself, ..{copied[0]} or From', holder=(fn.file, fn.line))
        for m in re.finditer(r'(\w+)::(\w+)\(([^()]*)\) => \1::\2\(\s*\3,?\s*\)', ' '.join(fn.body.split())):
            yield place(4, fn.file, fn.line, f'{m[1]}::{m[2]} taken apart and made again in {named(fn)} -> the value itself')


def by_derive(fn):
    inner = ' '.join(fn.body.strip()[1:-1].split())
    kinds = [k.lstrip('&').removeprefix('mut ') for _, k in fn.params]
    own = [k for k in kinds if k in OWN]
    arms = re.findall(r'=> ([^,{}]+?)(?:,|$)', inner)
    context = {('out', '&mut [u8]'), ('at', 'usize'), ('to', '&mut W')}
    if re.match(r'(is_)?(same|equal|eq)(_|$)', fn.name) and 'while' in inner:
        return '=='
    if re.fullmatch(r'match \w+ \{.*\}', inner) and arms and all(a.strip() in ('true', 'false') for a in arms):
        return 'matches!, is_some, or == by a derive'
    if not kinds and re.fullmatch(r'[\w:]+(?: \{.*\}|\(.*\))', inner) and not re.search(r'[1-9]|[A-Z]\w*::\w+\(|\btrue\b|\bself\b', inner) and re.search(r'\b(?:0|false|no_\w+\(\))', inner):
        return 'derive Default'
    if len(kinds) == 1 and fn.owner in OWN and fn.name == 'new' and kinds[0] == 'u32':
        return 'TryFrom<u32>'
    if len(kinds) == 1 and re.fullmatch(NUMBER, kinds[0]) and re.fullmatch(rf'\w+ as {NUMBER}', inner):
        return f'{fn.result}::from'
    if len(kinds) == 1 and fn.result in OWN and not fn.owner and ((own and own[0] != 'Statement' and re.match(r'match \w+ \{|[A-Z]\w+ \{ (?:\w+: \w+\.\w+,? ?)+\}$', inner)) or fn.name == 'edition_of'):
        return f'impl From<{kinds[0]}> for {fn.result}'
    if re.match(r'(put|say|show)_', fn.name) and own and own[-1] not in ('Edition', 'Listing', 'Place', 'MissionPlace', 'Before') and set(fn.params) & context and len(set(fn.params) - context) <= 2:
        return f'impl Display for {own[-1]}, or its method that takes a pen'


def point_5():
    windows = collections.defaultdict(list)
    for fn in FNS:
        params = [p for p in fn.params if p not in PEN]
        for i in range(len(params)):
            for j in range(i + 3, len(params) + 1):
                windows[tuple(params[i:j])].append(fn)
    covered = collections.defaultdict(set)
    for run, members in sorted(windows.items(), key=lambda w: (-len(w[0]), -len(w[1]))):
        left = [fn for fn in members if not set(run) & covered[id(fn)]]
        if len(left) >= 3 and (len(run) >= 4 or len(left) >= 4) and not {name for name, _ in run} <= LOOSE:
            for fn in left:
                covered[id(fn)] |= set(run)
            yield grouped(5, left, f'{len(left)} functions of {len({fn.file.crate for fn in left})} crates take ({", ".join(": ".join(p) for p in run)}) -> a struct with methods')
    facts = collections.defaultdict(list)
    for fn in FNS:
        for kind, text in fn.clauses:
            *premises, last = re.split(' → (?![^(]*\))', text)
            for fact in re.split(' × ', text) if kind == 'requires' else premises + ([last] if 'result' not in last else []):
                facts[re.sub(r'^\((.*)\)$', r'\1', fact.strip())].append(fn)
    for fact, members in facts.items():
        members = list({id(fn): fn for fn in members}.values())
        if len(members) >= 3:
            yield grouped(5, members, f'{len(members)} functions say {{ {fact} }} -> a type with an invariant, or a method of a struct')


PEN = {('out', '&mut [u8]'), ('at', 'usize')}
LOOSE = set('s text from i x a b m n to kind row'.split())


def point_6():
    pens, tables, cuts = (collections.defaultdict(list) for _ in range(3))
    for fn in FNS:
        if PEN <= set(fn.params):
            pens[fn.file.crate].append(fn)
        if any(re.match(r'&(mut )?\[([ui]32|u8;)', k) and n in ('u32', 'usize') and re.fullmatch(r'count|\w+_count|used|n|m', b) for (_, k), (b, n) in zip(fn.params, fn.params[1:])):
            tables[fn.file.crate].append(fn)
        cuts[fn.file.crate] += [fn] * len([1 for name in re.findall(r'let mut (\w+) = \[', fn.body) if re.search(rf'\bfirst\(&?{name}, \w+\)|&{name}\[\.\.\w+\]', fn.body)])
        for m, body in loops(fn):
            if re.search(r'/ 2\b', body):
                yield place(6, fn.file, fn.file.line(fn.start + m.start()), f'{named(fn)} halves by hand -> partition_point', holder=(fn.file, fn.line))
    for groups, what in (pens, 'functions take an output and how much of it is written, and answer the new length -> a pen that holds both'), (tables, 'functions take a table and how many of its rows count -> a slice of just these, or a table type'), (cuts, 'arrays cut to a length beside them -> a buffer type that holds both'):
        for members in groups.values():
            if members:
                yield grouped(6, members, f'{len(members)} {what}')


def point_7():
    for fn in FNS:
        for m in re.finditer(r'\bmatch (\w[\w.]*) \{', fn.body):
            body = fn.body[m.end():closing(fn.body, m.end() - 1) - 1]
            patterns = re.findall(r'(?:^|,|\})\s*([^,{}=]+?) =>', body)
            calls = [re.match(r'\s*\{?\s*((?:self\.)?[a-z_]\w*(?:::[a-z_]\w*)?)\(', a) for a in re.split('=>', body)[1:]]
            if len(calls) >= 4 and sum(map(bool, calls)) >= len(calls) - 1 and len({c[1] for c in calls if c}) > 2 and len([p for p in patterns if '(' in p]) * 3 <= len(patterns):
                yield place(7, fn.file, fn.file.line(fn.start + m.start()), f'match {m[1]} with {len(calls)} arms in {named(fn)}, each a call of its own -> the step from who knows it: a closure, a trait, or the value itself', holder=(fn.file, fn.line))


def point_8():
    for crate in sorted({f.crate for f in FILES}):
        paths = glob.glob(os.path.join(ROOT, f'crates/{crate}/proofs/**/Answers.antt'), recursive=True)
        answers = 0
        for p in paths:
            with open(p, encoding='utf-8') as f:
                answers += len(re.findall(r'^(?:abbrev )?pub [^\n]* : goal\.', f.read(), re.M))
        if answers:
            yield place(8, next(f for f in FILES if f.crate == crate), 1, f'{answers} answers in {len(paths)} files -> those that the check finds alone go')


def by_reading(point):
    for p, path, sought, what in BY_READING:
        f = next((f for f in FILES if f.path == f'crates/{path}'), None)
        line = p == point and f and next((i for i, l in enumerate(f.lines, 1) if sought in l), None)
        if line:
            yield place(p, f, line, f'{what} (by reading)')


def reason(p):
    for f, line in (p.members if p.point == 2 else [p.at]) + ([p.holder] if p.holder else []):
        said = f.kept(line)
        only = said and re.match(r'\(([\d, ]+)\)', said)
        if said and (not only or str(p.point) in re.findall(r'\d', only[1])):
            return said


def main(args):
    only = int(args[args.index('--point') + 1]) if '--point' in args else None
    crate = args[args.index('--crate') + 1] if '--crate' in args else None
    rows = []
    for n, name in POINTS.items():
        if only in (None, n):
            found = [p for p in list(globals()[f'point_{n}']()) + list(by_reading(n)) if crate in (None, p.at[0].crate)]
            kept = [p for p in found if reason(p)]
            rows.append(f'{n}  {name:42} {len(found):6} {len(kept):6} {len(found) - len(kept):6}')
            if n == 8:
                rows.append(f'   {sum(int(p.what.split()[0]) for p in found)} answers in all')
            if '--list' in args:
                for p in sorted(found, key=lambda p: (p.at[0].path, p.at[1])):
                    print(f'{n}  {p.at[0].path}:{p.at[1]}  {p.what}' + (f'  KEPT: {reason(p)}' if reason(p) else ''))
                    if '--members' in args and len(p.members) > 1:
                        print('\n'.join(f'       {f.path}:{line}' for f, line in p.members))
    print(f'{"point":46}found   kept  to do')
    print('\n'.join(rows))


main(sys.argv[1:])
