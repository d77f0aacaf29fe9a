#!/usr/bin/env python3
"""tables-renames.py TREE [--dry]: names of issue 36, section 4, that had two meanings in files to believe get one each, and
short names that are nothing to believe move to inner files. Import-aware: specs, proofs, ghost uses in src, must-fail edits.
May be run again, also on a tree where others added files; prints what it changed and what has to be looked at by hand."""
import re, sys, os, glob

TREE = sys.argv[1]
DRY = '--dry' in sys.argv

# (crate, specs module, old, new): the definition itself is renamed too
RENAMES = [
    ('output', 'Output', 'zeros', 'zero-bytes'),
    ('output', 'Output', 'filled', 'padded'),
    ('replies', 'Replies', 'most', 'longest'),
    ('route_law', 'Moves', 'points', 'points-declared'),
    ('edition', 'Editions', 'numbered', 'edition-numbered'),
]
# (crate, specs module, names, new specs module of the same crate): import lines only; the definitions are moved by hand
MOVES = [
    ('replies', 'Replies', ('AcceptsRndf', 'RefusesRndf', 'AcceptsMdf', 'RefusesMdf'), 'Short'),
    ('law', 'Tables', ('along', 'over-spots', 'zone-rows-from'), 'Along'),
]
WHICH = [w for w in ('renames', 'moves') if '--only-' + w in sys.argv] or ['renames', 'moves']
if 'renames' not in WHICH: RENAMES = []
if 'moves' not in WHICH: MOVES = []
if '--only' in sys.argv:
    keep = sys.argv[sys.argv.index('--only') + 1].split(',')
    RENAMES = [r for r in RENAMES if r[0] in keep]
    MOVES = [m for m in MOVES if m[0] in keep]

USE = re.compile(r'^(?P<pre>\s*(?:(?:old|new): )?(?:pub |ghost |unfoldable )*use )(?P<path>Rattle·[^\s{;]+?)(?P<what>\.\{(?P<names>[^}]*)\}| as (?P<alias>[\w-]+)|)(?P<end>;?\s*)$')
EDGE = r"[^\s(){};,.\[\]⌜⌝`]"

def modules(crate, mod):
    return {f'Rattle·{crate}.specs.{mod}', f'Rattle·{crate}·specs.specs.{mod}'}

def names_of(text):
    return [n.strip() for n in text.split(',') if n.strip()]

def token(old):
    """a whole word, but no field: neither `.old` nor `record { old = ..; old = .. }`"""
    o = re.escape(old)
    return re.compile(r'(?<!' + EDGE + r')(?<!\.)(?:(?<!\{ )(?<!; )' + o + '|' + o + r'(?! =))(?!' + EDGE + r')')

def code_sub(line, rx, new, rt):
    """outside comments; inside them only between backticks"""
    mark = '//' if rt else '--'
    m = re.search(r'(^|\s)' + mark + r'(\s|$)', line)
    cut = m.start() if m else len(line)
    code, comment = line[:cut], line[cut:]
    return rx.sub(new, code) + re.sub(r'`[^`]*`', lambda q: rx.sub(new, q.group(0)), comment)

def imports(lines):
    """[(line number, match)]"""
    return [(i, m) for i, l in enumerate(lines) for m in [USE.match(l)] if m]

def crate_of(path):
    return path.split('/crates/')[1].split('/')[0]

def spec_of(path):
    m = re.search(r'/crates/([^/]+)/specs/([\w/]+)\.antt$', path)
    return (m.group(1), m.group(2).replace('/', '.')) if m else None

files = sorted(f for e in ('antt', 'rt') for f in glob.glob(f'{TREE}/crates/**/*.{e}', recursive=True) if '/target/' not in f)
text = {f: open(f, encoding='utf-8').read() for f in files}
new_text = dict(text)

# modules that hand a renamed name on (pub use) have it renamed too
todo = list(RENAMES)
seen = set(todo)
for crate, mod, old, new in todo:
    for f in files:
        s = spec_of(f)
        if not s: continue
        for _, m in imports(text[f].split('\n')):
            if m.group('path') in modules(crate, mod) and 'pub ' in m.group('pre') and m.group('names') and {old, new} & set(names_of(m.group('names'))):
                r = (s[0], s[1], old, new)
                if r not in seen: seen.add(r); todo.append(r)
renames = todo

def scope(lines, path):
    """what is renamed in a file of these imports: bare tokens, aliased tokens"""
    bare, aliased = {}, []
    other = set()
    imp = imports(lines)
    own = spec_of(path)
    for _, m in imp:
        ns = names_of(m.group('names') or '')
        for n in ns:
            plain = n.split(' as ')[-1].strip()
            hit = any(m.group('path') in modules(c, d) and n in (o, w) for c, d, o, w in renames)
            if not hit: other.add(plain)
    for c, d, o, w in renames:
        here = own == (c, d)
        got_old = got_new = False
        for _, m in imp:
            if m.group('path') in modules(c, d):
                ns = names_of(m.group('names') or '')
                got_old |= o in ns
                got_new |= w in ns
                if m.group('alias'): aliased.append((m.group('alias'), o, w))
        if here and re.search(r'^\s*(abbrev|unfoldable|pub).* ' + re.escape(o) + r' :', '\n'.join(lines), re.M): got_old = True
        if got_old or (got_new and o not in other and not re.search(r'^\s*(?:pub )?' + re.escape(o) + r' :', '\n'.join(lines), re.M) and not here): bare[o] = w
    return bare, aliased

notes = []
def rename_line(line, path, bare, aliased, rt):
    m = USE.match(line)
    if m:
        if m.group('names') is None: return line
        ns = []
        for n in names_of(m.group('names')):
            first, _, rest = n.partition(' as ')
            for c, d, o, w in renames:
                if m.group('path') in modules(c, d) and first == o: first = w
            ns.append(first + (' as ' + rest if rest else ''))
        return m.group('pre') + m.group('path') + '.{' + ', '.join(ns) + '}' + m.group('end')
    for o, w in bare.items():
        after = code_sub(line, token(o), w, rt)
        if after != line and re.search(r'(record \{|; |let |pub )' + re.escape(o) + r' [:=]', line): notes.append(f'look: {path}: {line.strip()[:140]}')
        line = after
    for a, o, w in aliased:
        line = code_sub(line, re.compile(r'(?<!' + EDGE + r')(?<!\.)' + re.escape(a + '.' + o) + r'(?!' + EDGE + r')'), a + '.' + w, rt)
    return line

def move_imports(lines, path):
    out = []
    for line in lines:
        m = USE.match(line)
        if m:
            for c, d, names, target in MOVES:
                if m.group('path') not in modules(c, d): continue
                if m.group('alias'):
                    for n in names:
                        if re.search(r'(?<!' + EDGE + r')' + re.escape(m.group('alias') + '.' + n) + r'(?!' + EDGE + r')', '\n'.join(lines)): notes.append(f'by hand: {path}: {m.group("alias")}.{n} moved to {c}/specs/{target}')
                    continue
                ns = names_of(m.group('names') or '')
                go = [n for n in ns if n.split(' as ')[0] in names]
                if go and spec_of(path) != (c, target):
                    if text.get(path, '').startswith('-- WHAT A READER MUST BELIEVE'): notes.append(f'a file to believe uses an inner name: {path}: {go}')
                    stay = [n for n in ns if n not in go]
                    if stay: out.append(m.group('pre') + m.group('path') + '.{' + ', '.join(stay) + '}' + m.group('end'))
                    line = m.group('pre') + m.group('path').rsplit('.', 1)[0] + '.' + target + '.{' + ', '.join(go) + '}' + m.group('end')
        out.append(line)
    return out

for f in files:
    lines = text[f].split('\n')
    bare, aliased = scope(lines, f)
    rt = f.endswith('.rt')
    lines = [rename_line(l, f, bare, aliased, rt) for l in lines]
    new_text[f] = '\n'.join(move_imports(lines, f))

# must-fail edits: as the file that they change
for e in sorted(glob.glob(f'{TREE}/crates/*/must-fail/*.edit')):
    t = open(e, encoding='utf-8').read()
    out, target = [], None
    for line in t.split('\n'):
        if line.startswith('file: '): target = f'{TREE}/crates/{crate_of(e)}/{line[6:].strip()}'
        elif target and target in text and (line.startswith('old: ') or line.startswith('new: ')):
            bare, aliased = scope(text[target].split('\n'), target)
            head, rest = line[:5], line[5:]
            lead = re.match(r'\s*', rest).group(0)
            rest = rename_line(rest, e, bare, aliased, target.endswith('.rt'))
            moved = move_imports([rest], target)
            if moved != [rest]: notes.append(f'by hand: {e}: {rest.strip()[:120]}')
            line = head + rest
        out.append(line)
    text[e] = t
    new_text[e] = '\n'.join(out)

changed = [f for f in new_text if new_text[f] != text[f]]
for f in changed:
    print('changed', f[len(TREE.rstrip('/')) + 1:])
    if not DRY: open(f, 'w', encoding='utf-8').write(new_text[f])
for n in sorted(set(notes)): print(n)
print(len(changed), 'files')
