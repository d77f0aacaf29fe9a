#!/usr/bin/env python3
"""Issue 36: names with two meanings in files to believe get a name each.

    python3 faults-renames.py TREE            renames in TREE/crates (.antt, .rt, must-fail/*.edit)
    python3 faults-renames.py TREE --check    names the files that would change; status 1 if there are any

It goes by imports: in a file a name is renamed only where the file defines it, takes it from the module below by a `use` list, or says it behind
an alias of that module (`use .. as Law`, `Law.Fits`). An edit is treated as the file that it edits. To run it twice does nothing more.
"""
import os
import re
import sys

# (crate, module) -> what is renamed in it
RENAMES = {
    ('law', 'specs.Faults'): {'Sort': 'FieldKind', 'sort': 'kind-of-field', 'Fits': 'MissionFits', 'Follows': 'FollowsLeniently'},
    # the same meaning over statements: the same name
    ('grammar', 'specs.References'): {'Fits': 'MissionFits'},
    ('route_law', 'specs.Routes'): {'Begins': 'BeginsAtStart'},
}

# what may stand beside a name; a dot in front of it makes it a field or qualified
EDGE = r'\s(){}\[\],;`"⌜⌝'
USE = re.compile(r'^(?P<head>\s*(?:pub |unfoldable pub |ghost )*use )(?P<path>[^\s{;]+?)(?:\.\{(?P<names>[^}]*)\}|\s+as\s+(?P<alias>[^\s;]+))?;?\s*$')


def modules():
    """Every path that names one of the modules -> its renames."""
    found = {}
    for (crate, module), names in RENAMES.items():
        found[f'Rattle·{crate}.{module}'] = names
        found[f'Rattle·{crate}·{module.split(".")[0]}.{module}'] = names
    return found


MODULES = modules()


def imported(text):
    """What a text's `use` lines bring in: names to rename, and aliases of the modules."""
    names, aliases = {}, {}
    for line in text.split('\n'):
        m = USE.match(line)
        if not m or m.group('path') not in MODULES:
            continue
        table = MODULES[m.group('path')]
        if m.group('alias'):
            aliases.setdefault(m.group('alias'), {}).update(table)
        elif m.group('names') is not None:
            for item in m.group('names').split(','):
                words = item.split()
                # `Fits as Other`: only the list changes
                if len(words) == 1 and words[0] in table:
                    names[words[0]] = table[words[0]]
    return names, aliases


def defined(path):
    """What the file at this path of the tree defines of the modules."""
    parts = path.split('/')
    if len(parts) == 4 and parts[0] == 'crates' and path.endswith('.antt'):
        return RENAMES.get((parts[1], f'{parts[2]}.{parts[3][:-5]}'), {})
    return {}


def whole(name):
    return re.compile(rf'(?<![^{EDGE}]){re.escape(name)}(?![^{EDGE}.])')


def said(line, names, aliases):
    """A line that is no `use`: renamed; in its comment only names that are no plain words."""
    at = re.search(r'(?:(?<=\s)|^)(?:--|//)\s', line)
    code, comment = (line[:at.start()], line[at.start():]) if at else (line, '')
    for old, new in names.items():
        code = whole(old).sub(new, code)
        if old[0].isupper():
            comment = whole(old).sub(new, comment)
    for alias, table in aliases.items():
        for old, new in table.items():
            code = re.compile(rf'(?<![^{EDGE}]){re.escape(alias)}\.{re.escape(old)}(?![^{EDGE}.])').sub(f'{alias}.{new}', code)
    return code + comment


def renamed(text, names, aliases):
    out = []
    for line in text.split('\n'):
        m = USE.match(line)
        if m:
            table = MODULES.get(m.group('path'))
            if table and m.group('names') is not None:
                list_ = m.group('names')
                for old, new in table.items():
                    list_ = whole(old).sub(new, list_)
                line = line[:m.start('names')] + list_ + line[m.end('names'):]
        else:
            line = said(line, names, aliases)
        out.append(line)
    return '\n'.join(out)


def read(path):
    with open(path, encoding='utf-8') as f:
        return f.read()


def scope(tree, path):
    """The names and aliases that a file of the tree sees. Of the file as it is now, or as it was before it was renamed."""
    text = read(os.path.join(tree, path))
    names, aliases = imported(text)
    # a list that is renamed already still tells that the old name came from there
    for line in text.split('\n'):
        m = USE.match(line)
        if m and m.group('path') in MODULES and m.group('names') is not None:
            present = {w.split()[0] for w in m.group('names').split(',') if w.split()}
            for old, new in MODULES[m.group('path')].items():
                if new in present and not brought(text, old, m.group('path')):
                    names[old] = new
    for old, new in defined(path).items():
        names[old] = new
    return names, aliases


def brought(text, name, but):
    """Whether a text takes or defines this name elsewhere."""
    for line in text.split('\n'):
        m = USE.match(line)
        if m and m.group('path') != but and m.group('names') is not None and name in [w.split()[-1] for w in m.group('names').split(',') if w.split()]:
            return True
    return bool(re.search(rf'^\s*(?:pub |abbrev |unfoldable )*(?:record |data )?{re.escape(name)}\s*(?:\(|:|=|\{{)', text, re.M))


def main():
    if len(sys.argv) < 2 or sys.argv[1].startswith('-'):
        sys.exit(__doc__)
    tree, check = sys.argv[1], '--check' in sys.argv[2:]
    files = []
    for folder, inner, names in os.walk(os.path.join(tree, 'crates')):
        inner[:] = sorted(d for d in inner if d != 'target')
        files += [os.path.relpath(os.path.join(folder, n), tree) for n in sorted(names) if n.endswith(('.antt', '.rt', '.edit'))]
    scopes = {p: scope(tree, p) for p in files if not p.endswith('.edit')}
    changed = []
    for path in files:
        old = read(os.path.join(tree, path))
        if path.endswith('.edit'):
            new, seen = [], ({}, {})
            for line in old.split('\n'):
                if line.startswith('file: '):
                    seen = scopes.get('/'.join(path.split('/')[:2] + [line[6:].strip()]), ({}, {}))
                elif line.startswith(('old: ', 'new: ')):
                    line = line[:5] + said(line[5:], *seen)
                new.append(line)
            new = '\n'.join(new)
        else:
            new = renamed(old, *scopes[path])
        if new != old:
            changed.append(path)
            if not check:
                with open(os.path.join(tree, path), 'w', encoding='utf-8') as f:
                    f.write(new)
    print('\n'.join(changed))
    if check and changed:
        sys.exit(1)


if __name__ == '__main__':
    main()
