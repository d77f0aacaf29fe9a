#!/usr/bin/env python3
"""crates-trim.py TREE [--write]: what each line of TREE/crates.txt has to list.

A crate needs the crates that its files name (src: `use c::x`, `c::x`; src, specs, proofs: `Rattle·c`) and those whose types its code reaches:
through the signatures of the functions that it uses, the fields of the types that these name, and the methods of such types.
Prints, for each line that is longer than that, how many words stay of how many; with --write writes crates.txt with these words alone, in the
order in which they stand, and what is needed and not listed behind them. Without --write a crate that is needed and not listed is an error
(status 1). Kit libraries (libc, io, os, check, bytes) count by their names alone. Lines of comment stay."""
import os, re, sys

tree = sys.argv[1]
KIT = {'std', 'check', 'libc', 'io', 'os', 'bytes'}

def plain(text):
    text = re.sub(r'/\*.*?\*/', ' ', text, flags=re.S)
    return re.sub(r'//[^\n]*', ' ', text)

def balanced(text, at):
    "the text from the bracket at `at` to its partner"
    depth = 0
    for i in range(at, len(text)):
        if text[i] in '{([':
            depth += 1
        elif text[i] in '})]':
            depth -= 1
            if depth == 0:
                return text[at:i + 1]
    return text[at:]

class Crate:
    def __init__(self, name):
        self.name = name
        folder = f'{tree}/crates/{name}'
        self.src = self.ghost = ''
        for f in sorted(os.listdir(folder + '/src')) if os.path.isdir(folder + '/src') else []:
            if f.endswith('.rt'):
                text = plain(open(f'{folder}/src/{f}').read())
                self.ghost += text
                # contracts and ghost lines are antt, and name crates as antt does
                text = re.sub(r'ghost use[^;]*;', ' ', text)
                self.src += text + '\n'
        self.antt = self.ghost
        for part in ('specs', 'proofs'):
            for where, _, files in os.walk(f'{folder}/{part}'):
                for f in files:
                    if f.endswith('.antt'):
                        text = open(os.path.join(where, f)).read()
                        self.antt += re.sub(r'^\s*--[^\n]*', '', text, flags=re.M) + '\n'
        self.cites = {c for c in re.findall(r'Rattle·([A-Za-z_0-9]+)', self.antt)} - {name}
        # name in this crate -> (crate, item)
        self.uses = {}
        for path in re.findall(r'\buse\s+([A-Za-z_0-9:]+)\s*;', self.src):
            parts = path.split('::')
            self.uses[parts[-1]] = (parts[0], parts[-1] if len(parts) > 1 else None)
        self.types, self.methods, self.functions, self.constants = {}, {}, {}, {}
        for m in re.finditer(r'\b(struct|enum)\s+([A-Za-z_0-9]+)\s*([({;])', self.src):
            self.types[m.group(2)] = '' if m.group(3) == ';' else balanced(self.src, m.start(3))
        for m in re.finditer(r'\btype\s+([A-Za-z_0-9]+)\s*=([^;]*);', self.src):
            self.types[m.group(1)] = m.group(2)
        inside = []
        for m in re.finditer(r'\bimpl\s+([A-Za-z_0-9]+)\s*\{', self.src):
            body = balanced(self.src, m.end() - 1)
            inside.append((m.start(), m.end() + len(body), m.group(1)))
        for m in re.finditer(r'\bfn\s+([A-Za-z_0-9]+)\s*\(', self.src):
            args = balanced(self.src, m.end() - 1)
            rest = self.src[m.end() - 1 + len(args):]
            signature = args + ' ' + re.split(r'\b(?:ensures|requires|where)\b|\{', rest, maxsplit=1)[0]
            owner = next((t for a, b, t in inside if a <= m.start() < b), None)
            if owner:
                self.methods.setdefault(owner, []).append(signature + ' ' + owner)
            else:
                self.functions[m.group(1)] = signature
        for m in re.finditer(r'\bconst\s+([A-Za-z_0-9]+)\s*:\s*([^=;]*)', self.src):
            self.constants[m.group(1)] = m.group(2)

crates = {}
lines = open(f'{tree}/crates.txt').read().split('\n')
for l in lines:
    body = l.split('#')[0]
    if ':' in body:
        n = body.split(':')[0].strip()
        crates[n] = Crate(n)

def words_of(owner, text):
    "the (crate, item) pairs that a piece of `owner`'s code names"
    found = set()
    for path in re.findall(r'\b([A-Za-z_][A-Za-z_0-9]*(?:::[A-Za-z_][A-Za-z_0-9]*)*)', text):
        parts = path.split('::')
        head = parts[0]
        if head in owner.uses:
            c, item = owner.uses[head]
            found.add((c, item if item else (parts[1] if len(parts) > 1 else None)))
        elif (head in crates or head in KIT) and len(parts) > 1:
            found.add((head, parts[1]))
        elif head in owner.types:
            found.add((owner.name, head))
    return found

def reached(x):
    "the crates whose types the code of x reaches, and those that it names"
    named = {c for c, _ in x.uses.values()} | {c for c, _ in words_of(x, x.src)}
    todo = [(c, i) for c, i in words_of(x, x.src)] + list(x.uses.values())
    seen, types = set(), set()
    while todo:
        c, i = todo.pop()
        if (c, i) in seen or c not in crates:
            continue
        seen.add((c, i))
        d = crates[c]
        pieces = []
        if i in d.types:
            types.add(c)
            pieces = [d.types[i]] + d.methods.get(i, [])
        elif i in d.functions:
            pieces = [d.functions[i]]
        elif i in d.constants:
            pieces = [d.constants[i]]
        for p in pieces:
            todo.extend((a, b) for a, b in words_of(d, p) if b in crates.get(a, d).types or a not in crates)
    return named - {x.name}, types - {x.name}

bad, before, after, kept = 0, 0, 0, []
for l in lines:
    body = l.split('#')[0]
    if ':' not in body:
        kept.append(l)
        continue
    n, listed = body.split(':', 1)
    n, listed = n.strip(), listed.split()
    x = crates[n]
    named, types = reached(x)
    needed = {c for c in named | types | x.cites if c in crates or c in KIT} - {'std', n}
    missing = needed - set(listed)
    if missing:
        print(f'{n}: needed and not listed: {" ".join(sorted(missing))}')
        bad = 1
    stay = [c for c in listed if c in needed] + (sorted(missing) if '--write' in sys.argv else [])
    before += len(listed)
    after += len(stay)
    if stay != listed:
        print(f'{n}: {len(stay)} of {len(listed)}' + (f' (by types alone: {" ".join(sorted((types & set(listed)) - named - x.cites))})' if (types & set(listed)) - named - x.cites else ''))
    kept.append((f'{n}: ' + ' '.join(stay)).rstrip() if stay else f'{n}:')
print(f'{after} of {before} words are needed')
if '--write' in sys.argv:
    open(f'{tree}/crates.txt', 'w').write('\n'.join(kept))
    sys.exit(0)
sys.exit(bad)
