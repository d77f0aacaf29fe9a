#!/usr/bin/env python3
"""edit-times.py TREE CRATE/EDIT..: tries must-fail edits as `rt must-fail` does (a copy of the crate, `rattle check`), and prints processor seconds, wall seconds, the verdict and the first error of each.
CRATE alone: the crate as it is."""
import os, re, resource, shutil, subprocess, sys, time
tree = os.path.abspath(sys.argv[1])
home = '/opt/rattle'; own = f'{home}/on/{os.uname().machine}'
deps = {}
for l in open(tree + '/crates.txt'):
    l = l.split('#')[0]
    if ':' in l:
        n, r = l.split(':'); deps[n.strip()] = r.split()
tmp = f'/dev/shm/{os.path.basename(tree)}'
os.makedirs(tmp, exist_ok=True)
for one in sys.argv[2:]:
    crate, _, edit = one.partition('/')
    where = f'{tmp}/try-{os.getpid()}'
    shutil.rmtree(where, ignore_errors=True); os.makedirs(where)
    for p in ('src', 'specs', 'proofs'):
        if os.path.isdir(f'{tree}/crates/{crate}/{p}'): shutil.copytree(f'{tree}/crates/{crate}/{p}', f'{where}/{p}')
    bad = None
    if edit:
        f = old = None
        for line in open(f'{tree}/crates/{crate}/must-fail/{edit}.edit').read().split('\n'):
            if line.startswith('file: '): f = line[6:]
            elif line.startswith('old: '): old = line[5:]
            elif line.startswith('new:'):
                new = line[4:]; new = new[1:] if new.startswith(' ') else new
                s = open(f'{where}/{f}').read()
                if s.count(old) != 1: bad = f'old stands {s.count(old)} times'; break
                open(f'{where}/{f}', 'w').write(s.replace(old, new))
    if bad: print(f'## {one}: BAD {bad}'); continue
    root = f'{where}/src/main.rt' if os.path.exists(f'{where}/src/main.rt') else f'{where}/src/lib.rt'
    words = ['--crate-name', crate, root, '--extern', f'std={own}/rlib/std.rlib']
    for d in deps[crate]:
        words += ['--extern', f'{d}={tree}/target/rlib/{d}.rlib' if os.path.isdir(f'{tree}/crates/{d}/src') else f'{d}={own}/rlib/{d}.rlib']
    words += ['-L', f'dependency={tree}/target/rlib', '-L', f'dependency={own}/rlib', '--antt-project', f'{home}/logic/antt-project.json', '--logic-built', f'{own}/logic-built']
    a = resource.getrusage(resource.RUSAGE_CHILDREN); t = time.time()
    r = subprocess.run(['nice', '-n', '10', f'{own}/bin/rattle', 'check'] + words, capture_output=True, text=True, env={**os.environ, 'TMPDIR': tmp})
    b = resource.getrusage(resource.RUSAGE_CHILDREN)
    cpu = b.ru_utime + b.ru_stime - a.ru_utime - a.ru_stime
    out = (r.stdout + r.stderr).replace(where + '/', '').split('\n')
    verdict = 'refused' if r.returncode == 1 and any(l.startswith('logic=not-proved') for l in out) else 'PROVED' if r.returncode == 0 else f'BAD exit {r.returncode}'
    print(f'## {one}: {verdict}, {cpu:.1f} s processor, {time.time() - t:.1f} s wall', flush=True)
    if r.returncode:
        i = next((k for k, l in enumerate(out) if ': error' in l), None)
        if i is None: i = next((k for k, l in enumerate(out) if 'error' in l), 0)
        print('\n'.join('   ' + x[:400] for x in out[i:i + 9]), flush=True)
        print('   errors: ' + ' '.join(sorted({l.split(': error')[0] for l in out if ': error' in l})[:8])[:400], flush=True)
    shutil.rmtree(where, ignore_errors=True)
