#!/usr/bin/env python3
"""trim38.py TREE: names of expected_law/specs/Expected that need not be read move to specs/Short (Digit, AllowsSome, Taken, Stands); ExpectedBehind's constructors get names of their own; import-aware."""
import re, sys, os, glob
T=sys.argv[1]
MOVED={'Digit','AllowsSome','Taken','Stands'}
REN={'listed':'without-count','counted':'with-count'}
USE=re.compile(r'^(\s*(?:pub |ghost |unfoldable )*use )(Rattle·expected_law(?:·specs)?\.specs\.Expected)(\.\{([^}]*)\})(;?)$')
for f in glob.glob(T+'/crates/expected*/**/*.antt',recursive=True)+glob.glob(T+'/crates/expected*/**/*.rt',recursive=True)+glob.glob(T+'/crates/expected*/must-fail/*.edit'):
    if f.endswith('expected_law/specs/Expected.antt') or f.endswith('expected_law/specs/Short.antt'): continue
    s=open(f).read(); out=[]; ch=False
    aliases=re.findall(r'use Rattle·expected_law(?:·specs)?\.specs\.Expected as ([\w-]+)',s)
    renamed=[]
    for line in s.split('\n'):
        m=USE.match(line)
        if m:
            names=[n.strip() for n in m.group(4).split(',')]
            keep=[n for n in names if n.split()[0] not in MOVED]
            gone=[n for n in names if n.split()[0] in MOVED]
            if 'ExpectedBehind' in names:
                keep=[REN.get(n,n) for n in keep]
                renamed=[n for n in names if n in REN]
            if keep!=names:
                ch=True
                if keep: out.append(m.group(1)+m.group(2)+'.{'+', '.join(keep)+'}'+m.group(5))
                if gone: out.append(m.group(1)+m.group(2).replace('.Expected','.Short')+'.{'+', '.join(gone)+'}'+m.group(5))
                continue
        out.append(line)
    t='\n'.join(out)
    for a in aliases:
        u=re.sub(r'(?<![\w.])'+re.escape(a)+r'\.(listed|counted)(?![\w-])',lambda m:a+'.'+REN[m.group(1)],t)
        if u!=t: t=u; ch=True
        if re.search(r'(?<![\w.])'+re.escape(a)+r'\.(Digit|AllowsSome|Taken|Stands)(?![\w-])',t): print('by hand:',f,a)
    if renamed: print('look at:',f,renamed)
    if ch: open(f,'w').write(t); print('changed',f)
