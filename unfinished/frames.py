import subprocess,re,sys
o=subprocess.check_output(['objdump','-d',sys.argv[1]],text=True)
name=None;frames={};calls={}
for l in o.split('\n'):
    m=re.match(r'^[0-9a-f]+ <(.*)>:',l)
    if m: name=m.group(1); frames[name]=0; calls[name]=set(); continue
    if not name: continue
    m=re.search(r'stp\s+\w+, \w+, \[sp, #-(\d+)\]!',l)
    if m: frames[name]+=int(m.group(1))
    m=re.search(r'str\s+\w+, \[sp, #-(\d+)\]!',l)
    if m: frames[name]+=int(m.group(1))
    m=re.search(r'sub\s+sp, sp, #0x([0-9a-f]+)(, lsl #12)?',l)
    if m: frames[name]+=int(m.group(1),16)*(4096 if m.group(2) else 1)
    m=re.search(r'\bbl\s+[0-9a-f]+ <(.*?)(\+0x[0-9a-f]+)?>',l)
    if m: calls[name].add(m.group(1))
r=subprocess.check_output(['objdump','-dr',sys.argv[1]],text=True)
name=None
for l in r.split('\n'):
    m=re.match(r'^[0-9a-f]+ <(.*)>:',l)
    if m: name=m.group(1); continue
    m=re.search(r'R_AARCH64_(?:CALL26|JUMP26)\s+(.*)$',l)
    if m and name: 
        t=m.group(1).strip()
        t=re.sub(r'^\.text\.','',t); calls[name].add(t)
import functools
sys.setrecursionlimit(10000)
@functools.lru_cache(None)
def deep(n):
    best=(0,())
    for c in calls.get(n,()):
        if c in frames and c!=n:
            d=deep(c)
            if d[0]>best[0]: best=d
    return (frames.get(n,0)+best[0],((n,frames.get(n,0)),)+best[1])
for f in sys.argv[2:]:
    d=deep(f); print(d[0]); print('\n'.join('   %6d %s'%(b,a) for a,b in d[1]))
