# series.py SNAP MESSAGES.json : commits the change from HEAD to SNAP in groups by path; the last group takes the rest
import sys,json,subprocess,os,fnmatch
def sh(*a,**k): return subprocess.run(a,check=True,capture_output=True,text=True,**k).stdout
snap=sys.argv[1]; groups=json.load(open(sys.argv[2]))
ext={'io','libc','os'}
def crates_txt():
    out=[]
    for l in sh('git','show',snap+':crates.txt').split('\n'):
        if l.startswith('#') or not l.strip(): out.append(l); continue
        k,_,v=l.partition(':')
        if not os.path.isdir('crates/'+k): continue
        ws=[w for w in v.split() if w in ext or os.path.isdir('crates/'+w)]
        out.append((k+': '+' '.join(ws)).rstrip())
    open('crates.txt','w').write('\n'.join(out))
for g in groups:
    msg,pats=g['message'],g['paths']
    changes=[l.split('\t') for l in sh('git','diff','--no-renames','--name-status','HEAD',snap).split('\n') if l]
    def hit(p): return not pats or any(fnmatch.fnmatch(p,x) or p.startswith(x.rstrip('/')+'/') or p==x for x in pats)
    for st,p in changes:
        if p=='crates.txt' or not hit(p): continue
        if st=='D': sh('git','rm','-q',p)
        else: sh('git','checkout',snap,'--',p)
    if pats: crates_txt()
    else: sh('git','checkout',snap,'--','crates.txt')
    sh('git','add','-A')
    if not sh('git','diff','--cached','--name-only').strip(): print('EMPTY',msg[:60]); continue
    sh('git','commit','-q','-m',msg)
    print(sh('git','log','-1','--format=%h %s').strip()[:120], sh('git','show','--stat','--format=','HEAD').strip().split('\n')[-1])
print('left:',sh('git','diff','--stat','HEAD',snap).strip() or 'nothing')
