import re,subprocess
L=subprocess.check_output("find /tmp/gen -path '*network*proofs/fill_lines/Lts.antt'",shell=True,text=True).split()[0]
t=open(L).read().split('\n'); par={}
i=0
while i<len(t):
    m=re.match(r'\s+pub record (After-\S+|Start|At-\S+|In-\S+|Then\d+|Else\d+) :',t[i])
    if m and '·own' not in m.group(1):
        j=i+1
        while j<len(t) and t[j].strip():
            q=re.match(r'\s+pub before : (\S+)',t[j])
            if q: par[m.group(1)]=q.group(1)
            j+=1
    i+=1
def path(a,b):
    n=0
    while a!=b: a=par[a]; n+=1
    return 'c'+' .before'*n
P='/work/w/speed/crates/network/proofs/fill_lines/Proof.antt'
src=open(P).read()
def setb(name,body,unf=''):
    global src
    pat=re.compile(r'(?m)^('+re.escape(name)+r' : tie\.Need-'+re.escape(name)+r'\n)'+re.escape(name)+r' c( κs)? = .*$')
    assert pat.search(src),name
    src=pat.sub(lambda m: m.group(1)+unf+f'{name} c{m.group(2) or ""} = '+body,src)
for n in range(1,25):
    nm='same-length' if n==1 else f'same-length-{n}'
    at=['After-known-told','Then1','Else1'][(n-1)//8]
    setb(nm,path(at,'After-walk-lines')+' .walk-lines .kept .1 .1 .1'+' .1'*((n-1)%8)+' .0')
def common(at):
    return f'''
    let A = {path(at,'Start')} .args in
    let right = {path(at,'After-rndf-table')} .rndf-table .ensures in
    let w = {path(at,'After-walk-lines')} .walk-lines in
'''
TB='segments lanes zones spots points checkpoints stops exits'.split()
M='(memory noProgress '+' '.join(f'(A .{x} .now)' for x in TB)+')'
def m(x): return x
tail=f'filled-so (inner (A .edition)) (A .text .now) {M}'
setb('returns',common('After-known-told')+f"    ap ending (rw ({path('After-known-told','After-walked')} .walked .given .1) at (w .ensures right)) ∙ {tail}")
for nm,at,br in [('returns-2','Then1','taken'),('returns-3','Else1','left')]:
    setb(nm,common(at)+f"    rw (← ({path(at,'After-is-over')} .is-over .ensures), c .if1 .{br}) at (ap ending (rw ({path(at,'After-walked2')} .walked2 .given .1) at (w .ensures right))) ∙ {tail}")
uses='''-- `network::fill_lines` meets its contract. Assumes nothing.
use mathlib.Core.Path.{ap, _∙_}
use borrow.Author.Needs.{needs}
use Rattle·edition.specs.Editions.{inner}
use Rattle·progress.specs.After.{noProgress}
use Rattle·network·specs.specs.Storing.{memory}
use Rattle·network·specs.specs.Reaching.{ending}
use Rattle·network·proofs.proofs.Onward.{filled-so}
use Rattle·network·proofs.proofs.fill_lines.Statement.{statement}
use Rattle·network·proofs.proofs.fill_lines.Tie as tie

'''
i=src.index('rndf-table-requires : tie')
body=re.sub(r'-- src/lib.rt:\d+:\d+\n','',src[i:])
open(P,'w').write(uses+body)
