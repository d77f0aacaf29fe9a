import re,subprocess
L=subprocess.check_output("find /tmp/gen -path '*network*proofs/walk_lines/Lts.antt'",shell=True,text=True).split()[0]
t=open(L).read().split('\n')
par={}
i=0
while i<len(t):
    m=re.match(r'\s+pub record (After-\S+|Start|At-\S+|In-\S+|Then\d+|Else\d+) :',t[i])
    if m and '·own' not in m.group(1):
        j=i+1
        while j<len(t) and t[j].strip():
            q=re.match(r'\s+pub before : (\S+)',t[j])
            if q: par[m.group(1)]=q.group(1)
            j+=1
    i+=1
def path(a,b):
    n=0
    while a!=b:
        a=par[a]; n+=1
    return 'c'+' .before'*n
TB='segments lanes zones spots points checkpoints stops exits'.split()
def A(at): return path(at,'Start')+' .args'
def loop(at): return path(at,'At-loop')+' .loop'
def mem(l): return f'(memory ({l} .gained) '+' '.join(f'({l} .{x})' for x in TB)+')'
def names(at):
    return f'''    let A = {A(at)} in
    let s = A .text .now in
    let l = {loop(at)} in
    let t = A .table .now in
    let h = {path(at,'In-loop')} .loop-test .taken in
    let ls = {path(at,'After-line-said')} .line-said in
    let few = few-bytes (length s) (l .inv .5) in
'''
src=open('/work/w/tools/walk_scaf.antt').read()
def setb(name,body,unf=''):
    global src
    pat=re.compile(r'(?m)^('+re.escape(name)+r' : tie\.Need-'+re.escape(name)+r' Inv-loop μ-loop\n)'+re.escape(name)+r' c( κs)? = \?')
    assert pat.search(src),name
    src=pat.sub(lambda m: m.group(1)+unf+f'{name} c{m.group(2) or ""} = '+body,src)
# invariant
head=re.search(r'(?m)^Inv-loop (.*) =\n    \?',src)
args0=' '.join(x+'₀' for x in TB)
src=src.replace(head.group(0),'Inv-loop '+head.group(1)+' =\n    (from ≤ length text + 1) × (line ≤ from + 1) × (total gained ≤ line) × (lengths (memory gained '+' '.join(TB)+') ≡ lengths (memory noProgress '+args0+')) × (table ≡ rndf-table → onwards (inner edition) text place (memory gained '+' '.join(TB)+') from line ≡ reachedIn (inner edition) text (memory noProgress '+args0+')) × (length text ≤ most)')
head=re.search(r'(?m)^μ-loop (.*) =\n    \?',src)
src=src.replace(head.group(0),'μ-loop '+head.group(1)+' = length text + 1 - from')
setb('returns',f"λ right. sym (too-long ({path('Then1','Start')} .args .text .now) _ _ (c .if1 .taken))",'unfolding reachedIn\n')
for n in ['start','none','line-said','cell','refused','moved','row','store']:
    setb(n+'-requires','search needs')
setb('after-requires','tt')
for n in ['enum-known-e','enum-known-kind','enum-known-n']: setb(n,'search needs')
setb('loop-holds',f"(omega arith, omega arith, rw (c .none .ensures) (omega arith), refl, λ right. rw (c .none .ensures, c .before .start .ensures) (sym (not-too-long ({path('After-none','Start')} .args .text .now) _ _ (omega arith))), omega arith)",'unfolding reachedIn\n')
says_said='''    let k = {k} .given .0 in
    let says : (k .1 .1 .0 ≡ reach (stopsBy (Byte 10)) s (l .from)) × (judged t (stretch s (l .from) (k .1 .1 .0)) (l .from) (l .place) ≡ stated (judging t) (k .0) (k .1 .0) (l .place)) = rw ({k} .given .1) at (ls .ensures h few) in
'''
says_blank='''    let e = {k} .given .0 .0 in
    let says : (e ≡ reach (stopsBy (Byte 10)) s (l .from)) × (judged t (stretch s (l .from) e) (l .from) (l .place) ≡ blank) = rw ({k} .given .1) at (ls .ensures h few) in
'''
# add-from (blank arm) at After-known-told
at='After-known-told'
setb('add-from','\n'+names(at)+says_blank.format(k=path(at,'After-e')+' .e')+'    place-fits (length s) (l .from) e (l .inv .5) (within s (l .from) e h (says .0))')
at='After-after'
setb('add-from-2','\n'+names(at)+says_said.format(k=path(at,'After-kind')+' .kind')+'    place-fits (length s) (l .from) (k .1 .1 .0) (l .inv .5) (within s (l .from) (k .1 .1 .0) h (says .0))')
for n in range(1,25):
    nm='same-length' if n==1 else f'same-length-{n}'
    at='Then2' if n<=8 else ('After-known-told3' if n<=16 else 'After-loop')
    setb(nm,f'ap (λ (x : Lengths). x .{TB[(n-1)%8]}) ({loop(at)} .inv .3)')
at='Then2'
setb('returns-2','\n'+names(at)+says_said.format(k=path(at,'After-kind')+' .kind')+f'''    let cell = {path(at,'After-cell')} .cell in
    let n = {path(at,'After-refused')} .refused in
    λ right. sym (refused-line (inner (A .edition)) t right s (l .from) (k .1 .1 .0) h (says .0) (l .place) {mem('l')} (l .line) (k .0) (cell .result) (n .result) (k .1 .0) (says .1) (cell .ensures) (n .ensures) (c .if2 .taken)) ∙ l .inv .4 right''')
at='After-store-arg8'
setb('cast-row','\n'+f'''    let l = {loop(at)} in
    let h = {path(at,'In-loop')} .loop-test .taken in
    record {{ fits = omega (arith, h, l .inv .5) }}''')
at='After-known-told3'
setb('returns-3','\n'+names(at)+f'''    let n = {path(at,'After-n')} .n in
    let says : judged t (stretch s (l .from) (reach (stopsBy (Byte 10)) s (l .from))) (l .from) (l .place) ≡ bad (n .given .0 .0) = rw (n .given .1) at (ls .ensures h few) in
    λ right. sym (bad-line (inner (A .edition)) t right s (l .from) (reach (stopsBy (Byte 10)) s (l .from)) h refl (l .place) {mem('l')} (l .line) (n .given .0 .0) says) ∙ l .inv .4 right''')
at='At-match-came'
setb('add-line','\n'+f'''    let l = {loop(at)} in
    let h = {path(at,'In-loop')} .loop-test .taken in
    line-fits (length ({A(at)} .text .now)) (l .from) (l .line) (l .inv .5) h (l .inv .1)''')
def both(blank,said):
    return '\n'+names(at)+f'''    ⊎-elim
    (λ w.
{blank})
    (λ w.
{said})
    (c .match .came)'''
ind=lambda x: ''.join('  '+y+'\n' for y in x.rstrip('\n').split('\n'))
setb('loop-less',both(ind(says_blank.format(k='w .1'))+'      next-less (length s) (l .from) e (c .match .from) (w .13) (within s (l .from) e h (says .0))',ind(says_said.format(k='w .1'))+'      next-less (length s) (l .from) (k .1 .1 .0) (c .match .from) (w .43) (within s (l .from) (k .1 .1 .0) h (says .0))'))
M='(memory (c .match .gained) '+' '.join(f'(c .match .{x})' for x in TB)+')'
def step(w0,pl,ga): pass
blank=ind(says_blank.format(k='w .1'))+f'''      let inside = within s (l .from) e h (says .0) in
      let same : {M} ≡ {mem('l')} = λ i. memory (w .12 i) {' '.join(f'(w .{3+n} i)' for n in range(8))} in
      let bounds = next-within (length s) (l .from) e (l .line) (c .match .from) (w .13) inside (l .inv .1) in
      (
        bounds .0,
        bounds .1,
        rw (w .12) (no-more (total (l .gained)) (l .line) (l .inv .2)),
        ap lengths same ∙ l .inv .3,
        λ right. goes-on (inner (A .edition)) s (c .match .place) (l .place) {M} {mem('l')} (c .match .from) e (l .line) (w .11) same (w .13) ∙ sym (blank-line (inner (A .edition)) t right s (l .from) e h (says .0) (l .place) {mem('l')} (l .line) (says .1)) ∙ l .inv .4 right,
        l .inv .5,
      )'''
said=ind(says_said.format(k='w .1'))+f'''      let e = k .1 .1 .0 in
      let st = k .1 .0 in
      let inside = within s (l .from) e h (says .0) in
      let rows = few-rows (length s) (l .from) (l .line) (total (l .gained)) (l .inv .5) h (l .inv .1) (l .inv .2) in
      let counted = w .32 .ensures ∙ counts st (l .gained) rows in
      let same : {M} ≡ put (place (l .from) (l .line)) st {mem('l')} = (λ i. memory (w .42 i) {' '.join(f'(w .{33+n} i)' for n in range(8))}) ∙ stepped st (w .15 .result) (l .from) (l .line) (w .32 .result) {mem('l')} _ (w .16 .ensures) (w .15 .ensures) counted in
      let bounds = next-within (length s) (l .from) e (l .line) (c .match .from) (w .43) inside (l .inv .1) in
      (
        bounds .0,
        bounds .1,
        grown _ _ _ (l .line) (w .42 ∙ counted) (l .inv .2),
        ap lengths same ∙ put-long _ _ _ ∙ l .inv .3,
        λ right. goes-on (inner (A .edition)) s (c .match .place) (w .6 .result) {M} (put (place (l .from) (l .line)) st {mem('l')}) (c .match .from) e (l .line) (w .41) same (w .43) ∙ sym (moved-line (inner (A .edition)) t right s (l .from) e h (says .0) (l .place) {mem('l')} (l .line) (k .0) (w .3 .result) (w .4 .result) st (says .1) (w .3 .ensures) (w .4 .ensures) (w .5 .left) (w .6 .result) (w .6 .ensures)) ∙ l .inv .4 right,
        l .inv .5,
      )'''
setb('loop-again',both(blank,said))
at='After-loop'
setb('returns-4','\n'+f'''    let A = {A(at)} in
    let l = {loop(at)} in
    λ right. sym (at-end (inner (A .edition)) (A .text .now) (l .place) {mem('l')} (l .from) (l .line) (omega arith)) ∙ l .inv .4 right''')
uses='''-- `network::walk_lines` meets its contract. Assumes nothing.
use mathlib.Core.Path.{_≡_, refl, sym, ap, _∙_}
use mathlib.Core.Logic.{⊎-elim}
use Prim.Native.Nat.{ℕ, _+_, _-_, _≤_, _<_}
use native.Mathlib.Omega.{arith}
use lib.ListN.{length}
use borrow.Author.Needs.{needs}
use Rattle·scan.specs.Reach.{reach, stopsBy}
use Rattle·scan.specs.declared.Until.the-variants.{Byte}
use Rattle·grammar.specs.PlaceTable.{rndf-table}
use Rattle·edition.specs.Editions.{inner}
use Rattle·judge.specs.Judging.{blank, bad}
use Rattle·judge.specs.RndfLine.{judging}
use Rattle·plain_parts.specs.Stands.{stretch}
use Rattle·plain_fields.specs.LineStands.{stated}
use Rattle·progress.specs.After.{total, noProgress}
use Rattle·progress.proofs.Shown.{counts}
use Rattle·walk.specs.Standing.{place}
use Rattle·refusal.specs.Size.{most}
use Rattle·refusal.proofs.Sized.{too-long, not-too-long}
use Rattle·network·specs.specs.Storing.{Memory, memory}
use Rattle·network·specs.specs.Reading.{put}
use Rattle·network·specs.specs.Reaching.{reachedIn}
use Rattle·network·proofs.proofs.Steps.{Lengths, lengths, put-long, stepped, grown}
use Rattle·network·proofs.proofs.Onward.{judged, onwards, blank-line, bad-line, refused-line, moved-line, goes-on, at-end, within, next-within, next-less, no-more, place-fits, line-fits, few-bytes, few-rows}
use Rattle·network·proofs.proofs.walk_lines.Statement.{statement}
use Rattle·network·proofs.proofs.walk_lines.Tie as tie
'''
body=src[src.index('abbrev Inv-loop'):]
body=re.sub(r'-- src/lib.rt:\d+:\d+\n','',body)
open('/work/w/speed/crates/network/proofs/walk_lines/Proof.antt','w').write(uses+'\n'+body)
