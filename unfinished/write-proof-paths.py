#!/usr/bin/env python3
import re,os,sys
gen='/tmp/h/t9gen'; crate='features'
IMPORTS='''use mathlib.Core.Path.{_≡_, refl, sym, ap, subst, _∙_}
use mathlib.Core.List.{_++_}
use Prim.Native.Nat.{ℕ, _+_, _-_, _≤_, _<_}
use native.Mathlib.Omega.{arith}
use borrow.Author.Needs.{needs}
use borrow.Author.Tests.{eq-eqb, ne-eqb, lt-ltb, le-ltb}
use lib.ListN.{length}
use Rattle·terms.specs.Ascii.{Bytes, ascii}
use Rattle·rows.specs.declared.LaneRow.{LaneRow}
use Rattle·rows.specs.declared.ZoneRow.{ZoneRow}
use Rattle·rows.specs.declared.SegmentRow.{SegmentRow}
use Rattle·rows.specs.declared.SpotRow.{SpotRow}
use Rattle·rows.specs.declared.CheckpointRow.{CheckpointRow}
use Rattle·number.specs.House.{houseInteger, housePair, houseTriple}
use Rattle·rows.specs.Read.{checkpointAt, laneAt, zoneAt, segmentAt, spotAt}
use Rattle·rows.specs.Name.{nameOf}
use Rattle·output.specs.Pen.{Pen, pen, put, Wrote}
use Rattle·output.proofs.Writing.{same, _then_}
use Rattle·features·specs.specs.Drawn.{each, steps, quoted, comma-from, position-at, position-from, position-back, positions, ring, lane-shape, perimeter-shape, named, lane, perimeter, behind-one, checkpoint, lane-from, segment-lanes, segment-from, all-lanes, perimeter-from, all-perimeters, Walk, walk, part-end, checkpoint-from, part-checkpoints, walk-to, part-walk, lane-walk, segment-walk, spot-walk, zone-walk, all-walk, drawn}
use Rattle·features·proofs.proofs.Loops.{each-all, each-again, each-done, steps-all, steps-again, steps-done, end-here, end-further, end-last}
'''
def eachloop(f, n, i, first='0'):
    inv='(%s-end ≡ %s) × (length out ≡ length out₀) × (put (pen out to) (each (%s) %s (%s - %s)) ≡ put (pen out₀ at) (each (%s) 0 %s))'
    return inv
O={}
def chain(*names): return ' then '.join('@%s .ensures'%n for n in names)
def kept(*names): return ' ∙ '.join('@%s .kept .0'%n for n in reversed(names))
O['put_lane_shape']={
 'returns':('ascii lane-shape','rw (eq-eqb _ _ (@if1 .taken)) (%s)'%chain('put-bytes','put-position','put-byte')),
 'returns-2':('ascii lane-shape','rw (ne-eqb _ _ (@if1 .left)) (%s)'%chain('put-bytes2','put-positions','put-bytes3')),
 'same-length':('',kept('put-bytes','put-position','put-byte')),
 'same-length-2':('',kept('put-bytes2','put-positions','put-bytes3')),
}
O['put_perimeter_shape']={
 'returns':('perimeter-shape','rw (lt-ltb _ _ (@if1 .taken)) (@put-lane-shape .ensures)'),
 'returns-2':('ascii perimeter-shape','rw (le-ltb _ _ (@if1 .left)) (%s)'%chain('put-bytes','put-ring','put-bytes2')),
 'same-length':('',kept('put-lane-shape')),
 'same-length-2':('',kept('put-bytes','put-ring','put-bytes2')),
}
O['put_named']={
 'returns':('ascii named','rw (eq-eqb _ _ (@if1 .taken)) (@put-bytes .ensures)'),
 'returns-2':('ascii named','rw (ne-eqb _ _ (@if1 .left)) (@put-bytes2 .ensures then same (ap quoted (@name-of .ensures)) (@put-quoted .ensures) then @put-bytes3 .ensures)'),
 'same-length':('',kept('put-bytes')),
 'same-length-2':('',kept('put-bytes2','put-quoted','put-bytes3')),
}
O['put_lane']={'returns':('ascii lane',chain('put-bytes','put-lane-shape','put-bytes2','put-pair','put-named')),'same-length':('',kept('put-bytes','put-lane-shape','put-bytes2','put-pair','put-named'))}
O['put_perimeter']={'returns':('ascii perimeter',chain('put-bytes','put-perimeter-shape','put-bytes2','put-pair','put-named')),'same-length':('',kept('put-bytes','put-perimeter-shape','put-bytes2','put-pair','put-named'))}
O['put_checkpoint']={
 'returns':('ascii checkpoint','@put-bytes .ensures then @put-position .ensures then @put-bytes2 .ensures then same (ap (houseTriple (@args .m) (@args .n)) (@behind-one .ensures ∙ ap (behind-one 0) (@points-before .ensures))) (@put-triple .ensures) then @put-bytes3 .ensures then @put-integer .ensures then @put-bytes4 .ensures'),
 'same-length':('',kept('put-bytes','put-position','put-bytes2','put-triple','put-bytes3','put-integer','put-bytes4'))}
def each_fn(fn, vars, f, n, i, unf_loop, unf_ret, w, keptnames, extra=''):
    pre={'inv':'(length out ≡ length out₀) × (put (pen out to) (each (%s) %s (%s - %s)) ≡ put (pen out₀ at) (each (%s) %s (%s)))'%(f['inv'],i,n['inv'],i,f['inv'],n.get('from','0'),n.get('all',n['inv'])),
         'mu':'%s - %s'%(n['inv'],i)}
    O[fn]={'INV':pre['inv'],'MU':pre['mu'],
     'loop-holds':('','(refl, %s)'%(('each-all (%s) _ (%s)'%(f['args'].replace('ARGS','@args'),n['args'].replace('ARGS','@args'))) if 'from' not in n else 'refl')),
     'loop-again':(unf_loop,'let l = @loop in\n    let a = @args in\n    (%s ∙ l .inv .0, each-again (%s) _ _ (l .%s) (%s) (omega arith) (%s) ∙ l .inv .1)'%(kept(*keptnames),f['args'].replace('ARGS','a'),i,n['args'].replace('ARGS','a'),w)),
     'same-length':('','@loop .inv .0'),
     'returns':(unf_ret,'let l = @loop in\n    let a = @args in\n    record { is = sym (l .inv .1) ∙ each-done (%s) _ (l .%s) (%s) (omega arith) }'%(f['args'].replace('ARGS','a'),i,n['args'].replace('ARGS','a')))}
    for nd in ('add-'+i,'loop-less'): O[fn][nd]=('','omega arith')
each_fn('put_segment',None,{'inv':'lane-from text lanes points m row','args':'lane-from (ARGS .text .now) (ARGS .lanes .now) (ARGS .points .now) (ARGS .m) (ARGS .row)'},{'inv':'row .lanes','args':'ARGS .row .lanes'},'k','lane-from','segment-lanes',
 '@put-comma .ensures then same (λ (i : I). lane (a .text .now) (a .points .now) (a .row .name) (a .m) (@behind-one .ensures i) (@lane-at .ensures i)) (@put-lane .ensures)',['put-comma','put-lane'])
each_fn('put_lanes',None,{'inv':'segment-from text segments lanes points','args':'segment-from (ARGS .text .now) (ARGS .segments .now) (ARGS .lanes .now) (ARGS .points .now)'},{'inv':'count','args':'ARGS .count'},'k','segment-from','all-lanes',
 'same (λ i. segment-lanes (a .text .now) (a .lanes .now) (a .points .now) (@behind-one .ensures i) (@segment-at .ensures i)) (@put-segment .ensures)',['put-segment'])
each_fn('put_perimeters',None,{'inv':'perimeter-from text zones points segments','args':'perimeter-from (ARGS .text .now) (ARGS .zones .now) (ARGS .points .now) (ARGS .segments)'},{'inv':'count','args':'ARGS .count'},'k','perimeter-from','all-perimeters',
 'same (λ i. perimeter (a .text .now) (a .points .now) (@behind-one .ensures i) (@zone-at .ensures i)) (@put-perimeter .ensures)',['put-perimeter'])
O['put_segment']['loop-again']=(O['put_segment']['loop-again'][0],O['put_segment']['loop-again'][1].replace('λ (i : I).','λ i.'))
each_fn('put_part',None,{'inv':'checkpoint-from points checkpoints m n first','args':'checkpoint-from (ARGS .points .now) (ARGS .checkpoints .now) (ARGS .m) (ARGS .n) (ARGS .first)'},{'inv':'end','args':'ARGS .end','from':'next','all':'(end - next)'},'row','checkpoint-from','part-checkpoints',
 'same (ap (checkpoint (a .points .now) (a .m) (a .n) (a .first)) (@checkpoint-at .ensures)) (@put-checkpoint .ensures)',['put-checkpoint'])
O['part_end']={'INV':'part-end checkpoints behind row (count - row) ≡ part-end checkpoints behind next (count - next)','MU':'count - row',
 'loop-holds':('','refl'),'add-row':('','omega arith'),'loop-less':('','omega arith'),
 'returns':('','let l = @loop in\n    let a = @args in\n    sym (sym (l .inv) ∙ end-here (a .checkpoints .now) (a .behind) (l .row) (a .count) (omega arith) (subst (λ (q : CheckpointRow). a .behind ≤ q .point) (@checkpoint-at .ensures) (@if1 .taken)))'),
 'loop-again':('','let l = @loop in\n    let a = @args in\n    let less : @checkpoint-at .result .point < a .behind = omega (arith, @if1 .left) in\n    end-further (a .checkpoints .now) (a .behind) (l .row) (a .count) (omega arith) (subst (λ (q : CheckpointRow). q .point < a .behind) (@checkpoint-at .ensures) less) ∙ l .inv'),
 'returns-2':('','let l = @loop in\n    let a = @args in\n    sym (sym (l .inv) ∙ end-last (a .checkpoints .now) (a .behind) (l .row) (a .count) (omega arith))'),
}
O['put_ring']={'INV':'(n ≡ count) × (length out ≡ length out₀) × (put (pen out to) (each (position-back points first count) k (count - k)) ≡ put (pen out₀ at) (each (position-back points first count) 0 count))','MU':'n - k',
 'loop-holds':('','(refl, refl, each-all (position-back (@args .points .now) (@args .first) (@args .count)) _ (@args .count))'),
 'add-k':('','omega arith'),'loop-less':('','omega arith'),'sub-put-position':('','omega arith'),'sub-put-position-2':('','omega arith'),'add-put-position':('','omega arith'),
 'loop-again':('position-back','let l = @loop in\n    let a = @args in\n    (refl, @put-position .kept .0 ∙ @put-comma .kept .0 ∙ l .inv .1, each-again (position-back (a .points .now) (a .first) (a .count)) _ _ (l .k) (a .count) (omega arith) (@put-comma .ensures then @put-position .ensures) ∙ l .inv .2)'),
 'same-length':('','@put-position2 .kept .0 ∙ @put-byte .kept .0 ∙ @loop .inv .1'),
 'returns':('ascii ring','let l = @loop in\n    let a = @args in\n    record { is = sym (l .inv .2) ∙ each-done (position-back (a .points .now) (a .first) (a .count)) _ (l .k) (a .count) (omega arith) } then @put-byte .ensures then same (ap (position-at (a .points .now)) (@last-of .ensures)) (@put-position2 .ensures)'),
}
O['walk_part']={'same-length':('','@put-part .kept .0'),
 'returns':('part-walk walk-to','let a = @args in\n    ap (λ (p : Pen). walk p (@part-end .result)) (sym (@put-part .ensures .is)) ∙ ap (λ (e : ℕ). walk-to (a .points .now) (a .checkpoints .now) (a .m) (a .n) (a .first) e (walk (pen (a .out .now) (a .from .at)) (a .from .next))) (@part-end .ensures)')}
def walk_fn(fn, inner, f, n, call, unf, eqs):
    O[fn]={'INV':'(length out ≡ length out₀) × (steps (%s) k (%s - k) (walk (pen out (to .at)) (to .next)) ≡ steps (%s) 0 (%s) (walk (pen out₀ (to₀ .at)) (to₀ .next)))'%(f['inv'],n['inv'],f['inv'],n['inv']),'MU':'%s - k'%n['inv'],
     'loop-holds':('','(refl, steps-all (%s) _ (%s))'%(f['args'].replace('ARGS','@args'),n['args'].replace('ARGS','@args'))),
     'add-k':('','omega arith'),'loop-less':('','omega arith'),
     'loop-again':(unf,'let l = @loop in\n    let a = @args in\n    (@%s .kept .0 ∙ l .inv .0, steps-again (%s) _ _ (l .k) (%s) (omega arith) (@%s .ensures ∙ (%s)) ∙ l .inv .1)'%(call,f['args'].replace('ARGS','a'),n['args'].replace('ARGS','a'),call,eqs)),
     'same-length':('','@loop .inv .0'),
     'returns':('','let l = @loop in\n    let a = @args in\n    sym (sym (l .inv .1) ∙ steps-done (%s) _ (l .k) (%s) (omega arith))'%(f['args'].replace('ARGS','a'),n['args'].replace('ARGS','a')))}
W='(walk (pen (@PEN .now) (l .to .at)) (l .to .next))'
def with_end(fn, bound):
    o=O[fn]
    o['INV']='(k-end ≡ %s) × '%bound+o['INV']
    o['loop-holds']=(o['loop-holds'][0],o['loop-holds'][1].replace('(refl, ','(refl, refl, ',1))
    u,b=o['loop-again']
    o['loop-again']=(u,b.replace('l .inv .1','l .inv .9').replace('l .inv .0','l .inv .1').replace('l .inv .9','l .inv .2').replace('\n    (','\n    (refl, ',1))
    o['same-length']=('','@loop .inv .1')
    u,b=o['returns']
    o['returns']=(u,b.replace('l .inv .1','l .inv .2'))
walk_fn('walk_segment','part',{'inv':'lane-walk lanes points checkpoints count m row','args':'lane-walk (ARGS .lanes .now) (ARGS .points .now) (ARGS .checkpoints .now) (ARGS .count) (ARGS .m) (ARGS .row)'},{'inv':'row .lanes','args':'ARGS .row .lanes'},'walk-part','lane-walk',
 'λ i. part-walk (a .points .now) (a .checkpoints .now) (a .count) (a .m) (@behind-one .ensures i) (@lane-at .ensures i .«first_point») (@lane-at .ensures i .points) (walk (pen (l .out) (l .to .at)) (l .to .next))')
walk_fn('walk_segments','segment',{'inv':'segment-walk segments lanes points checkpoints count','args':'segment-walk (ARGS .segments .now) (ARGS .lanes .now) (ARGS .points .now) (ARGS .checkpoints .now) (ARGS .count)'},{'inv':'segment-count','args':'ARGS .segment-count'},'walk-segment','segment-walk',
 'λ i. steps (lane-walk (a .lanes .now) (a .points .now) (a .checkpoints .now) (a .count) (@behind-one .ensures i) (@segment-at .ensures i)) 0 (@segment-at .ensures i .lanes) (walk (pen (l .out) (l .to .at)) (l .to .next))')
walk_fn('walk_zone','part',{'inv':'spot-walk spots points checkpoints count m row','args':'spot-walk (ARGS .spots .now) (ARGS .points .now) (ARGS .checkpoints .now) (ARGS .count) (ARGS .m) (ARGS .row)'},{'inv':'row .spots','args':'ARGS .row .spots'},'walk-part','spot-walk',
 'λ i. part-walk (a .points .now) (a .checkpoints .now) (a .count) (a .m) (@behind-one .ensures i) (@spot-at .ensures i .«first_point») 2 (walk (pen (l .out) (l .to .at)) (l .to .next))')
walk_fn('walk_zones','zone',{'inv':'zone-walk zones spots points checkpoints count segments','args':'zone-walk (ARGS .zones .now) (ARGS .spots .now) (ARGS .points .now) (ARGS .checkpoints .now) (ARGS .count) (ARGS .segments)'},{'inv':'zone-count','args':'ARGS .zone-count'},'walk-zone','zone-walk',
 'λ i. steps (spot-walk (a .spots .now) (a .points .now) (a .checkpoints .now) (a .count) (@behind-one .ensures i) (@zone-at .ensures i)) 0 (@zone-at .ensures i .spots) (walk (pen (l .out) (l .to .at)) (l .to .next))')
with_end('put_segment','row .lanes'); with_end('walk_segment','row .lanes'); with_end('walk_zone','row .spots')
O['put_checkpoints']={'same-length':('','@walk-zones .kept .0 ∙ @walk-segments .kept .0'),
 'returns':('all-walk','let a = @args in\n    ap (λ (w : Walk). w .pen) (@walk-zones .ensures ∙ ap (steps (zone-walk (a .zones .now) (a .spots .now) (a .points .now) (a .checkpoints .now) (a .counts .checkpoints) (a .counts .segments)) 0 (a .counts .zones)) (@walk-segments .ensures))')}
O['put_map']={'same-length':('',kept('put-bytes','put-lanes','put-perimeters','put-checkpoints','put-bytes2')),
 'returns':('ascii drawn','let a = @args in\n    let w = %s in\n    sym (ap (λ p. put p (ascii "]}")) (ap (λ p. all-walk (a .segments .now) (a .lanes .now) (a .zones .now) (a .spots .now) (a .points .now) (a .checkpoints .now) (a .counts) (walk p 0) .pen) (w .is) ∙ sym (@put-checkpoints .ensures)) ∙ @put-bytes2 .ensures .is)'%chain('put-bytes','put-lanes','put-perimeters'))}

VARS={'put_segment':'out₀ at text lanes points m row to₀ k₀ k-end out to k','put_lanes':'out₀ at text segments lanes points count to₀ k₀ out to k','put_perimeters':'out₀ at text zones points segments count to₀ k₀ out to k',
 'put_part':'out₀ at points checkpoints m n first next end to₀ row₀ out to row','part_end':'checkpoints count next behind row₀ row','put_ring':'out₀ at points first count n to₀ k₀ out to k',
 'walk_segment':'out₀ lanes points checkpoints count m row to₀ k₀ k-end out to k','walk_segments':'out₀ segments lanes points checkpoints count segment-count to₀ k₀ out to k',
 'walk_zone':'out₀ spots points checkpoints count m row to₀ k₀ k-end out to k','walk_zones':'out₀ zones spots points checkpoints count segments zone-count to₀ k₀ out to k'}
def skeleton(fn,tie):
    needs=re.findall(r'abbrev pub Need-(\S+) :',tie)
    nm=fn.replace('_','-')
    o=[f'use Rattle·features·proofs.proofs.{fn}.Statement.{{statement}}',f'use Rattle·features·proofs.proofs.{fn}.Tie as tie','']
    loop=fn in VARS
    if loop:
        o+=['abbrev Inv-loop : tie.InvT-loop','Inv-loop '+VARS[fn]+' = ?','','abbrev μ-loop : tie.MeasureT-loop','μ-loop '+VARS[fn]+' = ?','']
    for x in needs:
        o+=[f'{x} : tie.Need-{x}'+(' Inv-loop μ-loop' if loop else ''),x+(' c κs' if 'requires' in x else ' c')+' = ?','']
    o+=[f'pub {nm}-spec : {{M : Type 1}} → statement M',f'{nm}-spec =','    tie.close','    (tie.spec']
    a=(['Inv-loop','μ-loop'] if loop else [])+needs
    o+=['    '+x for x in a]; o[-1]+=')'
    return '\n'.join(o)+'\n'

def load(fn):
    base=f'{gen}/Rattle·{crate}·proofs/proofs/{fn}'
    lts=open(base+'/Lts.antt').read()
    before={}; fields={}
    for m in re.finditer(r'pub record (\S+)(?: [^\n]*)? : Type \S+ where\n((?:[ \t]+pub .*\n)+)',lts):
        for g in re.finditer(r'pub (\S+) : (\(?)([^\s)]+)',m.group(2)):
            if g.group(1)=='before': before[m.group(1)]=g.group(3)
            fields.setdefault(m.group(1),[]).append(g.group(1))
    start={}
    for m in re.finditer(r'abbrev pub Need-(\S+) : Type 0\n\s+Need-\S+ =\s*\(c : ([^\s)]+)\)',lts): start.setdefault(m.group(1),m.group(2))
    return lts,before,fields,start
for fn,o in O.items():
    if len(sys.argv)>1 and fn not in sys.argv[1:]: continue
    if not os.path.exists(f'{gen}/Rattle·{crate}·proofs/proofs/{fn}/Tie.antt'): print('later',fn); continue
    lts,before,fields,start=load(fn)
    def path(need,name):
        r=start.get(need); p=''
        while r is not None:
            if name in fields.get(r,[]): return 'c'+p+' .'+name
            p+=' .before'; r=before.get(r)
        print('NO PATH',fn,need,name,start.get(need)); return '@'+name
    pf=f'{gen}/Rattle·{crate}·proofs/proofs/{fn}/Proof.antt'
    if os.path.exists(pf): src=open(pf).read()
    else: src=skeleton(fn,open(f'{gen}/Rattle·{crate}·proofs/proofs/{fn}/Tie.antt').read())
    out=[f'-- `features::{fn}` meets its contract. Assumes nothing.\n',IMPORTS]
    lines=src.split('\n'); i=0
    while i<len(lines):
        l=lines[i]
        if l.startswith('use ') and '.Statement.{' not in l and not l.endswith(' as tie'): i+=1; continue
        if l.startswith('--'): i+=1; continue
        if l.startswith('use '): out.append(l+'\n'); i+=1; continue
        m=re.match(r'(\S+) : tie\.Need-(\S+)',l)
        if m:
            need=m.group(1)
            out.append(l+'\n'); i+=1
            body=lines[i]
            while not body.startswith(need+' '): i+=1; body=lines[i]
            head=body.split(' = ')[0]
            i+=1
            while i<len(lines) and lines[i].startswith('  '): i+=1
            if need in o:
                unf,b=o[need]
                if unf: out.append('unfolding '+unf+'\n')
                b=re.sub(r'@([\w-]+)',lambda g: path(need,g.group(1)),b)
                sep=' =\n    ' if '\n' in b else ' = '
                out.append(head+sep+b+'\n')
            elif 'requires' in need: out.append(head+' = tt\n')
            elif need.startswith('slice-aggregate'): out.append(head+' = refl\n')
            else: out.append(head+' = search needs\n')
            continue
        m=re.match(r'(Inv-loop|μ-loop) (.*) = ',l)
        if m:
            out.append('%s %s = %s\n'%(m.group(1),m.group(2),o['INV' if m.group(1)=='Inv-loop' else 'MU'])); i+=1; continue
        out.append(l+'\n'); i+=1
    t=''.join(out)
    # unused imports out
    body=t[t.index('use Rattle·features·proofs.proofs.Loops'):]
    body=body[body.index('\n'):]
    def prune(m):
        names=[x.strip() for x in m.group(2).split(',')]
        keepn=[x for x in names if re.search(r'(?<![\w-])'+re.escape(x.strip('_'))+r'(?![\w-])',body)]
        return 'use %s.{%s}\n'%(m.group(1),', '.join(keepn)) if keepn else ''
    t=re.sub(r'use ([^\n{]+)\.\{([^}]*)\}\n',lambda m: m.group(0) if '.Statement.' in m.group(0) else prune(m),t)
    d=f'crates/{crate}/proofs/{fn}'; os.makedirs(d,exist_ok=True)
    open(d+'/Proof.antt','w').write(re.sub(r'\n{3,}','\n\n',t).rstrip('\n')+'\n')
