# three-way merge of crates.txt: crates3.py BASE OURS THEIRS > OUT. Keeps ours' order of lines and words; theirs' new words and lines are added; every line closed transitively.
import sys
def load(p):
    head=[];d={};order=[]
    for l in open(p):
        l=l.rstrip('\n')
        if l.startswith('#') or not l.strip(): head.append(l); continue
        k,_,v=l.partition(':'); d[k]=v.split(); order.append(k)
    return head,d,order
hb,b,ob=load(sys.argv[1]); ho,o,oo=load(sys.argv[2]); ht,t,ot=load(sys.argv[3])
ext={'io','libc','os'}
res={};order=list(oo)
for k in oo:
    if k in b and k not in t: order.remove(k); continue
    w=list(o[k])
    if k in t:
        bw=set(b.get(k,[])); tw=t[k]
        for x in tw:
            if x not in w and x not in bw: w.append(x)
        w=[x for x in w if not (x in bw and x not in tw)]
    res[k]=w
for k in ot:
    if k in res or (k in b and k not in o): continue
    res[k]=list(t[k])
    # place: behind the line that stands before it in theirs, and behind all that it rests on
    i=ot.index(k); pos=-1
    for p in reversed(ot[:i]):
        if p in order: pos=order.index(p); break
    order.insert(pos+1,k)
# closure
def close(k,seen):
    for x in res.get(k,[]):
        if x not in seen:
            seen.append(x); close(x,seen)
    return seen
for k in order:
    s=close(k,list(res[k]))
    e=[x for x in s if x in ext]; 
    res[k]=[x for x in s if x not in ext]+e if k in res and any(x in ext for x in res[k]) else s
# topological: move a line behind what it rests on
done=False
while not done:
    done=True
    for k in list(order):
        last=max([order.index(x) for x in res[k] if x in order] or [-1])
        if order.index(k)<last:
            order.remove(k); order.insert(last,k); done=False
print('\n'.join(ho))
for k in order: print((k+': '+' '.join(res[k])).rstrip())
