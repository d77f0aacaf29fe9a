#!/usr/bin/env python3
# places.py LTS..: the places of each function: record, its before, its own field
import re,sys
for f in sys.argv[1:]:
    t=open(f).read().split('\n')
    print('==',f.split('/proofs/proofs/')[-1])
    i=0
    while i<len(t):
        m=re.match(r'\s+pub record (After-\S+|Start|At-\S+|[A-Z]\S*) :',t[i])
        if m and '·own' not in m.group(1):
            name=m.group(1); fs=[]
            j=i+1
            while j<len(t):
                q=re.match(r'\s+pub (\S+) : ?(.*)',t[j])
                if not q or 'record' in t[j]: 
                    if t[j].strip()=='' : break
                    j+=1; continue
                fs.append((q.group(1),q.group(2)[:40])); j+=1
            print('  ',name,'; '.join(a+':'+b for a,b in fs if a in('before',) ) , [a for a,b in fs if a!='before'])
        i+=1
