import glob,re,sys
t=sys.argv[1]; bad=0; n=0
for e in sorted(glob.glob(t+'/crates/*/must-fail/*.edit')):
    s=open(e).read(); crate=e.split('/crates/')[1].split('/')[0]; n+=1
    m=re.search(r'^file: (.*?)\nold: (.*?)\nnew: (.*?)\n?\Z',s,re.S|re.M)
    if not m: print('FORM',e); bad+=1; continue
    f,o,w=m.groups()
    try: c=open(f'{t}/crates/{crate}/{f}').read().count(o)
    except FileNotFoundError: c=-1
    if c!=1: print(c,e.split('/crates/')[1]); bad+=1
print(n,'edits',bad,'bad')
