import sys,subprocess,os,re
# mf.py TREE CRATE EDIT...: apply each edit by hand, rt check the crate, print the first error
tree,crate=sys.argv[1:3]
for e in sys.argv[3:]:
    t=open(f'{tree}/crates/{crate}/must-fail/{e}.edit').read()
    m=re.search(r'^file: (.*)\nold: (.*?)\nnew: (.*?)\n?\Z',t,re.S|re.M)
    f,old,new=m.groups()
    p=f'{tree}/crates/{crate}/{f}'
    s=open(p).read()
    if s.count(old)!=1: print(e,'OLD STANDS',s.count(old)); continue
    open(p,'w').write(s.replace(old,new))
    try:
        r=subprocess.run(['rt','dev',crate],cwd=tree,capture_output=True,text=True)
        out=(r.stdout+r.stderr).split('\n')
        errs=[l for l in out if 'error' in l]
        i=next((k for k,l in enumerate(out) if 'error' in l),None)
        print('##',e,'exit',r.returncode); print('\n'.join(x[:600] for x in out[i:i+12]) if i is not None else 'NO ERROR')
    finally:
        open(p,'w').write(s)
