import re,subprocess,sys
def t(c):
    d={}
    for l in open('/tmp/gate-logs/%s.log'%c,encoding='utf-8',errors='replace'):
        m=re.match(r'rt: (\S+) proved \((\d+) s\)',l)
        if m: d[m[1]]=int(m[2])
    return d
def tree(c):
    d={}
    for l in subprocess.run(['git','ls-tree',c,'crates/'],stdout=subprocess.PIPE,text=True).stdout.splitlines():
        m=l.split(); d[m[3][7:]]=m[2]
    return d
cs=(sys.argv[1:] or '8e5a56e 02ee95e 4fd96fd d9d0999 05ebad8 4bf35a7 e55178f'.split())
for a,b in zip(cs,cs[1:]):
    ta,tb,ra,rb=t(a),t(b),tree(a),tree(b)
    same=[c for c in ta if c in tb and ra[c]==rb[c]]
    sa,sb=sum(ta[c] for c in same),sum(tb[c] for c in same)
    print(a,b,len(ta),len(tb),'same',len(same),sa,sb,'%.3f'%(sb/sa))
