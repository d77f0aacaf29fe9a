import subprocess,re,sys
o=subprocess.check_output(['x86_64-linux-gnu-objdump','-dr','--no-show-raw-insn',sys.argv[1]],text=True)
name=None;fr={};calls={}
for l in o.split('\n'):
    m=re.match(r'^[0-9a-f]+ <(.*)>:',l)
    if m: name=m.group(1); fr[name]=8; calls[name]=set(); continue
    if not name: continue
    if re.search(r'\tpush ',l): fr[name]+=8
    m=re.search(r'\tsub +\$0x([0-9a-f]+),%rsp',l)
    if m: fr[name]+=int(m.group(1),16)
    m=re.search(r'R_X86_64_(?:PLT32|PC32)\s+(.*?)-0x4',l)
    if m: calls[name].add(re.sub(r'^\.text\.','',m.group(1)))
for n in sorted(fr,key=lambda x:-fr[x])[:14]: print(fr[n],n,sorted(c for c in calls[n] if c in fr)[:12])
