import re,sys
p='docs/LANDINGS.md';s=open(p).read()
def f(m):
    ours,theirs=m.group(1),m.group(2)
    ol=[l for l in ours.split('\n') if l.startswith('- **Gate.**')]
    tl=theirs.split('\n')
    # ours: gate line(s) only; theirs: older gate line then new section
    assert len(ol)==1, ol
    i=[k for k,l in enumerate(tl) if l.startswith('- **Gate.**')][0]
    return ours.rstrip('\n')+'\n'+'\n'.join(tl[i+1:])
s2=re.sub(r'<<<<<<< [^\n]*\n(.*?)=======\n(.*?)>>>>>>> [^\n]*\n',f,s,flags=re.S)
open(p,'w').write(s2)
