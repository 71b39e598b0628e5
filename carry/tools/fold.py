# Folds needs that `search needs` closes into the list of tie.spec: fold.py Proof.antt...
import re,sys
for p in sys.argv[1:]:
    s=open(p).read()
    folded={}
    def take(m):
        name,args=m.group(1),m.group(3)
        folded[name]='(λ %s. search needs)'%args
        return ''
    t=re.sub(r'(?m)^([a-z0-9-]+) : tie\.Need-([a-z0-9-]+)(?: [^\n]*)?\n\1 (c(?: κs)?) = search needs\n\n?',take,s)
    if not folded: continue
    i=t.rindex('(tie.spec')
    head,tail=t[:i],t[i:]
    if any(re.search(r'(?<![\w-])%s(?![\w-])'%re.escape(n),head.split('tie.close')[0].split('pub ')[0]) and False for n in folded): continue
    for n,l in folded.items():
        tail,k=re.subn(r'(?<![\w.-])%s(?![\w-])'%re.escape(n),l,tail)
        assert k==1,(p,n,k)
    # uses elsewhere
    for n in folded:
        if re.search(r'(?<![\w.-])%s(?![\w-])'%re.escape(n),head): sys.exit(f'{p}: {n} is used')
    open(p,'w').write(head+tail)
    print(p,len(folded))
