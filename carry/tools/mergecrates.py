# mergecrates.py BASE OURS THEIRS > merged crates.txt: THEIRS' changes over BASE applied to OURS, sorted by layer
import sys
def rows(p):
    L=open(p).read().split('\n')
    return [l for l in L if l.startswith('#')], {l.split(':')[0]:l.split(':')[1].split() for l in L if ':' in l and not l.startswith('#')}
hb,b=rows(sys.argv[1]); ho,o=rows(sys.argv[2]); ht,t=rows(sys.argv[3])
order=list(o)
for n in t:
    if n not in b and n not in o:
        prev=[m for m in list(t)[:list(t).index(n)] if m in order]
        order.insert(order.index(prev[-1])+1 if prev else 0,n); o[n]=list(t[n])
    elif n in b and t[n]!=b[n] and n in o:
        add=[d for d in t[n] if d not in b[n]]; gone=[d for d in b[n] if d not in t[n]]
        r=[d for d in o[n] if d not in gone]
        for d in add:
            if d in r: continue
            before=[m for m in t[n][:t[n].index(d)] if m in r]
            r.insert(r.index(before[-1])+1 if before else 0,d)
        o[n]=r
for n in b:
    if n not in t and n in o: del o[n]; order.remove(n)
lay={}
def layer(c):
    if c not in o: return -1
    if c not in lay: lay[c]=1+max([layer(d) for d in o[c]]+[-1])
    return lay[c]
order.sort(key=layer)
print('\n'.join(ho+[n+': '+' '.join(o[n]) if o[n] else n+':' for n in order]))
