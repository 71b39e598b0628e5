# settles LANDINGS' conflict of two landings that both stand last: ours first, then theirs with the next number
import re
p='docs/LANDINGS.md';s=open(p).read()
m=re.search(r'<<<<<<< [^\n]*\n(.*?)=======\n(.*?)>>>>>>> [^\n]*\n(.*)$',s,flags=re.S)
ours,theirs,rest=m.groups()
k=max(int(x) for x in re.findall(r'^## (\d+)\.',ours,flags=re.M))
theirs=re.sub(r'^## (\d+)\.',lambda q:'## %d.'%(k+1),theirs,count=1,flags=re.M)
s=s[:m.start()]+ours.rstrip('\n')+'\n'+(rest.rstrip('\n')+'\n' if '**Gate' not in ours else '')+'\n'+theirs.rstrip('\n')+'\n'+rest
open(p,'w').write(s)
