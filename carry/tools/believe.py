# puts what .ci/believe prints into docs/ARCHITECTURE.md
import subprocess,re
t=subprocess.run(['sh','.ci/believe'],capture_output=True,text=True).stdout
p='docs/ARCHITECTURE.md';s=open(p).read()
rows=[l for l in t.rstrip('\n').split('\n')]
L=s.split('\n')
# the table in the paper: contiguous lines beginning with | after the heading
h=[i for i,l in enumerate(L) if 'What to read to believe it' in l and l.startswith('#')][0]
i=h
while not L[i].startswith('|'): i+=1
j=i
while L[j].startswith('|'): j+=1
k=[n for n,l in enumerate(rows) if l.startswith('|')]
L[i:j]=rows[k[0]:k[-1]+1]
open(p,'w').write('\n'.join(L))
