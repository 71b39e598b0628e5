import re,sys
def conf(p,fs):
    s=open(p).read(); it=iter(fs)
    s=re.sub(r'<<<<<<< [^\n]*\n(.*?)=======\n(.*?)>>>>>>> [^\n]*\n',lambda m: next(it)(m.group(1),m.group(2)),s,flags=re.S)
    open(p,'w').write(s)
