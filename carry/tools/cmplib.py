import subprocess,re,sys
def funcs(lib):
    out=subprocess.run(['objdump','-dr','--no-show-raw-insn',lib],capture_output=True,text=True).stdout
    f={};cur=None
    for l in out.splitlines():
        m=re.match(r'^[0-9a-f]+ <(.*)>:$',l)
        if m: cur=m.group(1); f[cur]=[]; continue
        if cur and l.strip():
            l=re.sub(r'^\s*[0-9a-f]+:\s*','',l)
            l=re.sub(r'\.L[A-Za-z]+\d+_(\d+)',r'.LC_\1',l)
            l=re.sub(r'\.L[A-Za-z.]+\d+','.L',l)
            l=re.sub(r'\.rodata\.?[\w.]*([-+]0x[0-9a-f]+)?','RODATA',l)
            l=re.sub(r'#.*$','',l)
            f[cur].append(l.strip())
    return f
a=funcs(sys.argv[1]); b=funcs(sys.argv[2])
same=[k for k in a if k in b and a[k]==b[k]]
diff=[k for k in a if k in b and a[k]!=b[k]]
print(len(a),'functions before,',len(b),'after; same',len(same))
print('differ:',[(k,len(a[k]),len(b[k])) for k in diff])
print('gone:',[k for k in a if k not in b]); print('new:',[(k,len(b[k])) for k in b if k not in a])
