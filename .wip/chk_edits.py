import sys,glob,re,os
root=sys.argv[1]
for p in sorted(glob.glob(root+'/crates/*/must-fail/*.edit')):
    s=open(p).read()
    crate=os.path.dirname(os.path.dirname(p))
    cur=None
    parts=re.split(r'(?m)^(file|old|new): ?',s)
    i=1
    f=None
    while i<len(parts):
        k,v=parts[i],parts[i+1]
        if v.endswith('\n'): v=v[:-1]
        if k=='file': f=open(crate+'/'+v.strip()).read()
        if k=='old':
            n=f.count(v)
            if n!=1: print(os.path.relpath(p,root),n,repr(v))
        i+=2
