#!/usr/bin/env python3
"""unused ROOT [fix] [CRATE..]: imported names that a file does not use."""
import sys,re,glob,os
root=sys.argv[1]; fix='fix' in sys.argv[2:]; crates=[a for a in sys.argv[2:] if a!='fix']
DELIM=r"[\s(){}.,;λ\[\]⌜⌝⦃⦄`]"
def used(name,body):
    if '_' in name and name in body: return True
    toks=[t for t in name.split('_') if t]
    if name.startswith('_') or name.endswith('_') or '_' in name and not name.replace('_','').isalnum():
        return all(re.search(r'(?:^|%s)%s(?:$|%s)'%(DELIM,re.escape(t),DELIM),body,re.M) for t in toks)
    if name=='arith': return re.search(r'\barith\b',body)
    return re.search(r'(?:^|%s)%s(?:$|%s)'%(DELIM,re.escape(name),DELIM),body,re.M)
for p in sorted(glob.glob(root+'/crates/**/*.antt',recursive=True)+glob.glob(root+'/crates/**/*.rt',recursive=True)):
    rel=os.path.relpath(p,root)
    if crates and rel.split('/')[1] not in crates: continue
    s=open(p).read(); lines=s.split('\n')
    body='\n'.join(re.sub(r'--.*','',l) if p.endswith('antt') else re.sub(r'//.*','',l) for l in lines if not re.match(r'(ghost )?use ',l))
    out=[]; ch=False
    for l in lines:
        m=re.match(r'((?:ghost )?use [^{ ]+\.)\{(.*)\}(;?)$',l)
        if m:
            names=[n.strip() for n in m.group(2).split(',')]
            keep=[n for n in names if used(n.split(' as ')[-1],body)]
            if len(keep)<len(names):
                ch=True; print(rel,[n for n in names if n not in keep])
                if keep: out.append(m.group(1)+'{'+', '.join(keep)+'}'+m.group(3))
                continue
        out.append(l)
    if fix and ch: open(p,'w').write('\n'.join(out))
