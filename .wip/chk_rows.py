import sys,glob,os,re
root=sys.argv[1]
doc=open(root+'/docs/REJECTED.md').read()
have={p.split('/')[-3]+'/'+os.path.basename(p)[:-5] for p in glob.glob(root+'/crates/*/must-fail/*.edit')}
named=set(re.findall(r'`([a-z_]+/[a-z0-9_]+)`',doc))
print(len(have),'unnamed',sorted(have-named)); print('gone',sorted(n for n in named-have if '/' in n))
