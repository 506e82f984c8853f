"""conf FILE : list conflicts numbered; resolve(FILE, {i: text}) replaces."""
import re,sys
PAT=re.compile(r"<<<<<<< [^\n]*\n(.*?)=======\n(.*?)>>>>>>> [^\n]*\n",re.S)
def resolve(f,how):
    s=open(f).read(); i=[0]
    def sub(m):
        k=i[0]; i[0]+=1
        h=how(k,m.group(1),m.group(2)) if callable(how) else how[k]
        return h
    s=PAT.sub(sub,s); open(f,'w').write(s)
if __name__=='__main__':
    s=open(sys.argv[1]).read()
    for k,m in enumerate(PAT.finditer(s)):
        print('----',k); print(m.group(1),end=''); print('=='); print(m.group(2),end='')
