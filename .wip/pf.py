import re,os,subprocess
def edit(root,crate,fn,bodies,uses=(),inv={},head=None,unfold={}):
    ps=[f"{root}/crates/{crate}/proofs/{fn}/Proof.antt", f"{root}/crates/{crate}/proofs/+{fn}/Proof.antt"]
    p=[x for x in ps if os.path.exists(x)][0]
    s=open(p).read()
    s=re.sub(r"(?m)^-- src/lib\.rt:.*\n","",s)
    # imports of Reads/Lts that stub leaves
    for nm in ("reads","lts"):
        s=re.sub(r"(?m)^use \S+ as %s\n"%nm,"",s) if not re.search(r"\b%s\."%nm,s) else s
    for m in re.findall(r"(?m)^use (\S+) as (\S+-reads)$",s):
        if not re.search(r"\b%s\."%re.escape(m[1]),s): s=s.replace(f"use {m[0]} as {m[1]}\n","")
    for k,v in inv.items():
        s=re.sub(r"(?m)^(%s .*=) \?.*$"%re.escape(k),lambda m:m.group(1)+" "+v,s)
    for k,v in bodies.items():
        n,cnt=re.subn(r"(?m)^(%s (?:t )?c(?: κs)?) = search needs$"%re.escape(k),lambda m:m.group(1)+" = "+v,s)
        if cnt==0: print("no need",k)
        s=n
    for k,v in unfold.items():
        s=re.sub(r"(?m)^(%s (?:t )?c(?: κs)? =)"%re.escape(k),lambda m:"unfolding "+v+"\n"+m.group(1),s)
    if uses:
        s="\n".join("use "+u for u in uses)+"\n"+s
    if head:
        s="\n".join("-- "+h for h in head.split("\n"))+"\n"+s
    if not s.endswith("\n"): s+="\n"
    open(p,"w").write(s)
    subprocess.run(["python3",os.path.join(os.path.dirname(os.path.realpath(__file__)), "rechain.py"),root,crate,fn])
