#!/usr/bin/env python3
"""rechain ROOT CRATE FN..: recompute the .before chains of proofs from `places`."""
import sys, re, subprocess, os, glob
root, crate, fns = sys.argv[1], sys.argv[2], sys.argv[3:]
out = subprocess.run([os.environ["PLACES"], crate] + fns, capture_output=True, text=True, cwd=root).stdout
tab, fn = {}, None
for line in out.split("\n"):
    if line.startswith("== "):
        fn = line[3:].strip(); tab[fn] = {}
    elif ": " in line and fn:
        need, rest = line.split(": ", 1)
        d = {}
        for w in rest.split():
            m = re.match(r"\^(\d+)([.=])(\S+)", w)
            if m:
                k = int(m.group(1))
                if m.group(2) == "=":
                    d[".args"] = k; d[".pre"] = k
                else:
                    d["." + m.group(3)] = k
        tab[fn][need] = d
if not tab:
    print(out); sys.exit("no places")
for fn in fns:
    ps = [p for p in (f"{root}/crates/{crate}/proofs/{fn}/Proof.antt", f"{root}/crates/{crate}/proofs/+{fn}/Proof.antt") if os.path.exists(p)]
    if not ps or fn not in tab: print("no", fn); continue
    p = ps[0]
    dash = fn.replace("_", "-")
    lines = open(p).read().split("\n")
    cur = None
    res = []
    for l in lines:
        m = re.match(r"(\S+)\s*(:|.*=)", l)
        if m and not l.startswith(" "):
            name = m.group(1)
            cand = name[len(dash)+1:] if name.startswith(dash + "-") else name
            cur = tab[fn].get(cand) or tab[fn].get(name)
        if cur is not None:
            def sub(mm):
                f = mm.group(2)
                if f in cur:
                    return "c " + ".before " * cur[f] + f
                return mm.group(0)
            l = re.sub(r"\bc ((?:\.before )*)(\.[A-Za-z0-9-]+)", sub, l)
        res.append(l)
    open(p, "w").write("\n".join(res))
    print("rechained", fn, len(tab[fn]))
