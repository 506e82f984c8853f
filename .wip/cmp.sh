#!/bin/sh
# cmp.sh WORDS NAME...: times of each build beside the first
cd "${SX:?}" # the folder of the experiments
words=$1; shift
for x in $*; do nice -n 5 ./mb-$x engine "$words" > res-$x.txt; done
python3 - $* <<'PY'
import sys
rows={}
def num(s):
    v,u=s.split(); return float(v)*{"us":1e-6,"ms":1e-3,"s":1}[u]
xs=sys.argv[1:]
for x in xs:
    for l in open(f"res-{x}.txt"):
        c=[y.strip() for y in l.strip().strip("|").split("|")]
        rows.setdefault(c[0],{})[x]=num(c[1])
for k,v in rows.items():
    print(f"{k:70s} {v[xs[0]]*1e3:10.3f} ms  "+"  ".join(f"{x} {v[x]/v[xs[0]]:.2f}" for x in xs[1:]))
PY
