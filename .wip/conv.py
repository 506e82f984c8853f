#!/usr/bin/env python3
"""conv.py ROOT OUT [checked]: the crates of ROOT as one Rust staticlib, contracts taken out."""
import sys, re, os
root, out = sys.argv[1], sys.argv[2]
checked = len(sys.argv) > 3
crates = []
for l in open(f"{root}/crates.txt"):
    l = l.split("#")[0].strip()
    if l: crates.append(l.split(":")[0])
skip = {"states"}
os.makedirs(f"{out}/src", exist_ok=True)

def close(s, i):
    d = 0
    while i < len(s):
        if s[i] == "[": d += 1
        elif s[i] == "]":
            d -= 1
            if d == 0: return i
        i += 1
    raise Exception("no close")

def unchecked(code):
    res = []
    i = 0
    pat = re.compile(r"([A-Za-z_][A-Za-z_0-9]*(?:\.[a-z_0-9]+)*)\[")
    while True:
        m = pat.search(code, i)
        if not m:
            res.append(code[i:]); break
        word = m.group(1)
        if word in ("mut", "in", "return") :
            res.append(code[i:m.end()]); i = m.end(); continue
        e = close(code, m.end() - 1)
        inner = unchecked(code[m.end():e])
        pre = code[i:m.start()]
        res.append(pre)
        tail = code[e+1:]
        before = "".join(res).rstrip()
        if ".." in inner:
            if before.endswith("&mut"):
                s = "".join(res).rstrip()[:-4]; res = [s, f"(unsafe {{ {word}.get_unchecked_mut({inner}) }})"]
            elif before.endswith("&"):
                s = "".join(res).rstrip()[:-1]; res = [s, f"(unsafe {{ {word}.get_unchecked({inner}) }})"]
            else: raise Exception(code[m.start():e+1])
        elif re.match(r"\s*(=[^=]|[+|&-]=)", tail) and (before == "" or before[-1] in ";{}"):
            res.append(f"*(unsafe {{ {word}.get_unchecked_mut({inner}) }})")
        else:
            res.append(f"(*(unsafe {{ {word}.get_unchecked({inner}) }}))")
        i = e + 1
    return "".join(res)

mods = []
for c in crates:
    if c in skip: continue
    p = f"{root}/crates/{c}/src/lib.rt"
    t = open(p).read()
    lines = []
    for l in t.split("\n"):
        s = l.strip()
        if s.startswith("ghost use") or s.startswith("requires") or s.startswith("ensures") or s.startswith("//") or s.startswith("decreases"):
            continue
        lines.append(l)
    t = "\n".join(lines)
    for d in crates:
        t = re.sub(r"(?<![A-Za-z_0-9:])" + d + r"::", f"crate::{d}::", t)
    t = re.sub(r"^use crate::crate::", "use crate::", t, flags=re.M)
    t = re.sub(r"^pub mod ", "pub mod ", t, flags=re.M)
    t = re.sub(r"#\[no_mangle\]\npub extern \"C\" fn", "pub fn", t)
    t = re.sub(r"^(pub )?(struct|enum) ", r"#[derive(Clone, Copy)]\n\1\2 ", t, flags=re.M)
    t = t.replace("std::num::wrapping_add_u32", "u32::wrapping_add")
    t = t.replace("'a mut", "'a mut")
    if not checked: t = unchecked(t)
    open(f"{out}/src/{c}.rs", "w").write("#![allow(unused)]\n" + t)
    mods.append(c)
lib = "#![allow(unused)]\n" + "".join(f"pub mod {m};\n" for m in mods)
lib += r'''
unsafe fn part<'a>(p: *const u8, n: usize) -> &'a [u8] { if n == 0 { &[] } else { core::slice::from_raw_parts(p, n) } }
unsafe fn part_mut<'a>(p: *mut u8, n: usize) -> &'a mut [u8] { if n == 0 { &mut [] } else { core::slice::from_raw_parts_mut(p, n) } }
#[no_mangle] pub unsafe extern "C" fn lesson_check(b: *const u8, n: usize) -> u64 { lesson::lesson_check(part(b, n)) }
#[no_mangle] pub unsafe extern "C" fn lesson_test(b: *const u8, n: usize, layer: u32, off: u32, c: *const u8, m: usize) -> u64 { lesson::lesson_test(part(b, n), layer, off, part(c, m)) }
#[no_mangle] pub unsafe extern "C" fn lesson_list(b: *const u8, n: usize, layer: u32, off: u32, c: *mut u8, m: usize) -> u64 { lesson::lesson_list(part(b, n), layer, off, part_mut(c, m)) }
#[no_mangle] pub unsafe extern "C" fn lesson_one(b: *const u8, n: usize, layer: u32, off: u32, c: *mut u8, m: usize) -> u64 { lesson::lesson_one(part(b, n), layer, off, part_mut(c, m)) }
#[no_mangle] pub unsafe extern "C" fn lesson_place(b: *const u8, n: usize, layer: u32, off: u32, f: u32) -> u64 { lesson::lesson_place(part(b, n), layer, off, f) }
'''
open(f"{out}/src/lib.rs", "w").write(lib)
