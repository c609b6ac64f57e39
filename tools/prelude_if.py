#!/usr/bin/env python3
"""Imports `if◌then◌else◌` from Rattle.std.specs.Prelude where a file takes it from Rattle.laws.specs.Choice, and takes it out of that file: `rt ci` refuses an operator
under the name of one of the library's. Run it at the repository's root; a second run changes nothing."""
import os
import re

OP="if◌then◌else◌"
def turn(path):
    s=open(path,encoding="utf-8").read(); o=s
    rt=path.endswith(".rt")
    pre,end=("ghost use ",";") if rt else ("use ","")
    m=re.search(r"^(?:pub )?%sRattle\.laws\.specs\.Choice\.\{([^}]*)\}%s\n"%(re.escape(pre),end),s,flags=re.M)
    if not m: return False
    names=[n.strip() for n in m[1].split(",")]
    if OP not in names: return False
    names.remove(OP)
    new="%sRattle.laws.specs.Choice.{%s}%s\n"%(pre,", ".join(names),end) if names else ""
    s=s[:m.start()]+new+s[m.end():]
    for mod in ("Rattle.std.specs.Prelude","Rattle.std.proofs.Common"):
        p=re.search(r"^%s%s\.\{([^}]*)\}%s\n"%(re.escape(pre),re.escape(mod),end),s,flags=re.M)
        if p:
            if OP not in [n.strip() for n in p[1].split(",")]:
                s=s[:p.end(1)]+", "+OP+s[p.end(1):]
            break
    else:
        line="%sRattle.std.specs.Prelude.{%s}%s\n"%(pre,OP,end)
        u=re.search(r"^(?:pub )?%s"%re.escape(pre),s,flags=re.M)
        s=s[:u.start()]+line+s[u.start():]
    open(path,"w",encoding="utf-8").write(s)
    return True
n=0
for at,dirs,files in os.walk("crates"):
    if "out" in dirs: dirs.remove("out")
    for f in files:
        if f.endswith((".antt",".rt")): n+=turn(os.path.join(at,f))
p="crates/laws/specs/Choice.antt"
s=open(p,encoding="utf-8").read()
s=s.replace("""infixr 20 if◌then◌else◌
-- the first value where the test holds, else the second
abbrev pub if◌then◌else◌ : {A : Type 0} → Bool → A → A → A
if true then a else b = a
if false then a else b = b

""","").replace("How the definitions choose between two values, and count: by tests","How the definitions count: by tests").replace("◌||◌, List, [], ◌∷◌}","◌||◌, List, [], ◌∷◌, if◌then◌else◌}")
open(p,"w",encoding="utf-8").write(s)
print(n)
