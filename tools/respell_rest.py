#!/usr/bin/env python3
"""Second pass of respell.py: names that it respelled where they are declared (respelled.txt beside this script) and that other files still have in the old spelling.
usage: tools/respell_rest.py [ROOT]. Labels behind a dot and goals of functions stay."""
import os
import re
import sys

ROOT = sys.argv[1] if len(sys.argv) > 1 else "."
TOKEN = re.compile(r"[^\s(){}\[\];,.:\"\\|@`]+")
new_of = {}
for line in open(os.path.join(os.path.dirname(os.path.realpath(__file__)), "respelled.txt"), encoding="utf-8"):
    old, new = line.split()
    new_of[old] = new
KIT = re.compile(r"(?ms)^(?:pub )?(?:ghost )?use ((?:native|lib|borrow|mathlib|mir|Prim|sem|denote)[\w.'-]*|Rattle\.(?:std|core|io|os|libc|std_\w+)[\w.'-]*)\.\{([^}]*)\}")
changed = 0
for d, dirs, fs in os.walk(os.path.join(ROOT, "crates")):
    dirs[:] = [x for x in dirs if x != "out"]
    for f in fs:
        if not f.endswith((".antt", ".rt")):
            continue
        p = os.path.join(d, f)
        t = open(p, encoding="utf-8").read()
        kit = {w for m in KIT.finditer(t) for it in m.group(2).split(",") for w in it.split()}
        of_function = f in ("Proof.antt", "Answers.antt", "Invariants.antt")
        out, last = [], 0
        for m in TOKEN.finditer(t):
            w = m.group(0)
            if w not in new_of or w in kit:
                continue
            before = t[max(0, m.start() - 1):m.start()]
            dashed = "-" in w
            line = t[t.rfind("\n", 0, m.start()) + 1:(t + "\n").find("\n", m.end())]
            in_use = re.match(r"(?:pub )?(?:ghost )?use Rattle\.", line)
            if f.endswith(".rt") and (dashed or not re.search(r"[a-z][A-Z]", w)):
                continue
            if dashed and before == "." and not in_use:
                continue
            if dashed and of_function and not in_use and not re.search(r"(?<![\w'.-])" + re.escape(new_of[w]) + r"(?![\w'-])", t):
                continue
            if dashed and of_function and re.search(r"(^(pub )?|goal\.|tie\.)" + re.escape(w) + r"\b", line) and not in_use:
                continue
            out.append(t[last:m.start()])
            out.append(new_of[w])
            last = m.end()
        if out:
            out.append(t[last:])
            open(p, "w", encoding="utf-8").write("".join(out))
            changed += 1
print(changed, "files")
