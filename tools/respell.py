#!/usr/bin/env python3
"""Brings this repository's own names in specs/, proofs/ and contracts to the spelling of today's Rattle, after port.py: words in snake case, a dash or a capital inside a word becomes '_'.
usage: tools/respell.py [ROOT]. Functions of src/, types, modules, strings and names of the kit stay. It says which names would fall together, and writes respelled.txt beside this script where there is none: old name, new name. respell_rest.py then turns what this pass did not see."""
import collections
import os
import re
import sys

ROOT = sys.argv[1] if len(sys.argv) > 1 else "."
TOKEN = re.compile(r"[^\s(){}\[\];,.:\"\\|@]+")
KIT_PATH = re.compile(r"^(?:pub )?(?:ghost )?use ((?!Rattle\.|crate)[A-Za-z_.]+|Rattle\.(?:std|core|io|os|libc|std_\w+)[\w.'-]*)\.\{([^}]*)\}")
USE = re.compile(r"^\s*(?:pub )?(?:ghost )?use ")


def turned(t):
    """The name in snake case, or the name itself."""
    if not re.match(r"^[A-Za-z_][A-Za-z0-9_'₀-₉¹²³⁻-]*$", t):
        return t
    if re.match(r"^[A-Z]", t) and "-" not in t:
        return t
    parts = t.split("-")
    out = []
    for p in parts:
        if re.match(r"^[a-z]", p):
            p = re.sub(r"(?<=[a-z0-9'])([A-Z])", lambda m: "_" + m.group(1).lower(), p)
        out.append(p)
    return "_".join(x for x in out if x)


def files(ending):
    for d, dirs, fs in os.walk(os.path.join(ROOT, "crates")):
        dirs[:] = sorted(x for x in dirs if x != "out")
        for f in sorted(fs):
            if f.endswith(ending):
                yield os.path.join(d, f)


def kit_names(text):
    """The names that a file brings in from the kit, each name that it goes by."""
    got = set()
    for m in re.finditer(r"(?ms)^(?:pub )?(?:ghost )?use ((?:native|lib|borrow|mathlib|mir|Prim|sem|denote|core|std)[\w.'-]*|Rattle\.(?:std|core|io|os|libc|std_\w+)[\w.'-]*)\.\{([^}]*)\}", text):
        for it in m.group(2).split(","):
            words = it.split()
            if words:
                got.add(words[-1])
                if len(words) == 3:
                    got.add(words[0])
    return got


def own_fields(texts):
    got = set()
    for t in texts.values():
        for m in re.finditer(r"(?m)^\s+(?:pub )?([a-z][\w'₀-₉-]*)(?: [({][^=]*)? : ", t):
            got.add(m.group(1))
        for m in re.finditer(r"(?m)^(?:unfoldable |abbrev |pub )*(?:data |record )?([A-Za-z][\w'₀-₉-]*)\s*[({:]", t):
            got.add(m.group(1))
        for m in re.finditer(r"(?m)^\s+(?:pub )?([a-z][\w'₀-₉-]*)\s*:", t):
            got.add(m.group(1))
    return got


# A lemma that would have its definition's name gets `_lem`; these lemmas of port.py's spelling stand beside a definition of that name.
LEMMAS = {
    "constructor_laws/proofs/Soundness.antt": ["mul_left"],
    "meaning/proofs/Tables.antt": ["mul_left"],
    "book_meaning/proofs/Recurrences.antt": ["node_at"],
    "situations/proofs/Constructors.antt": ["out_of_range"],
    "mul_rules/proofs/Insides.antt": ["is_one"],
    "mul_rules/proofs/one_lit/Proof.antt": ["is_one"],
}

# Lemmas inside others, found by a first run of this script.
LOCAL = "add-arms add-in add-table div-table exp-arms exp-at exp-table has-index log-arms log-at log-table max-table mul-exps mul-last mul-lits mul-pows mul-table node-fmt pow-table strip-below".split()


def lemma(t, own):
    """A dashed name whose snake case another name has or gets."""
    n = re.sub("-", "_", t)
    return "-" in t and t in own and (n in own or any(turned(o) == n for o in own if o != t and "-" not in o))


def spell(text, own, lemmas, said):
    kit = kit_names(text)
    out, last = [], 0
    code = re.sub(r'"(?:[^"\\]|\\.)*"', lambda m: " " * len(m.group(0)), text)
    code = re.sub(r"--[^\n]*", lambda m: comment(m.group(0)), code)
    for m in TOKEN.finditer(code):
        t = m.group(0)
        if t in kit or t.startswith("`") or t.endswith("`") and False:
            continue
        before = text[m.start() - 1] if m.start() else " "
        core = t.strip("`'") if t.startswith("`") else t
        n = lemmas.get(core) or turned(core)
        if n == core:
            continue
        if before == "." and core not in own:
            continue
        if before == "." and re.search(r"\b(tie|goal)\.$", text[max(0, m.start() - 6):m.start()]):
            continue
        if before != "." and core not in own and not is_local(core, code):
            continue
        said[core][n] += 1
        at = text.index(core, m.start())
        out.append(text[last:at])
        out.append(n)
        last = at + len(core)
    out.append(text[last:])
    return "".join(out)


def comment(c):
    """A comment with all blanked but what stands between backticks."""
    out, inside = [], False
    for ch in c:
        if ch == "`":
            inside = not inside
            out.append(" ")
        else:
            out.append(ch if inside else " ")
    return "".join(out)


def is_local(t, code):
    e = re.escape(t)
    return bool(re.search(r"(?:\blet|λ|\bwhere)\s+[({]?" + e + r"(?![\w'-])|[({]\s*(?:[\w'₀-₉-]+ )*" + e + r"(?: [\w'₀-₉-]+)* :|(?m:^\s*" + e + r"(?![\w'-]).*=)|λ [^.]*(?<![\w'-])" + e + r"(?![\w'-])[^.]*\.|\bas " + e, code))


def clauses(text):
    """The parts of a source file that speak antt: ghost items and clauses."""
    for m in re.finditer(r"ghost use [^;]*;|\bghost \w+: \{|\b(?:requires|ensures)\*?(?: \w+)? \{", text):
        if m.group(0).startswith("ghost use"):
            yield m.start(), m.end()
            continue
        deep, i = 1, m.end()
        while deep:
            deep += (text[i] == "{") - (text[i] == "}")
            i += 1
        yield m.end(), i


def main():
    texts = {p: open(p, encoding="utf-8").read() for p in files(".antt")}
    own = {n for n in own_fields(texts)}
    lemmas = {t: turned(t) + "_lem" for t in own | set(LOCAL) if t in LOCAL or lemma(t, own)}
    said = collections.defaultdict(collections.Counter)
    for p, t in texts.items():
        place = os.path.relpath(p, os.path.join(ROOT, "crates"))
        for it in LEMMAS.get(place, []):
            t = re.sub(r"(?<![\w.'-])" + it + r"(?![\w'-])", it + "_lem", t)
        n = spell(t, own, lemmas, said)
        if n != t:
            open(p, "w", encoding="utf-8").write(n)
    for p in files(".rt"):
        t = open(p, encoding="utf-8").read()
        kit = kit_names(t)
        out, last = [], 0
        for a, b in clauses(t):
            out.append(t[last:a])
            part = t[a:b]

            def turn(m):
                w = m.group(0)
                if w in kit or w not in own:
                    return w
                said[w][turned(w)] += turned(w) != w
                return turned(w)

            out.append(TOKEN.sub(turn, part))
            last = b
        out.append(t[last:])
        n = "".join(out)
        n = re.sub(r"(//[^\n]*)", lambda m: re.sub(r"`([^`\s]+)`", lambda k: "`" + (turned(k.group(1)) if k.group(1) in own else k.group(1)) + "`", m.group(1)), n)
        if n != t:
            open(p, "w", encoding="utf-8").write(n)
    by_new = collections.defaultdict(set)
    for old, news in said.items():
        for new in news:
            if new != old:
                by_new[new].add(old)
    for new, olds in sorted(by_new.items()):
        if len(olds) > 1 or new in own:
            print("falls together:", new, "<-", " ".join(sorted(olds)), "(there already)" if new in own else "")
    table = os.path.join(os.path.dirname(os.path.realpath(__file__)), "respelled.txt")
    if not os.path.exists(table):
        with open(table, "w") as f:
            for new, olds in sorted(by_new.items()):
                for old in sorted(olds):
                    f.write(f"{old} {new}\n")
    print(sum(len(o) for o in by_new.values()), "names respelled")


main()
