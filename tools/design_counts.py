#!/usr/bin/env python3
"""Counts the places of the design pass in crates/*/src of a tree: `python3 tools/design_counts.py [DIR]` prints the counts,
`--list POINT` each place. docs/DESIGN-PASS.md says what each count stands for. A count by patterns finds candidates: what is
no place after all stands in that page too."""
import collections
import glob
import os
import re
import sys

args = [a for a in sys.argv[1:] if not a.startswith("--")]
dir_ = args[0] if args and os.path.isdir(args[0]) else "."
listed = sys.argv[sys.argv.index("--list") + 1] if "--list" in sys.argv else None
files = {f: open(f).read() for f in sorted(glob.glob(os.path.join(dir_, "crates/*/src/*.rt")))}


def code(text):
    return re.sub(r"//[^\n]*", "", text)


def places(pattern, flags=re.M):
    found = []
    for f, text in files.items():
        text = code(text)
        for m in re.finditer(pattern, text, flags):
            found.append((f, text.count("\n", 0, m.start()) + 1, m.group(0).strip().split("\n")[0][:90]))
    return found


def types():
    for f, text in files.items():
        text = code(text)
        for m in re.finditer(r"^(?:pub )?(enum|struct) (\w+)[^{;]*\{(.*?)^\}", text, re.M | re.S):
            yield f, text.count("\n", 0, m.start()) + 1, m.group(1), m.group(2), m.group(3)


def variants(body):
    return [v.strip() for v in re.split(r",(?![^({]*[)}])", body) if v.strip()]


def own_results():
    """enums with a variant that carries a refusal number, or of two variants of which one at most carries a value and is alone in it"""
    out = []
    for f, line, kind, name, body in types():
        vs = variants(body)
        if kind == "enum" and (
            any(re.match(r"Refused\(", v) for v in vs)
            or (len(vs) == 2 and sum("(" in v or "{" in v for v in vs) == 1)
        ):
            out.append((f, line, "enum " + name))
        if kind == "struct" and any(re.match(r"(pub )?\w+: bool$", v) or re.match(r"(pub )?number: u32$", v) for v in vs):
            out.append((f, line, "struct " + name))
    return out


def parameters():
    """function heads with the two tables, and those with a table and a room or count"""
    return places(r"kinds: &(?:mut )?\[u8[^)]*?words: &(?:mut )?\[u64", re.S)


def requires():
    """clauses that stand in three or more contracts: each place of them"""
    by = collections.defaultdict(list)
    for f, line, text in places(r"^\s+requires \w* ?\{.*\}"):
        by[re.sub(r"^requires \w* ?", "", text)].append((f, line, text))
    return [p for ps in by.values() if len(ps) >= 3 for p in ps]


def twins():
    """functions of three lines or more whose bodies are the same but for names and numbers"""
    by = collections.defaultdict(list)
    for f, text in files.items():
        text = code(text)
        for m in re.finditer(r"^( *)(?:pub )?fn (\w+)[^{]*?(?:\{[^{}\n]*\}[^{]*?)*\n\1\{\n(.*?)^\1\}", text, re.M | re.S):
            names = {}
            body = re.sub(r"\b[A-Za-z_]\w*\b|\b\d\w*\b", lambda w: w.group(0) if w.group(0) in ("let", "mut", "if", "else", "while", "for", "in", "match", "return", "as") else names.setdefault(w.group(0), "n%d" % len(names)), m.group(3))
            body = re.sub(r"\s+", " ", body)
            if body.count(";") + body.count("{") >= 3:
                by[body].append((f, text.count("\n", 0, m.start()) + 1, "fn " + m.group(2)))
    return [p for ps in by.values() if len(ps) >= 2 for p in ps]


def answers():
    out = []
    for f in sorted(glob.glob(os.path.join(dir_, "crates/*/proofs/**/Answers.antt"), recursive=True)):
        for n, l in enumerate(open(f).read().split("\n"), 1):
            if l.startswith("pub ") and ": goal." in l:
                out.append((f, n, l))
    return out


points = [
    ("1a", "own enums and structs of the shape of Option or Result, flags beside values", own_results),
    ("1b", "refusal numbers by name", lambda: places(r"refusals::[A-Z_]{3,}")),
    ("1c", "`let .. else` that hands a refusal on by hand", lambda: places(r"else \{\s*return (?:\w+|answer_of\(\w+\)|crate::answer::answer_of\(\w+\));\s*\}", re.M | re.S)),
    ("1d", "functions that give 0 or a refusal number", lambda: places(r"^\s*if \w+ != 0 \{\s*return [^;]*;", re.M | re.S)),
    ("2", "functions whose bodies are the same but for names and numbers", twins),
    ("3", "`while` loops", lambda: places(r"^\s*while .*")),
    ("4", "functions for equality, conversion and printing", lambda: places(r"^\s*(?:pub )?fn (?:same\w*|put_\w+|\w+_of_word|from_word|to_word|kind_of|word_of|decode|number_of|\w+_text)\b[^{]*")),
    ("5a", "function heads with both tables beside one another", parameters),
    ("5b", "clauses that stand in three contracts or more", requires),
    ("6", "types with an array and a number that says how much of it counts", lambda: [(f, l, n) for f, l, k, n, b in types() if k == "struct" and re.search(r"\[u\d+; ", b) and re.search(r": (u32|u64|usize)\b", b)]),
    ("7", "enums without or with plain values that only say which step to run", lambda: [(f, l, n) for f, l, k, n, b in types() if k == "enum" and n in ("One", "Two", "Binary", "Unary", "Indexed", "Entry", "Term", "Recurrence", "Operation", "Test", "Work", "Group", "Point")]),
    ("8", "answers in proofs of functions", answers),
]
for key, what, find in points:
    found = find()
    if listed == key:
        for f, line, text in found:
            print(f"{os.path.relpath(f, dir_)}:{line}: {text}")
    elif listed is None:
        print(f"{key:3} {len(found):5}  {what}")
