#!/usr/bin/env python3
"""Prints the lemmas and definitions that stood in proofs/ at a commit and do not stand there now, by file, with the functions whose proofs cited that file: `python3 tools/design_gone.py COMMIT`.
Their contracts state now what those lemmas were steps of. A line of a file that no function's proof cited says which other files did. docs/DESIGN-PASS.md has what it printed."""
import collections
import glob
import re
import subprocess
import sys

commit = sys.argv[1]


def git(*words):
    return subprocess.run(["git", *words], capture_output=True, text=True, check=True).stdout


def tree(names, read):
    return {n: read(n) for n in names if re.match(r"crates/\w+/proofs/.*\.antt$", n)}


before = tree(git("ls-tree", "-r", "--name-only", commit).split("\n"), lambda n: git("show", f"{commit}:{n}"))
now = tree(glob.glob("crates/*/proofs/**/*.antt", recursive=True), lambda n: open(n).read())


def of_function(name):
    """the function of a proof file below proofs/, or nothing"""
    m = re.match(r"crates/(\w+)/proofs/(.+)/(?:Answers|Invariants|Lts\S*)\.antt$", name)
    return m and m.group(1) + "::" + m.group(2).replace("/", "::")


def lemmas(files):
    """file -> name -> statement, of lemmas, records and definitions"""
    out = collections.defaultdict(dict)
    for name, text in files.items():
        if not of_function(name):
            for m in re.finditer(r"^ *(?:pub (?:record |data )?|(?:abbrev|unfoldable) pub )([^\s:]+) (.*?)(?=^ *(?:unfolding |pub |abbrev |unfoldable |module |record |--|\1 )|\Z)", text, re.M | re.S):
                if m.group(1) not in ("mod", "use"):
                    out[name].setdefault(m.group(1), " ".join(m.group(2).split()))
    return out


def module(name):
    crate, rest = re.match(r"crates/(\w+)/proofs/(.+)\.antt$", name).groups()
    return f"Rattle.{crate}.proofs.{rest.replace('/', '.')}"


cites = {n: {m for m in re.findall(r"\bRattle\.\w+\.proofs(?:\.[\w+]+)+", t)} for n, t in before.items()}


def users(name, seen):
    """functions whose proofs cite a file, by way of other files where none cites it itself"""
    out = set()
    for other, cited in cites.items():
        if module(name) in cited and other not in seen:
            seen.add(other)
            out |= {of_function(other)} if of_function(other) else users(other, seen)
    return out


# kept are those that have their name in the crate still, or stand with it word for word in another: a lemma of another crate by the same name is another one
in_crate = {(name.split("/")[1], x) for name, names in lemmas(now).items() for x in names}
moved = {(x, s) for names in lemmas(now).values() for x, s in names.items()}
for name, names in sorted(lemmas(before).items()):
    gone = [x for x, s in names.items() if (name.split("/")[1], x) not in in_crate and (x, s) not in moved]
    if gone:
        crate, file = re.match(r"crates/(\w+)/proofs/(.+)$", name).groups()
        whose = sorted(f.split("::", 1)[1] if f.startswith(crate + "::") else f for f in users(name, {name}))
        more = f" and {len(whose) - 5} more" if len(whose) > 5 else ""
        print(f"| {crate} | {file} | {', '.join(f'`{x}`' for x in gone)} | {', '.join(f'`{w}`' for w in whose[:5]) or '-'}{more} |")
