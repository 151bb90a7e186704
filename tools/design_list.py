#!/usr/bin/env python3
"""Prints what changed of the public functions, types and definitions since a commit, old and new beside each other: `python3 tools/design_list.py COMMIT`.
docs/DESIGN-PASS.md ends with what it printed."""
import collections
import re
import subprocess
import sys

commit = sys.argv[1]


def git(*words):
    return subprocess.run(["git", *words], capture_output=True, text=True, check=True).stdout


def texts(rev, wanted=r"crates/\w+/(src/.*\.rt|specs/.*\.antt)$"):
    """the files of a commit, read by one command"""
    names = [n for n in git("ls-tree", "-r", "--name-only", rev).split("\n") if re.match(wanted, n)]
    asked = "".join(f"{rev}:{n}\n" for n in names)
    raw = subprocess.run(["git", "cat-file", "--batch"], input=asked.encode(), capture_output=True, check=True).stdout
    out, at = {}, 0
    for name in names:
        end = raw.index(b"\n", at)
        size = int(raw[at:end].split()[2])
        out[name] = raw[end + 1 : end + 1 + size].decode()
        at = end + 1 + size + 1
    return out


def named():
    """the names that README and docs/ have in backticks, at the commit and now"""
    words = set()
    for rev in (commit, "HEAD"):
        for text in texts(rev, r"(README\.md|docs/(?!DESIGN-PASS).*\.md)$").values():
            words |= set(re.findall(r"`([A-Za-z_0-9\-']+)`", text))
    return words


def theorems(rev, names):
    """(crate, name) -> statement, of lemmas in proofs/ that a page names"""
    found = collections.OrderedDict()
    for name, text in texts(rev, r"crates/\w+/proofs/[^/]*\.antt$").items():
        crate = name.split("/")[1]
        for m in re.finditer(r"^ *pub ([\w\-']+) :(.*?)(?=^ *(?:unfolding )|^ *\1\b)", text, re.M | re.S):
            if m.group(1) in names:
                found[(crate, m.group(1))] = squeeze(m.group(2))
    return found


def squeeze(text):
    text = re.sub(r"\s+", " ", text).strip()
    return re.sub(r"\(\s*(.*?),? \)", r"(\1)", text)


def functions(files):
    """(crate, name) -> head with its clauses, of public functions"""
    found = collections.OrderedDict()
    for name, text in files.items():
        if not name.endswith(".rt"):
            continue
        crate = name.split("/")[1]
        owner = None
        lines = re.sub(r"//[^\n]*", "", text).split("\n")
        i = 0
        while i < len(lines):
            line = lines[i]
            m = re.match(r"impl(?:<[^>]*>)? (?:(?P<trait>[\w<>:, ]+?) for )?(?P<type>\w+)", line)
            if m:
                owner = m.group("type") + (" (" + m.group("trait") + ")" if m.group("trait") else "")
            m = re.match(r"pub trait (\w+)", line)
            if m:
                owner = m.group(1)
            if line.startswith("}"):
                owner = None
            m = re.match(r" *(?:pub )?(?:extern \"C\" )?fn (\w+)", line)
            if m and (re.match(r" *pub ", line) or (owner and "(" in owner)):
                head = []
                while i < len(lines):
                    text_line = lines[i]
                    if re.match(r"^ *\{$", text_line) or (text_line.rstrip().endswith("{") and not re.match(r" *(ensures|requires)", text_line)):
                        head.append(text_line.rstrip().rstrip("{"))
                        break
                    if re.match(r" *(ensures|requires).*\}$", text_line) or not text_line.rstrip().endswith(";"):
                        head.append(text_line)
                        i += 1
                        continue
                    head.append(text_line)
                    break
                found[(crate, (owner + "::" if owner else "") + m.group(1))] = squeeze("\n".join(head))
            i += 1
    return found


def types(files):
    found = collections.OrderedDict()
    for name, text in files.items():
        if not name.endswith(".rt"):
            continue
        crate = name.split("/")[1]
        text = re.sub(r"//[^\n]*", "", text)
        for m in re.finditer(r"^pub (enum|struct|trait) (\w+)[^;{]*(?:;|\{(?:.*?)^\})", text, re.M | re.S):
            if m.group(1) != "trait":
                found[(crate, m.group(2))] = squeeze(m.group(0))
        for m in re.finditer(r"^impl(?:<[^>]*>)? Model for (\w+).*?^\}", text, re.M | re.S):
            found[(crate, "Model for " + m.group(1))] = squeeze(m.group(0))
    return found


def definitions(files):
    found = collections.OrderedDict()
    for name, text in files.items():
        if not name.endswith(".antt"):
            continue
        crate = name.split("/")[1]
        lines = [l for l in text.split("\n") if not l.lstrip().startswith("--")]
        key, body = None, []
        for line in lines + ["pub end"]:
            m = re.match(r"(?:abbrev |unfoldable )?pub (?:record |data )?([^\s:]+)", line)
            starts = re.match(r"(abbrev |unfoldable |pub |record |data |module |use |infix)", line)
            if starts and not re.match(r"pub (mod|use)", line):
                if key:
                    found[(crate, key)] = squeeze("\n".join(body))
                key, body = (m.group(1) if m else None), []
            elif starts:
                if key:
                    found[(crate, key)] = squeeze("\n".join(body))
                key, body = None, []
            body.append(line)
    return found


def listed(title, old, new):
    print(f"### {title}\n")
    keys = list(old) + [k for k in new if k not in old]
    by = collections.OrderedDict()
    for k in keys:
        if old.get(k) != new.get(k):
            by.setdefault(k[0], []).append(k)
    for crate, ks in by.items():
        print(f"**{crate}**\n\n```text")
        for k in ks:
            print(f"{k[1]}")
            print(f"  old: {old.get(k, '-')}")
            print(f"  new: {new.get(k, '-')}")
        print("```\n")


before, after = texts(commit), texts("HEAD")
listed("Public functions, with their clauses", functions(before), functions(after))
listed("Public types, with their invariants", types(before), types(after))
listed("Definitions", definitions(before), definitions(after))
names = named()
listed("Theorems in proofs/ that README or docs/ name", theorems(commit, names), theorems("HEAD", names))
