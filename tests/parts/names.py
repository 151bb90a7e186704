#!/usr/bin/env python3
"""Says which names that README.md and docs/ (but for PORT.md and DESIGN-PASS.md, which name what is gone) have in backticks stand nowhere in crates/, and which files, folders and must-fail edits that they name are not there.
usage: tests/parts/names.py, at the root. A name of a definition, theorem, function or type is a word with _ or with a small and a capital letter; others are too common to look for."""
import glob
import os
import re
import sys

WORD = r"[A-Za-z_][\w'₀-₉]*"
# names of the Rust, of C, of tools and of the comparison, and names that a page says are gone
OTHERS = set("F64 powi evaluate_var Distributive x_65536 VarSupport factorial_moments_to_moments num_traits rustc_hash refused_first entry_fits entry_folds factorialsFrom at_X".split())


def read(path):
    with open(path, encoding="utf-8") as it:
        return it.read()


def pages():
    return ["README.md", *sorted(it for it in glob.glob("docs/**/*.md", recursive=True) if os.path.basename(it) not in ("PORT.md", "DESIGN-PASS.md"))]


def main():
    files = [it for part in ("src", "specs", "proofs") for end in ("rt", "antt") for it in glob.glob(f"crates/*/{part}/**/*.{end}", recursive=True)]
    words = {}
    for it in files:
        # (a proof's files say of which function they are)
        text = read(it)
        for word in set(re.findall(WORD, text)):
            words.setdefault(word, set()).add(it)
    code = set(re.findall(WORD, "".join(read(it) for it in [*glob.glob("include/*.h"), *glob.glob("compare/src/*.rs"), *glob.glob("compare/*.rs")])))
    edits = {os.path.basename(it)[:-5] for it in glob.glob("crates/*/must-fail/*.edit")} | {it.split("/")[1] for it in glob.glob("crates/*/")}
    bad = 0
    for page in pages():
        lines = [it for it in read(page).split("\n") if not it.startswith("    ")]
        for number, line in enumerate(lines, 1):
            for span in re.findall(r"`([^`]+)`", line):
                if re.search(r"\.sh|\.ci/|^rt |^cargo |pkg-config|=|/", span):
                    continue
                for word in re.findall(WORD, span):
                    is_name = "_" in word.strip("_") or re.search(r"[a-z][A-Z]", word)
                    if is_name and word not in words and word not in code and word not in edits and word not in OTHERS and f"bunlayog_{word}" not in code:
                        bad += 1
                        print(f"{page}: `{word}` stands nowhere in crates/")
            for path in re.findall(r"(?<![\w/.])((?:crates|compare|tests|tools|docs|include|samples|examples|parts)/[\w./-]*\w)", line):
                if not re.search(r"/(out|target)/|\.strip$", path) and not os.path.exists(path) and not os.path.exists(path.rstrip(".")):
                    bad += 1
                    print(f"{page}: {path} is not there")
    # where a table says in its last column in which files a name stands, it stands in one of them, or in a crate that the column names
    for page in ["docs/GUARANTEES.md"]:
        above = ""
        for line in read(page).split("\n"):
            cells = [it.strip() for it in re.split(r"(?<!\\)\|", line)[1:-1]]
            if len(cells) != 3 or not re.search(r"crates/|same file", cells[2]):
                continue
            where = above if "same file" in cells[2] else cells[2]
            above = where
            crates = {it for it in re.findall(r"[a-z][a-z_0-9]*", where + " " + cells[1] + " " + cells[0]) if os.path.isdir(f"crates/{it}")}
            for word in re.findall(WORD, " ".join(re.findall(r"`([^`]+)`", cells[1]))):
                is_name = "_" in word.strip("_") or re.search(r"[a-z][A-Z]", word)
                if is_name and word in words and word not in edits and not any(it.split("/")[1] in crates for it in words[word]):
                    bad += 1
                    print(f"{page}: `{word}` stands in none of the crates {' '.join(sorted(crates))}")
    # the edits of each row stand in the crate that is named before them, the edits of the arms' table in constructors
    for line in read("docs/GUARANTEES.md").split("\n"):
        cells = [it.strip() for it in line.split("|")[1:-1]]
        crate = "constructors" if len(cells) == 2 else None
        for found in re.finditer(r"([a-z_0-9]+): (?=`)|`([^`]+)`", cells[-1] if cells and (crate or re.match(r"[a-z_0-9]+: `", cells[-1])) else ""):
            crate = found[1] or crate
            if found[2] and not os.path.exists(f"crates/{crate}/must-fail/{found[2]}.edit"):
                bad += 1
                print(f"docs/GUARANTEES.md: {crate} has no edit {found[2]}")
    print(f"{bad} names and files of the pages are not there")
    return bad > 0


sys.exit(main())
