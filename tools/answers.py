#!/usr/bin/env python3
"""Turns proofs/F/Proof.antt of an older Rattle (after port.py and respell.py) into proofs/F/Invariants.antt and Answers.antt.
usage: tools/answers.py CRATE_FOLDER NAMES_JSON [F..]
NAMES_JSON is what `rt check --generated DIR --old-names` writes in the crate: for each goal and step its old name and the new one.
What it cannot place it says in a line 'look:'. rt check decides."""
import json
import os
import re
import sys

W = r"[\w'₀-₉⁻¹²³-]+"
START = {"args", "requires", "ranges", "well-formed", "well_formed", "lifetimes", "type_inv", "auto", "utf8"}


def norm(t):
    return re.sub(r"-lem$", "", t.replace("_", "-")).lower()


def tuple_path(i, n, unit):
    """The path to the i-th of n facts that stand in nested pairs, with a unit at their end or not."""
    if not unit and i == n - 1:
        return ["1"] * i
    return ["1"] * i + ["0"]


def signatures(root):
    """For each function its parameters, with those that are `&mut`, and the names of its clauses."""
    got = {}
    for d, _, fs in os.walk(os.path.join(root, "crates")):
        if "/src" not in d:
            continue
        crate = d.split("/crates/")[1].split("/")[0]
        for f in fs:
            if not f.endswith(".rt"):
                continue
            t = open(os.path.join(d, f), encoding="utf-8").read()
            mod = "" if f in ("lib.rt", "main.rt") else f[:-3] + "::"
            for m in re.finditer(r"\bfn (\w+)(?:<[^>]*>)?\(([^{]*?)\)[^{;]*?(?=\n?\s*(?:requires|ensures|\{))", t):
                ps = re.findall(r"(\w+): (&?(?:'\w+ )?(?:mut )?)", m.group(2))
                rest = t[m.end():]
                clauses = {"requires": [], "ensures": []}
                for k in re.finditer(r"\s*(requires|ensures)(?: (\w+))? \{", rest):
                    before = rest[:k.start()]
                    if "\n{" in before or re.search(r"\bfn ", before):
                        break
                    clauses[k.group(1)].append(k.group(2))
                got[f"{crate}::{mod}{m.group(1)}"] = ([a for a, _ in ps], [a for a, b in ps if "mut" in b], clauses, [a for a, b in ps if "&" in b])
    return got


class Function:
    def __init__(self, data, sigs):
        self.data = data
        self.sigs = sigs
        self.own = None
        self.places, self.arms, self.typed, self.callee, self.named = {}, {}, {}, {}, {}
        for i, row in enumerate(data["places"]):
            name, parent, (old, new) = row[0], row[1], row[2]
            self.places[name] = (parent, old, new)
            self.callee[name] = row[3]
            self.arms[name] = data["arms"][i] if i < len(data["arms"]) else None
            self.typed[name] = data["typed"][i] if i < len(data["typed"]) else []
            self.named[name] = data["places_by_name"][i] if i < len(data["places_by_name"]) else name
        self.at, self.new_of, self.exact = {}, {}, {}
        for (old, new), (place, _) in zip(data["needs"], data["asked_at"]):
            self.at[new] = place
            self.old_of = getattr(self, "old_of", {})
            self.old_of[new] = old
            self.new_of.setdefault(norm(old), new)
            self.exact.setdefault(norm(new), new)
        self.settled = {norm(x) for x in data.get("settled", [])}
        self.loops = data["loops"]
        self.changed = data["changed"]

    def need(self, text):
        t = norm(text)
        if self.need_of(t) is None and "result" in t and self.need_of(t.replace("result", "res")):
            return self.need_of(t.replace("result", "res"))
        return self.need_of(t)

    def need_of(self, t):
        for cand in (t, re.sub(r"^overflow-", "", t)):
            if cand in self.new_of:
                return self.new_of[cand]
        t2 = re.sub(r"^(nonzero|bounds|overflow)-", "", t)
        if t2 in self.new_of:
            return self.new_of[t2]
        if t in self.exact:
            return self.exact[t]
        return None

    def up(self, place):
        while place is not None:
            yield place
            place = self.places[place][0]

    def sig_of(self, callee):
        sig = self.sigs.get(callee) if callee else None
        if sig is None and callee:
            tails = [k for k in self.sigs if k.split("::")[0] == callee.split("::")[0] and k.split("::")[-1] == callee.split("::")[-1]]
            sig = self.sigs[tails[0]] if len(tails) == 1 else None
        return sig

    def owner(self, place, label):
        """The place whose step has this old label, seen from a place."""
        want = norm(label)
        for p in self.up(place):
            if self.places[p][1] and norm(self.places[p][1]) == want:
                return p
        return None

    def translate(self, place, segs):
        """A path's segments by today's names; None where nothing is known. The second is True where only a beginning of an arm's path stands there."""
        label, rest = segs[0], segs[1:]
        m = re.match(r"^result(\d*)$", label)
        if m and self.owner(place, label) is None:
            label = "res" + m.group(1)
        # what an arm binds
        partial = False
        for p in self.up(place):
            arm = self.arms.get(p)
            if not arm:
                continue
            for field, step, path in arm[2]:
                if norm(step) != norm(label):
                    continue
                if field.endswith("-own"):
                    if norm(step) == "match" and rest and not path and re.match(r"(keys|rest|key)", rest[0]) and p in list(self.up(place))[:list(self.up(place)).index(place) + 99]:
                        return [arm[0], field] + rest, False
                    continue
                if rest[:len(path)] == path:
                    return [arm[0], field] + rest[len(path):], False
                if path[:len(rest)] == rest:
                    partial = True
        if partial:
            return None, True
        # what a type says
        for p in self.up(place):
            for var, step in self.typed.get(p, []):
                if norm(step) == norm(label) and rest[:1] == ["given"]:
                    return ["type_inv", var] + rest[1:], False
        if norm(label) == "requires":
            pre = self.data.get("pre")
            if getattr(self, "cycle", False) and rest[:1] == ["1"]:
                rest = rest[1:]
            if pre and pre.get("fields"):
                n = len(pre["fields"])
                best = None
                for i, f in enumerate(pre["fields"]):
                    t = tuple_path(i, n, False)
                    t2 = tuple_path(i, n, True)
                    if i < n - 1 and rest[:len(t2)] == t2:
                        return ["requires", f] + rest[len(t2):], False
                    if i == n - 1 and rest[:len(t)] == t and not best:
                        best = ["requires", f] + rest[len(t):]
                if best:
                    return best, False
            return ["requires"] + rest, False
        o = self.owner(place, label)
        if o is None:
            return None, False
        new = self.places[o][2]
        callee = self.callee.get(o)
        sig = self.sigs.get(callee) if callee else None
        if sig is None and callee:
            tails = [k for k in self.sigs if k.split("::")[0] == callee.split("::")[0] and k.split("::")[-1] == callee.split("::")[-1]]
            sig = self.sigs[tails[0]] if len(tails) == 1 else None
        if sig and rest[:1] == ["new"] and rest[1:] and rest[1].isdigit():
            muts = sig[0]
            for i, m in enumerate(muts):
                t = tuple_path(i, len(muts), True)
                if rest[1:1 + len(t)] == t:
                    return [new, "new", m] + rest[1 + len(t):], False
        if sig and rest[:1] == ["ensures"] and len(sig[2]["ensures"]) > 1 and rest[1:] and rest[1].isdigit():
            es = sig[2]["ensures"]
            for i, m in enumerate(es):
                t = tuple_path(i, len(es), i < len(es) - 1)
                if rest[1:1 + len(t)] == t and m:
                    return [new, "ensures", m] + rest[1 + len(t):], False
        if sig and rest[:1] == ["auto"] and rest[1:] and rest[1].isdigit():
            muts = sig[0]
            for i, m in enumerate(muts):
                t = tuple_path(i, len(muts), True)
                if rest[1:1 + len(t)] == t:
                    return [new, "auto", m] + rest[1 + len(t):], False
        return [new] + rest, False

    def step(self, place, label):
        want = norm(label)
        p = place
        while p is not None:
            parent, old, new = self.places[p]
            if norm(old) == want and old:
                return new
            p = parent
        p = place
        while p is not None:
            parent, old, new = self.places[p]
            if norm(new) == want and new:
                return new
            p = parent
        return None


def blocks(text):
    """Top-level pieces: (comment lines, name, signature, rest lines)."""
    out, cur, pending = [], None, []
    for line in text.split("\n"):
        if re.match(r"^--", line) and (cur is None or cur["done"] or True) and not line.startswith(" "):
            if cur:
                out.append(cur)
                cur = None
            pending.append(line)
            continue
        if line.startswith("use ") or line.startswith("pub use "):
            if cur:
                out.append(cur)
            cur = {"kind": "use", "lines": [line], "comments": pending, "done": False}
            pending = []
            continue
        m = re.match(r"^((?:pub |abbrev |unfoldable |opaque |private )*)(\S+)\s*:(?:\s|$)", line)
        m2 = re.match(r"^(module|record|data|infix\w*|instance|pub record|pub data|abbrev record)\b", line)
        if (m and not line.startswith(" ")) or m2:
            if cur:
                out.append(cur)
            cur = {"kind": "decl", "name": m.group(2) if m and not m2 else None, "lines": [line], "comments": pending, "done": False, "mods": m.group(1) if m and not m2 else ""}
            pending = []
            continue
        if cur is None:
            if line.strip():
                pending.append(line)
            continue
        cur["lines"].append(line)
    if cur:
        out.append(cur)
    return out


def split_sig(lines, name):
    """Signature lines, and the lines of the clauses."""
    for i, l in enumerate(lines[1:], 1):
        if re.match(r"^(unfolding\b|" + re.escape(name) + r"(\s|$))", l):
            return "\n".join(lines[:i]), lines[i:]
    return "\n".join(lines), []


def rewrite(body, f, place, said, var="c", need=None, used=None):
    """Paths from var, and from lets that are places or parts of an arm's path, by today's names."""
    alias = {var: (place, [])}
    used = used if used is not None else set()

    def resolve(v, segs):
        p, pending = alias[v]
        segs = pending + segs
        i = 0
        while i < len(segs) and segs[i] == "before":
            q = f.places[p][0] if p in f.places else None
            if q is not None:
                p = q
            i += 1
        left = segs[i:]
        if left and norm(left[0]) not in START and f.owner(p, left[0]) is None and f.owner(place, left[0]) is not None:
            p = place
        return p, left

    def record(p):
        """A place as a value."""
        if need is not None:
            return f"(goal.at.{need} {var}).{f.named.get(p, p)}"
        k, q = 0, place
        while q is not None and q != p:
            q, k = f.places[q][0], k + 1
        return var + ".before" * k

    def path(m):
        v, rest = m.group(1), m.group(2)
        if v not in alias:
            return m.group(0)
        segs = [s for s in rest.split(".") if s]
        p, left = resolve(v, segs)
        if not left:
            if v == var and not segs:
                return m.group(0) if need is None or p == place and need is None else m.group(0)
            return record(p)
        if norm(left[0]) in START and norm(left[0]) != "requires":
            left[0] = left[0].replace("-", "_")
            if left[0] in ("args", "ranges") and len(left) > 1 and f.own:
                m2 = re.match(r"^t(\d+)$", left[1])
                if left[1] not in f.own[0] and m2 and int(m2.group(1)) <= len(f.own[0]):
                    left[1] = f.own[0][int(m2.group(1)) - 1]
                if left[1] == "result" and "result" not in f.own[0] and "res" in f.own[0]:
                    left[1] = "res"
            return ".".join([var] + left)
        new, partial = f.translate(p, left)
        if partial:
            said.append(f"a part of an arm: {'.'.join(left)} at {p}")
            return ".".join([var] + left)
        if new is None:
            n = f.step(p, left[0])
            if n is None:
                said.append(f"no step {left[0]} at {p}")
                return ".".join([var] + left)
            new = [n] + left[1:]
        if left[1:] == ["ensures"] and new[-1] == "ensures":
            o = f.owner(p, left[0])
            callee = f.callee.get(o) if o else None
            sig = f.sig_of(callee)
            es = sig[2]["ensures"] if sig else []
            if len(es) > 1 and all(es):
                base = ".".join([var] + new)
                t = f"{base}.{es[-1]}"
                for e in reversed(es[:-1]):
                    t = f"{base}.{e}, {t}" if t.startswith("(") is False and e == es[-2] else f"{base}.{e}, ({t})"
                return f"({t})"
        return ".".join([var] + ["type_inv" if x == "type-inv" else x for x in new])

    pattern = re.compile(r"(?<![\w'.₀-₉-])(" + W + r")((?:\.(?!\.)" + W + r")*)")
    out = []
    for line in body.split("\n"):
        while True:
            m = re.match(r"^(.*?)let (" + W + r") = (" + W + r")((?:\." + W + r")+) in(?:\s+(.*))?$", line)
            if not (m and m.group(3) in alias):
                break
            p, left = resolve(m.group(3), [s for s in m.group(4).split(".") if s])
            is_place = not left
            is_part = bool(left) and norm(left[0]) not in START and (f.translate(p, left)[1] or len(left) == 1 and f.owner(p, left[0]) is not None)
            if left[1:] == ["ensures"]:
                sig = f.sig_of(f.callee.get(f.owner(p, left[0])))
                is_part = is_part or bool(sig) and len(sig[2]["ensures"]) > 1
            if left == ["args"]:
                is_part = True
            if [norm(x) for x in left] == ["requires"]:
                is_part = len((f.data.get("pre") or {}).get("fields") or []) > 1
            if not (is_place or is_part):
                break
            alias[m.group(2)] = (p, left)
            line = m.group(1).rstrip(" ") + (" " if m.group(1).strip() and m.group(5) else "") + (m.group(5) or "") if m.group(1).strip() else (m.group(1) + m.group(5) if m.group(5) else "")
        if line.strip() or not out:
            out.append(pattern.sub(path, line))
    return re.sub(r"\(record \{ sfits = c\.known_told[\w-]*\.given[.\d]* \}\)", "(search rules)", re.sub(r"not-(?:true|false) (?:\([^()]*\)|\S+) (c\.if-not-[\w'-]+\.(?:true|false))", r"\1", "\n".join(out)))


def parts_of(t):
    """The parts of a tuple in parentheses, or None."""
    t = t.strip()
    if not (t.startswith("(") and t.endswith(")")):
        return None
    deep, out, start = 0, [], 1
    for i, ch in enumerate(t):
        deep += (ch in "([{") - (ch in ")]}")
        if deep == 0 and i < len(t) - 1:
            return None
        if ch == "," and deep == 1:
            out.append(t[start:i].strip())
            start = i + 1
    last = t[start:-1].strip()
    if last:
        out.append(last)
    return out if len(out) > 1 else None


def as_record(body, names):
    """An answer to several clauses, by their names."""
    if len(names) < 2:
        return body
    t = body.rstrip()
    deep = 0
    for i in range(len(t) - 1, -1, -1):
        deep += (t[i] in ")]}") - (t[i] in "([{")
        if deep == 0:
            break
    head, tail = t[:i], t[i:]
    whole = t.endswith(")") and (not head.strip() or head.rstrip().endswith(" in") or head.rstrip().endswith("="))
    got = parts_of(tail) if whole else None
    if got is None:
        words = re.split(r"\bin\b|^\s*=", t)
        last = t.rfind(" in\n")
        at = last + 4 if last >= 0 else 0
        tail = t[at:].strip()
        if " in " in tail or re.match(r"^(rw|omega|search|grind|simp|cc|record|let|elim|λ|subst|absurd)\b", tail) or not re.match(r"^[a-z_]", tail):
            return body
        paths = [tuple_path(i, len(names), False) for i in range(len(names))]
        return t[:at].rstrip() + ("\n    " if at else " ") + "let h = " + re.sub(r"\s*\n\s*", " ", tail) + " in\n    record { " + "; ".join(f"{n} = h." + ".".join(q) for n, q in zip(names, paths)) + " }"
    while len(got) < len(names):
        more = parts_of(got[-1])
        if more is None:
            return body
        got = got[:-1] + more
    if len(got) > len(names):
        got = got[:len(names)] if all(x == "tt" for x in got[len(names):]) else None
    if not got:
        return body
    return head + "record { " + "; ".join(f"{n} = {g}" for n, g in zip(names, got)) + " }"


def substitute(body, names):
    def one(m):
        w = m.group(0)
        return names.get(w, w)

    return re.sub(r"(?<![\w'.₀-₉-])" + W, one, body)


def alias_words(text):
    return set(re.findall(r"(?:let|λ) \(?(" + W + ")", text))


def turn(crate, where, f, said, prefix=None):
    """where: the folder below proofs/, with its Proof.antt."""
    folder = os.path.join(crate, "proofs", where)
    text = open(os.path.join(folder, "Proof.antt"), encoding="utf-8").read()
    name = os.path.basename(os.path.abspath(crate))
    mod = where.replace("/", ".")
    bs = blocks(text)
    head, uses, inv, ans, helpers = [], [], [], [], []
    lts = None
    used = set()
    answer_names, all_text = {}, "\n".join("\n".join(b["lines"]) for b in bs if b["kind"] == "decl" and not (b["name"] or "").endswith("_spec"))
    for b in bs:
        if b["kind"] == "decl" and b["name"]:
            m = re.search(r"(?:tie|lts)\.Need-([\w'-]+)", split_sig(b["lines"], b["name"])[0])
            if m and f.need(m.group(1)):
                answer_names[b["name"]] = f.need(m.group(1))
    for b in bs:
        if b["kind"] == "use":
            u = "\n".join(b["lines"]).rstrip()
            head += b["comments"]
            m = re.match(r"^use \S+\.Lts as (\S+)", u)
            if m:
                lts = m.group(1)
                continue
            if re.search(r"\.(Statement|Tie)(\.| as )", u):
                continue
            uses.append(u)
            continue
        nm = b["name"]
        comments = b["comments"]
        if nm is None:
            helpers.append("\n".join(comments + b["lines"]).rstrip())
            continue
        sig, rest = split_sig(b["lines"], nm)
        ty = sig.split(":", 1)[1]
        ty = re.sub(r"\s+", " ", ty)
        if re.search(r"\bstatement\b", ty) and nm.endswith("_spec"):
            continue
        m = re.match(r"^\s*tie\.(invariant|decreases)-?([\w'-]*)", ty) or re.match(r"^\s*tie\.(InvT|MeasureT)-?([\w'-]*)", ty)
        if m:
            kind = {"InvT": "invariant", "MeasureT": "decreases"}.get(m.group(1), m.group(1))
            loop = None
            for i, ((old, new), vs) in enumerate(f.loops):
                if norm(old) == norm(m.group(2)):
                    loop = (i, new, vs)
            if loop is None:
                said.append(f"no loop {m.group(2)}")
                helpers.append("\n".join(comments + b["lines"]).rstrip())
                continue
            i, new, vs = loop
            ch = f.changed[i]
            body = "\n".join(rest)
            mm = re.match(re.escape(nm) + r"((?:\s+[^\s=]+)*)\s*=", body)
            unf = ""
            if not mm:
                mm2 = re.match(r"((?:unfolding [^\n]*\n)*)", body)
                unf = mm2.group(1)
                body = body[len(unf):]
                mm = re.match(re.escape(nm) + r"((?:\s+[^\s=]+)*)\s*=", body)
            args = mm.group(1).split()
            after = body[mm.end():].rstrip()
            names = {}
            for k, a in enumerate(args):
                if a == "_":
                    continue
                if k < len(vs):
                    names[a] = ("l.initial." if ch[k] else "l.") + vs[k]
                else:
                    cs = [v for v, c in zip(vs, ch) if c]
                    if k - len(vs) < len(cs):
                        names[a] = "l." + cs[k - len(vs)]
                    else:
                        said.append(f"argument {a} of {nm}")
            if len(args) != len(vs) + sum(ch):
                said.append(f"{kind} {new}: {len(args)} arguments, {len(vs)} variables and {sum(ch)} changed: {' '.join(args)} / {vs} {ch}")
            new_name = f"{kind}-{new}"
            inv.append("\n".join(comments + [f"abbrev pub {new_name} : goal.{new_name}", unf + f"{new_name} l =" + substitute(after, names)]))
            continue
        m = re.match(r"^\s*(?:tie|" + (re.escape(lts) if lts else "lts") + r")\.Need-([\w'-]+)", ty)
        if m:
            new = f.need(m.group(1))
            if new is None:
                if norm(m.group(1)) not in f.settled:
                    said.append(f"no goal {m.group(1)} ({nm})")
                continue
            place = f.at[new]
            unf = [l for l in rest if l.startswith("unfolding")]
            body = "\n".join(l for l in rest if not l.startswith("unfolding")).rstrip()
            mm = re.match(re.escape(nm) + r"((?:\s+[^\s=]+)*)\s*=", body)
            if not mm:
                said.append(f"clause of {nm}")
                helpers.append("\n".join(comments + b["lines"]).rstrip())
                continue
            args = mm.group(1).split()
            after = body[mm.end():]
            cited = len(re.findall(r"(?<![\w'.-])" + re.escape(nm) + r"(?![\w'-])", all_text)) > 2
            if re.sub(r"\s+", " ", after).strip() in ("search rules", "omega arith") and not cited:
                continue
            if re.match(r"(enum_known|enum_told)", new) and re.match(r"^\s*c\.match\.keys?\d*\s*$", after):
                continue
            c = args[0]
            text2 = rewrite(after, f, place, said, c, new, used)
            text2 = as_record(text2, f.data["asked"].get(f.old_of[new], []))
            text2 = substitute(text2, {k: v for k, v in answer_names.items() if k != v and k not in alias_words(text2)})
            ans.append("\n".join(comments + [f"pub {new} : goal.{new}"] + unf + [f"{new} {' '.join(x for x in args if not x.startswith('κ'))} ={text2}"]).rstrip())
            continue
        m = re.search(r"\((" + W + r") : (?:tie|lts)\.(" + W + r")(?: invariant\S* decreases\S*?)*\)", "\n".join(b["lines"]))
        if m:
            want = [p for p in f.places if norm(p) == norm(m.group(2))]
            if want:
                arm = re.sub(r"-\d+$", "", f.named[want[0]])
                whole = [p for p in f.places if f.named[p] == arm and want[0] in f.up(p)]
                want = whole or want
                used.add(f.named[want[0]])
                t = rewrite("\n".join(b["lines"]).rstrip(), f, want[0], said, m.group(1), None, used)
                t = re.sub(r": (?:tie|lts)\." + re.escape(m.group(2)) + r"(?: invariant\S* decreases\S*?)*(?=\))", ": " + f.named[want[0]], t)
                helpers.append("\n".join(comments + [t]))
                continue
            said.append(f"no place {m.group(2)}")
        helpers.append("\n".join(comments + b["lines"]).rstrip())
    places = [f"use Rattle.{name}.proofs.{mod}.Goals.{{{', '.join(sorted(used))}}}"] if used and helpers else []
    if "search rules" in "\n".join(helpers + ans) and not re.search(r"\brules\b", "\n".join(uses)):
        uses.append("use Rattle.std.proofs.Common.{rules}")
    if inv:
        words = set(re.findall(W + r"|◌[^\s,{}]*◌|[^\s\w(){},.;]+", "\n".join(inv)))
        src = [u for u in uses if any(w in u for w in words) or True]
        h = [x for x in helpers if False]
        with open(os.path.join(folder, "Invariants.antt"), "w", encoding="utf-8") as o:
            o.write("\n".join(head + src + [f"use Rattle.{name}.proofs.{mod}.Given as goal"]) + "\n\n" + "\n\n".join(inv) + "\n")
    if ans or helpers:
        with open(os.path.join(folder, "Answers.antt"), "w", encoding="utf-8") as o:
            o.write("\n".join(head + uses + [f"use Rattle.{name}.proofs.{mod}.Goals as goal"] + places) + "\n\n" + "\n\n".join(helpers + ans) + "\n")
    os.remove(os.path.join(folder, "Proof.antt"))


def turn_cycle(crate, where, members, sigs, said):
    """A cycle's folder: members is a list of (function name, Function)."""
    folder = os.path.join(crate, "proofs", where)
    text = open(os.path.join(folder, "Proof.antt"), encoding="utf-8").read()
    name = os.path.basename(os.path.abspath(crate))
    mod = where.replace("/", ".")
    by = {}
    bs = blocks(text)
    head, uses, inv, ans, helpers, used = [], [], [], [], [], set()
    for b in bs:
        if b["kind"] == "use":
            u = "\n".join(b["lines"]).rstrip()
            head += b["comments"]
            m = re.match(r"^use \S+\.Lts(?:-(\S+))? as (\S+)", u)
            if m:
                for fn, f in members:
                    if m.group(1) is None or norm(fn) == norm(m.group(1)):
                        by[m.group(2)] = (fn, f)
                continue
            if re.search(r"\.(Statement|Tie|Reads|Kinds)( as |\.\{)", u) or re.search(r"\.\+\S+\.\{statement\}", u) or "borrow.Fn." in u:
                continue
            uses.append(u)
    answer_names = {}
    lts = "|".join(re.escape(k) for k in sorted(by, key=len, reverse=True)) or "lts"
    for b in bs:
        if b["kind"] == "decl" and b["name"]:
            m = re.search(r"(?<![\w'-])(" + lts + r")\.Need-([\w'-]+)", split_sig(b["lines"], b["name"])[0])
            if m and by[m.group(1)][1].need(m.group(2)):
                f = by[m.group(1)][1]
                answer_names[b["name"]] = f.data["stem"] + f.need(m.group(2))
    for b in bs:
        if b["kind"] == "use":
            continue
        nm, comments = b["name"], b["comments"]
        whole = "\n".join(b["lines"]).rstrip()
        if nm is None:
            helpers.append("\n".join(comments + [whole]))
            continue
        sig, rest = split_sig(b["lines"], nm)
        if re.search(r"[-_]spec$", nm) and "statement" in sig:
            continue
        if re.search(r":\s*Measures\b", sig):
            word = re.sub(r"^μ-?_?", "", nm).replace("-", "_") or members[0][0]
            fns = [fn for fn, f in members if norm(fn) == norm(word)] or [members[0][0]]
            fn = fns[0]
            key = [k for k in sigs if k.split("::")[0] == name and k.split("::")[-1] == fn]
            body = "\n".join(rest)
            body = body[body.index("=") + 1:].strip()
            params = sigs[key[0]][0] if key else []
            refs = sigs[key[0]][3] if key else []

            def arg(m):
                k = m.group(1).count("1")
                return "l." + params[k] + (".now" if params[k] in refs else "") if k < len(params) else m.group(0)

            body = re.sub(r"(?<![\w.])a((?:\.1)*\.0)(?![\w.])", arg, body)
            inv.append("\n".join(comments + [f"abbrev pub decreases-{fn} : goal.decreases-{fn}", f"decreases-{fn} l = {body}"]))
            continue
        m = re.search(r"(?<![\w'-])(" + lts + r")\.(invariant|decreases)[-_]([\w'-]+)", sig)
        if m:
            fn, f = by[m.group(1)]
            loop = None
            for i, ((old, new), vs) in enumerate(f.loops):
                if norm(old) == norm(m.group(3)):
                    loop = (i, new, vs)
            if loop is None:
                said.append(f"no loop {m.group(3)}")
                helpers.append("\n".join(comments + [whole]))
                continue
            i, new, vs = loop
            ch = f.changed[i]
            unf = [l for l in rest if l.startswith("unfolding")]
            body = "\n".join(l for l in rest if not l.startswith("unfolding")).rstrip()
            mm = re.match(re.escape(nm) + r"((?:\s+[^\s=]+)*)\s*=", body)
            args = mm.group(1).split()
            after = body[mm.end():].rstrip()
            extra = len(args) - len(vs) - sum(ch)
            if extra:
                said.append(f"{m.group(2)} {new}: {len(args)} arguments, {len(vs)} variables and {sum(ch)} changed: {' '.join(args)} / {vs} {ch}")
            sub = {}
            for k, a in enumerate(args):
                if a == "_":
                    continue
                if k < len(vs):
                    sub[a] = ("l.initial." if ch[k] else "l.") + vs[k]
                else:
                    cs = [v for v, c in zip(vs, ch) if c]
                    if k - len(vs) < len(cs):
                        sub[a] = "l." + cs[k - len(vs)]
            full = f"{m.group(2)}-{f.data['stem']}{new}"
            inv.append("\n".join(comments + [f"abbrev pub {full} : goal.{full}"] + unf + [f"{full} l =" + substitute(after, sub)]))
            continue
        m = re.search(r"(?<![\w'-])(" + lts + r")\.Need-([\w'-]+)", sig)
        if m:
            fn, f = by[m.group(1)]
            f.cycle = True
            new = f.need(m.group(2))
            if new is None:
                if norm(m.group(2)) not in f.settled:
                    said.append(f"no goal {m.group(2)} ({nm})")
                continue
            place = f.at[new]
            full = f.data["stem"] + new
            unf = [l for l in rest if l.startswith("unfolding")]
            body = "\n".join(l for l in rest if not l.startswith("unfolding")).rstrip()
            mm = re.match(re.escape(nm) + r"((?:\s+[^\s=]+)*)\s*=", body)
            if not mm:
                said.append(f"clause of {nm}")
                continue
            args = [a for a in mm.group(1).split() if not a.startswith("κ")]
            after = body[mm.end():]
            cited = len(re.findall(r"(?<![\w'.-])" + re.escape(nm) + r"(?![\w'-])", text)) > 3
            if re.sub(r"\s+", " ", after).strip() in ("search rules", "omega arith", "c.match.keys1", "c.match.keys2") and not cited:
                continue
            if re.match(r"(enum_known|enum_told)", new) and re.search(r"\.keys?\d", after) or new.endswith("requires") and re.match(r"^\(\s*omega.*,\s*tt\s*\)$", re.sub(r"let start = \S+ in", "", re.sub(r"\s+", " ", after)).strip()):
                continue
            c = args[-1]
            t2 = rewrite(after, f, place, said, c, full + ''.join(' ' + x for x in args[:-1]), used)
            t2 = as_record(t2, f.data["asked"].get(f.old_of[new], []))
            t2 = substitute(t2, {k: v for k, v in answer_names.items() if k != v and k not in alias_words(t2)})
            ans.append("\n".join(comments + [f"pub {full} : goal.{full}"] + unf + [f"{full} {' '.join(args)} ={t2}"]).rstrip())
            continue
        if "kinds.ps" in whole or re.search(r"\bIn \d", whole) or re.search(r"\.Claims\b", sig):
            continue
        helpers.append("\n".join(comments + [whole]))
    if "search rules" in "\n".join(helpers + ans) and not re.search(r"\brules\b", "\n".join(uses)):
        uses.append("use Rattle.std.proofs.Common.{rules}")
    if inv:
        with open(os.path.join(folder, "Invariants.antt"), "w", encoding="utf-8") as o:
            o.write("\n".join(head + uses + [f"use Rattle.{name}.proofs.{mod}.Given as goal"]) + "\n\n" + "\n\n".join(inv) + "\n")
    if ans or helpers:
        with open(os.path.join(folder, "Answers.antt"), "w", encoding="utf-8") as o:
            o.write("\n".join(head + uses + [f"use Rattle.{name}.proofs.{mod}.Goals as goal"]) + "\n\n" + "\n\n".join(helpers + ans) + "\n")
    os.remove(os.path.join(folder, "Proof.antt"))


def main():
    crate, names = sys.argv[1], json.load(open(sys.argv[2]))
    only = sys.argv[3:]
    name = os.path.basename(os.path.abspath(crate))
    sigs = signatures(os.path.dirname(os.path.dirname(os.path.abspath(crate))))
    cycles = {}
    for key, data in sorted(names.items()):
        m = re.match(r"^Rattle-" + name + r"-proofs\.(.*)\.Lts$", key)
        if not m:
            m2 = re.match(r"^Rattle-" + name + r"-proofs\.(.*\+[^.]*)\.Lts-(.*)$", key)
            if m2:
                cycles.setdefault(m2.group(1).replace(".", "/"), []).append((m2.group(2), Function(data, sigs)))
            continue
        where = m.group(1).replace(".", "/")
        if "/+" in "/" + where:
            cycles.setdefault(where, []).append((where.split("+")[-1], Function(data, sigs)))
            continue
        if only and where not in only:
            continue
        if not os.path.exists(os.path.join(crate, "proofs", where, "Proof.antt")):
            continue
        said = []
        try:
            f = Function(data, sigs)
            f.own = f.sig_of(name + "::" + where.replace("/", "::"))
            turn(crate, where, f, said)
        except Exception as e:
            said.append(f"not turned: {type(e).__name__} {e}")
        for s in said:
            print(f"look: {name} {where}: {s}")
    for where, members in sorted(cycles.items()):
        if only and where not in only or not os.path.exists(os.path.join(crate, "proofs", where, "Proof.antt")):
            continue
        said = []
        turn_cycle(crate, where, members, sigs, said)
        for s in said:
            print(f"look: {name} {where}: {s}")


main()
