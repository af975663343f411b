#!/usr/bin/env python3
"""Turns a crate's Proof.antt files that walk the code by hand into Invariants.antt and Answers.antt.

usage: python3 tools/answers.py CRATE NAMES [ROOT] [FUNCTION..]    NAMES: the names.json of `rt check --generated DIR --old-names` in the crate

Answers that the check is likely to find alone are left out; ROOT/target/dropped-CRATE.json keeps them, and
`python3 tools/answers.py --put CRATE LOG [ROOT]` puts those back that the check's LOG names. What can't be turned is marked TODO.
"""

import collections
import glob
import json
import os
import re
import sys

ID = r"[A-Za-z_\u03b1-\u03ba\u03bc-\u03c9][A-Za-z0-9_'\u2080-\u2089?\u207b\u00b9\u00b2\u00b3\u03b1-\u03ba\u03bc-\u03c9-]*"
EASY = {"omega arith", "search rules", "tt", "refl", "(search rules)", "λ _. tt"}


REFS = {}


def by_nest(fields, ls):
    """The label of a path into clauses that are nested to the right, and what is left of the path."""
    if len(ls) < 2:
        return fields
    k = 0
    while k < len(ls) - 1 and k < len(fields) and fields[k] == "1":
        k += 1
    if k == len(ls) - 1:
        return [ls[k]] + fields[k:]
    if k < len(fields) and fields[k] == "0":
        return [ls[k]] + fields[k + 1 :]
    return fields


def norm(s):
    return s.replace("_", "-").lower()


def labels_of(root):
    """function path -> (requires labels, ensures labels), in order; a lone clause counts one."""
    out = {}
    for f in glob.glob(os.path.join(root, "crates/*/src/**/*.rt"), recursive=True):
        parts = f.split("/crates/")[1].split("/")
        crate, mods = parts[0], [p.removesuffix(".rt") for p in parts[2:]]
        mods = [m for m in mods if m not in ("lib", "main", "mod")]
        imp, fn, grab = None, None, None
        for line in open(f, encoding="utf-8"):
            m = re.match(r"^impl(?:<[^>]*>)?\s+(\w+)", line)
            if m:
                imp = m.group(1)
            if re.match(r"^}", line):
                imp = None
            m = re.match(r"^\s*(?:pub(?:\([a-z]+\))? )?(?:const )?(?:extern \"C\" )?fn (\w+)", line)
            if m:
                fn = "::".join([crate] + ([] if imp else mods) + ([imp] if imp else []) + [m.group(1)])
                out[fn] = ([], [])
                REFS[fn] = []
                grab = fn
            if grab:
                inside = line.split("(", 1)[1] if "fn " in line and "(" in line else line
                for m in re.finditer(r"(?:^|[\s,(&])(?:mut )?(self\b|\w+(?=: ))", inside.split("->")[0]):
                    REFS[grab].append(m.group(1))
                if ") " in line or line.rstrip().endswith(")") or "{" in line:
                    grab = None
            m = re.match(r"^\s+(requires|ensures)\*?(?:\s+(\w+))?\s*\{", line)
            if m and fn:
                out[fn][0 if m.group(1) == "requires" else 1].append(m.group(2) or "")
    return out


def blocks(text):
    """Top-level declarations: (comment lines, signature, unfolding lines, body lines)."""
    lines, out, i, head = text.split("\n"), [], 0, []
    uses, com = [], []
    while i < len(lines):
        l = lines[i]
        if l.startswith("use ") or l.startswith("pub use "):
            u = l
            while u.count("{") > u.count("}"):
                i += 1
                u += " " + lines[i].strip()
            uses.append(u)
            if com and not out and not head:
                head = com
                com = []
        elif l.startswith("--"):
            com.append(l)
        elif l.strip() == "":
            if com and not uses and not head:
                head, com = com, []
        else:
            b = [l]
            while i + 1 < len(lines) and (lines[i + 1].startswith((" ", "}", ")")) or lines[i + 1] == ""):
                if lines[i + 1] == "" and not (i + 2 < len(lines) and lines[i + 2].startswith(" ")):
                    break
                i += 1
                b.append(lines[i])
            out.append((com, b))
            com = []
        i += 1
    # join: a signature block is followed by unfolding and equations
    decls, k = [], 0
    while k < len(out):
        c, b = out[k]
        first = b[0]
        if re.match(r"^(infix\w*|module|record|pub record|data|pub data)\s", first):
            decls.append([c, b, [], [], None])
            k += 1
            continue
        m = re.match(r"^(?:pub |abbrev |unfoldable )*([^\s:]+)", first)
        name = m.group(1)
        d = [c, b, [], [], name]
        k += 1
        while k < len(out) and not out[k][0]:
            nb = out[k][1]
            if nb[0].startswith("unfolding "):
                d[2] += nb
            elif re.match(re.escape(name) + r"(\s|$)", nb[0]) and not re.match(re.escape(name) + r"\s*:", nb[0]) and "=" in "\n".join(nb):
                d[3].append("\n".join(nb))
            else:
                break
            k += 1
        decls.append(d)
    return head, uses, decls


class Fn:
    def __init__(self, x, fn, labels):
        self.x, self.fn, self.labels = x, fn, labels
        self.parent, self.step, self.callee, self.new, self.newplace = {}, {}, {}, {}, {}
        self.arms = collections.defaultdict(dict)
        names = x["places_by_name"]
        for i, p in enumerate(x["places"]):
            self.parent[p[0]] = p[1]
            self.step[p[0]] = p[2]
            self.callee[p[0]] = p[3]
            self.newplace[p[0]] = names[i] if i < len(names) else p[0]
            a = x["arms"][i] if i < len(x["arms"]) else None
            if a:
                for field, step, path in a[2]:
                    self.arms[p[0]][(norm(step), tuple(path))] = (a[0], field)
        self.needs, self.used = {}, set()
        for (o, n), at in zip(x["needs"], x["asked_at"]):
            self.needs[norm(o)] = (n, at[0], at[1])

    def place(self, name):
        for p in self.parent:
            if norm(p) == norm(name):
                return p
        return None

    def up(self, place, n):
        for _ in range(n):
            if place is None:
                return None
            place = self.parent.get(place)
        return place

    def find(self, place, field):
        p = place
        while p is not None:
            if norm(self.step[p][0]) == norm(field):
                return p
            p = self.parent.get(p)
        return None


START = {"args", "requires", "ranges", "lifetimes", "well_formed", "utf8"}


def turn(text, fn, place, goal, todo, var="c"):
    """Rewrites the paths of a context variable in text."""
    alias = {var: place}
    # aliases, in order
    pat = re.compile(r"let (" + ID + r") = (" + ID + r")((?:\.before)*) in(?=\s)\s*")
    while True:
        done = False
        for m in pat.finditer(text):
            n, base, ups = m.group(1), m.group(2), m.group(3)
            if base in alias:
                alias[n] = fn.up(alias[base], ups.count(".before"))
                text = text[: m.start()] + text[m.end() :]
                done = True
                break
        if not done:
            break

    # names for the whole of a contract's clauses, or for a call's step
    clause = {}
    for m in re.finditer(r"let (" + ID + r") = (" + ID + r")((?:\.before)*)\.requires in(?=\s)", text):
        if m.group(2) in alias:
            clause[m.group(1)] = fn.labels.get(fn.fn, ([], []))[0]
    for m in re.finditer(r"let (" + ID + r") = (" + ID + r")((?:\.before)*)\.([\w-]+)(\.ensures)? in(?=\s)", text):
        if m.group(2) in alias and m.group(4) not in START:
            q = fn.up(alias[m.group(2)], m.group(3).count(".before"))
            if q is None or norm(fn.step[q][0]) != norm(m.group(4)):
                q = fn.find(alias[m.group(2)], m.group(4)) or fn.find(place, m.group(4)) or fn.find(place, re.sub(r"\d+$", "", m.group(4)))
            if q is not None and fn.callee.get(q):
                clause[m.group(1)] = fn.labels.get(fn.callee[q], ([], []))[1] if m.group(5) else ("step", fn.callee[q])

    # and for what is left of a contract's clauses
    tail = {}
    for m in re.finditer(r"let (" + ID + r") = (" + ID + r")((?:\.before)*)((?:\.requires)?)((?:\.1)+) in(?=\s)\s*", text):
        n, base, k = m.group(1), m.group(2), m.group(5).count(".1")
        if base in alias and m.group(4):
            ls, by = fn.labels.get(fn.fn, ([], []))[0], var + ".requires"
        elif isinstance(clause.get(base), list) and not m.group(3) and not m.group(4):
            ls, by = clause[base], base
        else:
            continue
        if k < len(ls) - 1:
            tail[n] = (by, ls[k:])
        elif k == len(ls) - 1:
            tail[n] = (by + "." + ls[k], None)
    for n in tail:
        text = re.sub(r"let " + re.escape(n) + r" = [^\n]*?(?:\.1)+ in\s*", "", text, count=1)

    def sub(m):
        base, ups, rest = m.group(1), m.group(2), m.group(3) or ""
        if base in tail and not ups:
            fields = rest.split(".")[1:] if rest else []
            by, ls = tail[base]
            return ".".join([by] + (by_nest(fields, ls) if ls else fields))
        if base in clause and not ups:
            fields = rest.split(".")[1:] if rest else []
            c = clause[base]
            if isinstance(c, tuple):
                if fields[:1] == ["ensures"]:
                    fields = fields[:1] + by_nest(fields[1:], fn.labels.get(c[1], ([], []))[1])
                elif fields[:1] in (["auto"], ["new"]) and len(fields) > 1 and fields[1].isdigit():
                    k = 1
                    while k < len(fields) and fields[k] == "1":
                        k += 1
                    refs = REFS.get(c[1], [])
                    if k - 1 < len(refs):
                        fields = [fields[0], refs[k - 1]] + fields[k + 1 :]
            else:
                if not fields and len(c) > 1 and not text[: m.start()].rstrip().endswith("let"):
                    todo.append("clauses as a whole: " + base)
                fields = by_nest(fields, c)
            return ".".join([base] + fields)
        if base not in alias:
            return m.group(0)
        p = fn.up(alias[base], ups.count(".before"))
        fields = rest.split(".")[1:] if rest else []
        if not fields:
            before = re.search(r"([^\s(){},;]+)[\s(]*$", text[: m.start()])
            if before and before.group(1) in fn.helpers:
                p = fn.helpers[before.group(1)]
            if p is None:
                todo.append("path")
                return m.group(0)
            if p == place and goal is None:
                return var
            fn.used.add(fn.newplace[p])
            return f"(goal.at.{goal or fn.newplace[place]} {var}).{fn.newplace[p]}"
        f = fields[0]
        if f in START:
            out = [var, f] + fields[1:]
            if f == "requires":
                out = [var, f] + by_nest(fields[1:], fn.labels.get(fn.fn, ([], []))[0])
            return ".".join(out)
        q = p if p is not None and norm(fn.step[p][0]) == norm(f) else None
        if q is None:
            q = fn.find(p, f) or fn.find(place, f) or fn.find(place, re.sub(r"\d+$", "", f))
        if q is None:
            todo.append("step " + f)
            return ".".join([var] + fields)
        best = None
        for (s, path), (arm, field) in fn.arms[q].items():
            if s == norm(f) and tuple(fields[1 : 1 + len(path)]) == path and (best is None or len(path) > best[0]):
                best = (len(path), arm, field)
        if best:
            return ".".join([var, best[1], best[2]] + fields[1 + best[0] :])
        out = [var, fn.step[q][1] or f] + fields[1:]
        callee = fn.callee.get(q)
        if callee and len(fields) > 1 and fields[1] in ("ensures", "requires"):
            ls = fn.labels.get(callee, ([], []))[1 if fields[1] == "ensures" else 0]
            out = out[:3] + by_nest(fields[2:], ls)
        if callee and len(fields) > 2 and fields[1] in ("auto", "new") and fields[2].isdigit():
            k = 2
            while k < len(fields) and fields[k] == "1":
                k += 1
            refs = REFS.get(callee, [])
            if k - 2 < len(refs):
                out = out[:3] + [refs[k - 2]] + fields[k + 1 :]
        if fields[1:3] == ["given", "1"]:
            out = out[:2] + ["is"] + fields[3:]
        return ".".join(out)

    body = re.compile(r"(?<![\w.'-])(" + ID + r")((?:\.before)*)((?:\.(?!before\b)" + r"[A-Za-z0-9_\u2080-\u2089'+-]+)*)")
    text = body.sub(sub, text)
    return re.sub(r"not-(?:true|false) _ (" + ID + r"\.[\w-]+\.(?:true|false))", r"\1", text)


def split_let(body):
    """(lets, last expression) of `let .. in let .. in E` by depth."""
    depth, i, last = 0, 0, 0
    toks = [(m.start(), m.group(0)) for m in re.finditer(r"[(){}\[\]]|\blet\b|\bin\b(?=\s)", body)]
    lets = 0
    for pos, t in toks:
        if t in "([{":
            depth += 1
        elif t in ")]}":
            depth -= 1
        elif depth == 0 and t == "in":
            last = pos + 2
    return body[:last], body[last:].strip()


def parts_of(e):
    e = e.strip()
    if not (e.startswith("(") and e.endswith(")")):
        return None
    depth, out, cur = 0, [], ""
    for i, ch in enumerate(e):
        if ch in "([{":
            depth += 1
        if ch in ")]}":
            depth -= 1
            if depth == 0 and i != len(e) - 1:
                return None
        if ch == "," and depth == 1:
            out.append(cur.strip())
            cur = ""
        elif not (depth == 1 and ch == "(" and i == 0) and not (i == len(e) - 1):
            cur += ch
    if cur.strip():
        out.append(cur.strip())
    return out if len(out) > 1 else None


def by_labels(body, ls, own=()):
    lets, last = split_let(body)
    m = re.fullmatch(r"(\w+)\.requires", last)
    if m and len(own) == len(ls):
        return lets + "record { " + "; ".join(f"{l} = {last}.{o}" for l, o in zip(ls, own)) + " }"
    ps, rest = [], last
    while len(ps) < len(ls) - 1:
        two = parts_of(rest)
        if not two or len(two) != 2:
            break
        ps.append(two[0])
        rest = two[1]
    ps.append(rest)
    if len(ps) == len(ls):
        return lets + (" " if lets else "") + "record { " + "; ".join(f"{l} = {p}" for l, p in zip(ls, ps)) + " }"
    nest = [".1" * i + (".0" if i < len(ls) - 1 else "") for i in range(len(ls))]
    return f"{lets} let both = {last} in record {{ " + "; ".join(f"{l} = both{n}" for l, n in zip(ls, nest)) + " }"


def keep_uses(uses, text):
    toks = set(re.findall(r"[^\s(){}\[\],.;`\"]+", text))
    out = []
    for u in uses:
        if ".Tie" in u or ".Statement" in u:
            continue
        m = re.match(r"(?:pub )?use ([^\s{]+)\.\{(.*)\}\s*$", u)
        if not m:
            out.append(u)
            continue
        items = []
        for it in [s.strip() for s in m.group(2).split(",") if s.strip()]:
            n = it.split()[-1]
            ps = [p for p in n.split("◌") if p]
            if n == "[]":
                if "[]" in text:
                    items.append(it)
                continue
            if all(p in toks or p in text for p in ps) and (ps and ("◌" in n or n in toks)):
                items.append(it)
        if items:
            out.append(f"use {m.group(1)}.{{{', '.join(items)}}}")
    return out


def clean_head(head):
    t = " ".join(l.lstrip("- ").rstrip() for l in head)
    t = re.sub(r"`[\w:]+` meets its contract(?:, [^.]*)?\.?\s*", "", t)
    t = re.sub(r"\s*Assumes nothing\.", "", t)
    t = re.sub(r"^Loop invariants?: ", "", t).strip()
    return ["-- " + t] if t else []


def convert(crate, folder, x, fnname, labels, dropped, said):
    path = os.path.join(folder, "Proof.antt")
    text = open(path, encoding="utf-8").read()
    if "Tie as tie" not in text:
        said.append((fnname, "no tie"))
        return
    fn = Fn(x, fnname, labels)
    head, uses, decls = blocks(text)
    module = "Rattle." + crate + ".proofs." + folder.split("/proofs/")[1].replace("/", ".")
    inv, ans, todo = [], [], []
    loops = {norm(l[0][0]): (l[0][1], l[1]) for l in x["loops"]}
    changed = {norm(l[0][0]): ch for l, ch in zip(x["loops"], x["changed"])}
    drop = {}
    fn.helpers = {}
    for com, sig, unf, eqs, name in decls:
        m = re.search(r"\(\s*\S+\s*:\s*tie\.(\S+?)(?:[\s)])", "\n".join(sig)) if name else None
        if m and fn.place(m.group(1)):
            fn.helpers[name] = fn.place(m.group(1))
    for com, sig, unf, eqs, name in decls:
        s = "\n".join(sig)
        if name is None:
            ans.append("\n".join(com + [s]))
            continue
        m = re.search(r":\s*tie\.(invariant|decreases)-(\S+)\s*$", s)
        if m:
            lo = loops.get(norm(m.group(2)))
            if not lo:
                todo.append("loop " + m.group(2))
                continue
            newl = lo[0]
            mm = re.match(re.escape(name) + r"\s+(.*?)\s*=\s(.*)$", eqs[0], re.S)
            ps, body = mm.group(1).split(), mm.group(2)
            vars_, ch = lo[1], changed[norm(m.group(2))]
            rep = {}
            # parameters: each variable, with its value when the loop began where the loop changes it; then those that change
            expected = [("init" if c else "same", v) for v, c in zip(vars_, ch)] + [("now", v) for v, c in zip(vars_, ch) if c]
            if len(expected) == len(ps):
                for p, (k, v) in zip(ps, expected):
                    rep[p] = ("l.initial." if k == "init" else "l.") + v
            else:
                todo.append(f"params of {name}: {ps} {vars_} {ch}")
                for p in ps:
                    b = p.rstrip("'₀")
                    rep[p] = ("l.initial." if "₀" in p else "l.") + b
            rep = {p: r for p, r in rep.items() if p != "_"}
            body = re.sub(r"(?<![\w.'-])(" + ID + r")", lambda q: q.group(1) if re.match(r"\s=\s", body[q.end() :]) else rep.get(q.group(1), q.group(1)), body)
            inv.append("\n".join(com + [f"abbrev pub {m.group(1)}-{newl} : goal.{m.group(1)}-{newl}"] + unf + [f"{m.group(1)}-{newl} l = {body}"]))
            continue
        m = re.search(r":\s*tie\.Need-(\S+)", s)
        if m and len(eqs) >= 1:
            key = norm(m.group(1))
            got = fn.needs.get(key) or fn.needs.get(key.removeprefix("overflow-").removeprefix("nonzero-")) or fn.needs.get(re.sub(r"^slice-bounds-", "part-", key))
            if not got:
                drop.setdefault("gone", []).append(m.group(1))
                continue
            new, at, atnew = got
            mm = re.match(re.escape(name) + r"\s+(\S+)((?:\s+[^\s=]+)*)\s*=\s(.*)$", eqs[0], re.S)
            if not mm or len(eqs) > 1:
                todo.append("shape of " + name)
                ans.append("\n".join(com + [s] + unf + eqs))
                continue
            var, more, body = mm.group(1), mm.group(2).split(), mm.group(3)
            more = "".join(" " + m for m in more if m != "\u03bas" and not (m == "_" and "-requires" in key))
            t2 = []
            body = turn(body, fn, at, new, t2, var) if var != "_" else body
            if key.startswith("returns"):
                ls = labels.get(fnname, ([], []))[1]
            elif re.search(r"-requires(-\d+)?$", key):
                base = re.sub(r"-requires(-\d+)?$", "", key)
                cs = [f for f in x["params"] if norm(f.split("::")[-1]) == base]
                cs = cs or [f for f in x["params"] if base.endswith(norm(f.split("::")[-1]))]
                ls = labels.get(cs[0], ([], []))[0] if cs else []
            else:
                ls = []
            if len(ls) > 1 and body.strip() not in EASY:
                body = by_labels(body, ls, labels.get(fnname, ([], []))[0])
            block = "\n".join(com + [f"pub {new} : goal.{new}"] + unf + [f"{new} {var}{more} = {body}"] + (["-- TODO " + "; ".join(t2)] if t2 else []))
            if body.strip() in EASY and not unf and not com:
                drop[new] = block
            else:
                ans.append(block)
                if t2:
                    todo.append(new)
            continue
        m = re.search(r"\(\s*(\S+)\s*:\s*tie\.(\S+?)(?:[\s)])", s)
        if m:
            var, ctx = m.group(1), m.group(2)
            p = fn.place(ctx)
            t2 = []
            if p is None:
                todo.append("context " + ctx)
                ans.append("\n".join(com + [s] + unf + eqs + ["-- TODO context"]))
                continue
            fn.used.add(fn.newplace[p])
            s2 = re.sub(r"\(\s*" + re.escape(var) + r"\s*:\s*tie\.[^()]*\)", f"({var} : {fn.newplace[p]})", s)
            hd, _, rest = s2.partition("→")
            s2 = hd + "→" + turn(rest, fn, p, None, t2, var)
            e2 = []
            for e in eqs:
                l, _, r = e.partition("=")
                v = l.split()[1] if len(l.split()) > 1 else var
                e2.append(l + "=" + turn(r, fn, p, None, t2, v))
            ans.append("\n".join(com + [s2] + unf + e2 + (["-- TODO " + "; ".join(t2)] if t2 else [])))
            if t2:
                todo.append(name)
            continue
        m = re.search(r":\s*tie\.(\S+)([^\u2192]*)\u2192(?!\s*tie\.)", s)
        if m and eqs and len(eqs) == 1 and fn.place(m.group(1)):
            p = fn.place(m.group(1))
            fn.used.add(fn.newplace[p])
            l, _, r = eqs[0].partition("=")
            t2 = []
            e = l + "=" + turn(r, fn, p, None, t2, l.split()[1])
            ans.append("\n".join(com + [s[: m.start()] + ": " + fn.newplace[p] + " \u2192" + s[m.end() :]] + unf + [e]))
            continue
        if "tie.close" in "\n".join(eqs) or re.search(r"statement", s):
            continue
        ans.append("\n".join(com + [s] + unf + eqs))
    hd = clean_head(head)
    if inv:
        t = "\n\n".join(inv)
        us = keep_uses(uses, t)
        open(os.path.join(folder, "Invariants.antt"), "w").write("\n".join(hd + us + [f"use {module}.Given as goal"]) + "\n\n" + t + "\n")
        hd = []
    t = "\n\n".join(ans)
    drop["uses"] = uses
    drop["module"] = module
    if ans:
        us = keep_uses(uses, t)
        ctx = sorted(fn.used)
        us += [f"use {module}.Goals as goal"] + ([f"use {module}.Goals.{{{', '.join(ctx)}}}"] if ctx else [])
        open(os.path.join(folder, "Answers.antt"), "w").write("\n".join(hd + us) + "\n\n" + t + "\n")
    os.remove(path)
    dropped[fnname] = {"folder": folder, "drop": drop}
    if todo:
        said.append((fnname, todo))


def put(crate, log, root):
    """Puts dropped answers back that the check's log names as open."""
    file = os.path.join(root, "target", f"dropped-{crate}.json")
    dropped = json.load(open(file))
    n = 0
    for line in open(log, encoding="utf-8"):
        m = re.match(r"fn ([\w:+]+): .*did not prove (.*)$", line)
        if not m or m.group(1) not in dropped:
            continue
        d = dropped[m.group(1)]
        goals = re.findall(r"`([^`]+)`", m.group(2))
        new = [d["drop"].pop(g) for g in goals if g in d["drop"]]
        if not new:
            continue
        path = os.path.join(d["folder"], "Answers.antt")
        t = "\n\n".join(new)
        us = keep_uses(d["drop"]["uses"], t)
        if os.path.exists(path):
            old = open(path).read()
            have = old.split("\n")
            add = [u for u in us if u not in have]
            k = next(i for i, l in enumerate(have) if l.startswith("use "))
            # names that stand in a group already are left out
            open(path, "w").write("\n".join(have[:k] + add + have[k:]).rstrip("\n") + "\n\n" + t + "\n")
        else:
            open(path, "w").write("\n".join(us + [f"use {d['drop']['module']}.Goals as goal"]) + "\n\n" + t + "\n")
        n += len(new)
    json.dump(dropped, open(file, "w"))
    print(n, "answers put back")


def main():
    if sys.argv[1] == "--put":
        return put(sys.argv[2], sys.argv[3], sys.argv[4] if len(sys.argv) > 4 else ".")
    crate, names = sys.argv[1], json.load(open(sys.argv[2]))
    root = sys.argv[3] if len(sys.argv) > 3 else "."
    only = set(sys.argv[4:])
    labels = labels_of(root)
    dropped, said = {}, []
    file = os.path.join(root, "target", f"dropped-{crate}.json")
    if os.path.exists(file) and only:
        dropped = json.load(open(file))
    base = os.path.join(root, "crates", crate, "proofs")
    for path in sorted(glob.glob(base + "/**/Proof.antt", recursive=True)):
        folder = os.path.dirname(path)
        rel = folder.split("/proofs/")[1]
        key = f"Rattle-{crate}-proofs.{rel.replace('/', '.')}.Lts"
        fnname = crate + "::" + rel.replace("/", "::").replace("+", "")
        if only and fnname not in only:
            continue
        if key not in names:
            said.append((fnname, "not in names"))
            continue
        try:
            convert(crate, folder, names[key], fnname, labels, dropped, said)
        except Exception as e:
            said.append((fnname, f"failed: {e!r}"))
    os.makedirs(os.path.dirname(file), exist_ok=True)
    json.dump(dropped, open(file, "w"))
    for s in said:
        print(*s)


if __name__ == "__main__":
    main()
