#!/usr/bin/env python3
"""Brings the repository's own definitions and lemmas to today's spelling: words in snake case, a dash only between two names.

usage: python3 tools/rename.py [ROOT]     once, right after the port's own script, at the top of the repository

A name's parts are what its dashes part. A part in camel case becomes snake case (types and facts, which begin with a capital, stay). A dash stays
before a part that names a definition (of the crates or of the library), a fact or an operator; before a plain word it becomes an underscore.
Names of Rust (functions, fields, exported names), strings, comments of .rt files, inputs and outputs stay.
"""

import collections
import glob
import os
import re
import sys

MADE = re.compile(r"^(loop|if|in|in_ok|in_err|in_default|match|returns|overflow\w*|bounds|slice_bounds|index|need|invariant|decreases|proves|prove|nonzero\w*|offset_bounds|type_inv|invariant_of|then|else)-")
TOKEN = re.compile(r"[^\s(){}\[\],.;`\"\u25cc\u03bb]+")
KEYWORDS = {"record", "data", "module", "let", "use", "infix", "infixl", "infixr", "elim", "where", "unfolding", "in"}


def camel(part):
    return bool(re.match(r"[a-z\u03b1-\u03c9]", part)) and bool(re.search(r"[A-Z]", part))


def snake(part):
    return re.sub(r"(?<=[a-z0-9'])([A-Z])", lambda m: "_" + m.group(1).lower(), part) if camel(part) else part


def declared(text):
    for line in text.split("\n"):
        m = re.match(r"^\s*((?:pub|abbrev|unfoldable)\s+)*([^\s(){}\[\],.;:\u25cc\"]+(?:\s+[^\s(){}\[\],.;:\u25cc\"\u2192]+)*)((?:\s*[({][^)}]*[)}])*)\s+:\s", line)
        if m and "--" not in line.split(":")[0]:
            names = m.group(2).split()
            if names[0] not in KEYWORDS:
                yield from names


def main():
    root = sys.argv[1] if len(sys.argv) > 1 else "."
    own = set(os.listdir(os.path.join(root, "crates")))
    files = [f for f in sorted(glob.glob(os.path.join(root, "crates/**/*"), recursive=True)) if f.endswith((".rt", ".antt")) and "/out/" not in f]
    text = {f: open(f, encoding="utf-8").read() for f in files}
    where, outside, words = collections.defaultdict(set), set(), set()
    for f, t in text.items():
        for m in re.finditer(r"^\s*(?:pub )?(?:ghost )?use ([^\s{]+)\.\{([^}]*)\}", t, re.M):
            path = m.group(1).split(".")
            if not (path[0] == "Rattle" and len(path) > 1 and path[1] in own):
                outside.update(w for w in m.group(2).replace(",", " ").split() if w != "as")
        if f.endswith(".antt"):
            for n in declared(t):
                if not f.endswith("/Proof.antt"):
                    where[n].add(f)
                if "/specs/" in f and "-" not in n:
                    words.add(n)
    words |= {w for w in outside if "-" not in w}
    plain = {"or", "one", "over", "under", "same", "is", "none", "most", "all", "left", "rest", "here", "step", "old", "new", "at", "size", "first", "last", "keep", "count", "less", "more"}

    def renamed(n):
        parts = n.split("-")
        out = snake(parts[0])
        for p in parts[1:]:
            keep = not p or not re.match(r"[a-z\u03b1-\u03c9]", p) or (p in words and p not in plain)
            out += ("-" if keep else "_") + snake(p)
        return out

    change = {}
    for n in where:
        if n not in outside and not MADE.match(n) and ("-" in n or camel(n)):
            r = renamed(n)
            if r != n:
                change[n] = r
    for f, t in text.items():
        if f.endswith(".antt"):
            for m in TOKEN.finditer(re.sub(r"--.*", "", t)):
                n = m.group(0)
                if n not in change and n not in outside and n not in where and "-" not in n and re.search(r"[a-z0-9][A-Z]", n) and camel(n):
                    change[n] = snake(n)
    # Names that would fall together keep their dash: with another declared name, or with each other.
    clash = collections.defaultdict(set)
    for n, r in change.items():
        clash[r].add(n)
    for n in where:
        if n not in change and n in clash:
            clash[n].add(n)
    for n in outside:
        if n in clash:
            clash[n].add(n)
    for r, ns in clash.items():
        if len(ns) > 1:
            print("together:", r, "from", *sorted(ns))
            for n in ns:
                if n in change:
                    s = "-".join(snake(p) for p in n.split("-"))
                    change[n] = s
                    if s == n:
                        del change[n]
    for f, t in text.items():
        if f.endswith(".antt"):
            new = TOKEN.sub(lambda m: change.get(m.group(0), m.group(0)), t)
        else:
            new = "\n".join(l if l.lstrip().startswith("//") else re.sub(r'"(?:[^"\\]|\\.)*"|' + TOKEN.pattern, lambda m: change.get(m.group(0), m.group(0)), l) for l in t.split("\n"))
        if new != t:
            with open(f, "w", encoding="utf-8") as o:
                o.write(new)
    print(len(change), "names respelled")


if __name__ == "__main__":
    main()
