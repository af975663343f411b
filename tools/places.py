#!/usr/bin/env python3
"""Counts the places of each point of docs/DESIGN-PASS.md in src/: run it at the top of a checkout. With -l it lists them."""
import glob
import re
import sys

LIST = "-l" in sys.argv
FILES = sorted(glob.glob("crates/*/src/*.rt"))


def show(name, places):
    print(f"{name:<66}{len(places):>4}")
    if LIST:
        for place in places:
            print("    " + place)


def lines(pattern):
    found = []
    for file in FILES:
        for number, line in enumerate(open(file), 1):
            if re.search(pattern, line):
                found.append(f"{file}:{number}: {line.strip()}")
    return found


def signatures():
    for file in FILES:
        text = open(file).read()
        for m in re.finditer(r"\bfn (\w+)(?:<[^>]*>)?\(([^)]*)\)", text):
            apart = re.sub(r"<[^<>]*>", "", m.group(2))  # a comma between lifetimes parts no parameters
            parameters = [p for p in apart.split(",") if p.strip()]
            yield f"{file}: {m.group(1)}", parameters


def facts():
    """Facts of requires clauses, apart at ×, that three functions or more ask for: a place for each clause."""
    places = {}
    for file in FILES:
        for number, line in enumerate(open(file), 1):
            m = re.match(r"\s*requires (?:\w+ )?\{(.*)\}", line)
            for fact in re.split(" × ", m.group(1)) if m else []:
                places.setdefault(fact.strip(" ()"), []).append(f"{file}:{number}: {fact.strip()}")
    return [p for fact in places.values() if len(fact) >= 3 for p in fact]


show("1a enums of the shape of Result or Option", lines(r"^ +(Refused \{ number: u32|Nothing,)"))
show("1b a check or a flag with a value beside it", lines(r"^ +pub (check|sound): "))
show("1c refusals handed on by hand", lines(r"let Check::Accepted = |Check::Refused \{ number, place \} => \w+::Refused"))
show("1d numbers for states (constants)", lines(r"^(pub )?const (FAILED|UNDECIDED|DECIDED|TRUE|FALSE|UNDEFINED)\b"))
show("2a functions and zeros of one size of several", lines(
    r"fn \w*(_few|_tiny|_small|_middle|_wide|_broad|_large)\(|fn (take|run|record|follow|put)_any\(|fn (few|no|tiny|small|middle|wide|broad|large|blank)_\w+\(\)"))
show("2b conversions of a number, one for each type", lines(r"pub fn (byte|half|word)\(\w: u"))
show("3a while loops", lines(r"^ +('\w+: )?while "))
show("3b for loops over the places of a slice", lines(r"for \w+ in 0\.\.\w+\.len\(\)"))
show("4a conversions of a number: uses", lines(r"wide::(byte|half|word)\("))
show("4b an order and a numbering of an enum by hand", lines(r"enum Comparison|fn kind_number"))
show("4c derives of Clone and Copy alone", lines(r"#\[derive\(Clone, Copy\)\]"))
show("5a that a job is accepted, asked for in a clause", lines(r"requires.*WellFormed job\.now"))
show("5b facts that three functions or more ask for", facts())
show("5c functions of seven parameters and more", [n for n, p in signatures() if len(p) >= 7])
show("6a a buffer and the place behind what it holds", [n for n, p in signatures() if any("at: usize" in q for q in p) and any("&mut [u8]" in q for q in p)])
show("6b a queue and its length", [n for n, p in signatures() if any(re.search(r"\b(top|bottom): usize", q) for q in p)])
show("7a bool parameters that choose between two bodies", [n for n, p in signatures() if any(": bool" in q for q in p)])
