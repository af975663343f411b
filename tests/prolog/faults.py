#!/usr/bin/env -S python3 -B
"""The smallest rule sets found that show SWI-Prolog's known faults, those of
docs/PROLOG.md: the library must be right on each; what SWI-Prolog says is
printed, and must either be right too or break the set's own rules.

usage: faults.py     (from the repository's root)"""
import sys
import tempfile

import compare
import model

# Rules in the order in which SWI-Prolog reads them, and the right verdicts.
FAULTS = [
    ("left undecided", "0 if not 1. 0. 1 if not 2. 2 if 1, not 0", "true true false"),
    ("left undecided, shortest bodies first", "0 if not 1. 0 if not 3. 1 if not 2. 2 if 1, not 0",
     "true true false false"),
    ("contradicts itself", "0 if not 0. 1 if not 0. 1 if 2. 1. 2 if 2. 2 if not 1", "undefined true false"),
    ("contradicts itself, shortest bodies first", "0 if not 0. 1 if not 0. 1 if 2. 1 if not 3. 2 if 2. 2 if not 1",
     "undefined true false false"),
]

PROGRAM = """:- use_module(library(wfs)).
%s
verdict(Goal, Verdict) :-
    (   call_delays(Goal, Delays)
    ->  (   Delays == true -> Verdict = true ; Verdict = undefined )
    ;   Verdict = false
    ).
main :- forall(member(Goal, [%s]), ( verdict(Goal, Verdict), format("~w ~w~n", [Goal, Verdict]) )).
:- initialization((main -> halt ; halt(1))).
"""


def read(text):
    """Rules from a text like `0 if 1, not 2. 1`."""
    rules = []
    for rule in text.split(". "):
        head, _, body = rule.partition(" if ")
        literals = [literal.split() for literal in body.split(", ") if literal]
        rules.append((int(head), [(int(words[-1]), words[0] == "not") for words in literals]))
    return rules


def prolog(claims, rules):
    """The rules as they stand, a predicate a claim, asked in order."""
    lines = [":- table c%d/0." % claim for claim in range(claims)]
    headless = set(range(claims)) - {head for head, _ in rules}
    lines += ["c%d :- fail." % claim for claim in sorted(headless)]
    for head, body in rules:
        goals = ["tnot(c%d)" % claim if negated else "c%d" % claim for claim, negated in body]
        lines.append("c%d :- %s." % (head, ", ".join(goals) or "true"))
    return PROGRAM % ("\n".join(lines), ", ".join("c%d" % claim for claim in range(claims)))


def try_one(text, right):
    """What SWI-Prolog says to the rules as they stand, and how the job made of
    them compares.  Raises compare.Differs where no known fault explains it."""
    rules = read(text)
    job = model.job_of(len(right), rules)
    if compare.verdicts_of(compare.output([compare.COMPARE, "verdicts"], job)) != right:
        raise compare.Differs("the library is wrong")
    with tempfile.TemporaryDirectory() as folder:
        with open(folder + "/job.pl", "w") as file:
            file.write(prolog(len(right), rules))
        said = compare.run_prolog(folder + "/job.pl")
        if said != right and not model.breaks_the_rules(job, said):
            raise compare.Differs("SWI-Prolog's answer is another and fits the rules")
        return said, compare.compare(folder, job)


def main():
    bad = shown = 0
    for name, text, right in FAULTS:
        try:
            said, result = try_one(text, right.split())
        except compare.Differs as fault:
            bad += 1
            print("differs: %s: %s" % (text, fault))
            continue
        shown += said != right.split()
        print("%s: %s: right %s, SWI-Prolog %s; as a job: %s" % (name, text, right, " ".join(said), result))
    version = compare.output(["swipl", "--version"]).decode().strip()
    print("%d rule sets, %d answered wrongly by %s, %d differ" % (len(FAULTS), shown, version, bad))
    return 1 if bad else 0


if __name__ == "__main__":
    sys.exit(main())
