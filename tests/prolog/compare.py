#!/usr/bin/env -S python3 -B
"""Compares the library's verdicts, and the listing program's, with SWI-Prolog's;
exit status 1 if they differ in a way that docs/PROLOG.md doesn't allow for.

usage: compare.py [KIND:FROM:COUNT ...]     (made jobs; from the repository's root)

SWI-Prolog has known faults.  What it decides must be right; where it leaves
claims undefined that the library decides, the job is given again with the
claims that it did decide exchanged for facts or nothing, until it agrees or
says no more.  Where its first answer differs at all, it must break the job's
own rules (model.py says how), and a third evaluator must agree with the
library.  Each such job is printed and counted.  What was agreed upon is then
held against the listing of the same job, unless the job is large (listed.py)."""
import subprocess
import sys
import tempfile
from collections import Counter

import listed
import model
import orders

# Among these are jobs on which SWI-Prolog 9.0.4 shows a fault.
GATE = ["tiny:0:80", "small:0:100", "small:2965:1", "negloop:0:90", "strat:0:30", "cluster:0:30", "cluster:148:1",
        "tower:0:40", "random:0:20", "ring:0:20", "chain:0:10", "failing:0:80", "empty:0:10"]
ORACLE, COMPARE = "target/tests/oracle", "target/tests/compare"
SECONDS = 60


class Differs(Exception):
    """A difference that no known fault of SWI-Prolog explains."""


def output(words, given=b""):
    return subprocess.run(words, input=given, stdout=subprocess.PIPE, check=True).stdout


def verdicts_of(lines):
    return [line.split()[1] for line in lines.decode().splitlines()]


def run_prolog(path):
    """The verdicts that a Prolog program prints, claim and verdict a line."""
    words = ["swipl", "--stack-limit=8g", path]
    try:
        run = subprocess.run(words, stdin=subprocess.DEVNULL, capture_output=True, timeout=SECONDS)
    except subprocess.TimeoutExpired:
        raise Differs("SWI-Prolog took more than %d s" % SECONDS)
    if run.returncode != 0:
        raise Differs("SWI-Prolog failed: %s" % run.stderr.decode()[:200])
    return verdicts_of(run.stdout)


def ask_prolog(folder, job, known=None):
    """SWI-Prolog's verdicts, with the claims that `known` decides exchanged."""
    flags = []
    if known:
        with open(folder + "/known", "w") as file:
            file.writelines("%d %s\n" % pair for pair in enumerate(known))
        flags = ["--known", folder + "/known"]
    with open(folder + "/job.pl", "wb") as file:
        file.write(output([ORACLE, "prolog"] + flags, job))
    return run_prolog(folder + "/job.pl")


def settle(folder, job, ours):
    """Feeds back what SWI-Prolog decides until it agrees, decides a claim
    otherwise, or says the same again.  Answers its first answer and its last."""
    first = said = ask_prolog(folder, job)
    while said != ours:
        if any(a != b and a != "undefined" for a, b in zip(said, ours)):
            break
        before, said = said, ask_prolog(folder, job, said)
        if said == before:
            break
    return first, said


def compare(folder, job):
    """Agreement in one word, or raises Differs."""
    lines = output([COMPARE, "verdicts"], job)
    if lines != output([ORACLE, "verdicts"], job):
        raise Differs("the library and the oracle differ")
    if lines.startswith(b"refused"):
        return "refused"
    ours = verdicts_of(lines)
    first, last = settle(folder, job, ours)
    if len(first) != len(ours):
        raise Differs("SWI-Prolog answered %d claims of %d" % (len(first), len(ours)))
    if first == ours:
        return "equal"
    if not model.breaks_the_rules(job, first):
        raise Differs("SWI-Prolog's answer is another and fits the rules")
    if model.breaks_the_rules(job, ours) or model.alternating(job) != ours:
        raise Differs("the third evaluator doesn't agree with the library")
    return "left undecided" if last == ours else "contradicts itself"


def compare_listed(made, ours):
    """How many claim lines of the listing program have the verdicts; none where
    the job is large.  Raises Differs."""
    if len(ours) > listed.MOST_CLAIMS:
        return 0
    fault, lines = listed.compare(made, ours)
    if fault:
        raise Differs(fault)
    return lines


def compare_made(folder, kind, seed, count):
    """Compares a made job and counts what was met.  Raises Differs."""
    made = output([ORACLE, "gen", kind, str(seed)])
    job = made[:int.from_bytes(made[:4], "little")]
    result = compare(folder, job)
    if result != "refused":
        ours = verdicts_of(output([COMPARE, "verdicts"], job))
        lines = compare_listed(made, ours)
        count["listed"] += lines > 0
        count["lines"] += lines
        missing = {head for head, body in model.rules_of(job)[1] if body == model.MISSING}
        if missing and model.alternating(job) != ours:
            raise Differs("the third evaluator doesn't agree with the library on missing records")
        count["missing"] += len(missing) > 0
        count.update("missing and " + ours[head] for head in missing)
    count[result] += 1
    if result not in ("equal", "refused"):
        print("known fault: %s %d: SWI-Prolog %s" % (kind, seed, result), flush=True)


def never_met(count):
    """What the comparison must meet under order 2 and didn't."""
    wanted = ("missing and undefined", "missing and true") if orders.in_force(2) else ()
    return [name for name in wanted if not count[name]]


def main(parts):
    count, bad = Counter(), 0
    with tempfile.TemporaryDirectory() as folder:
        for part in parts or GATE:
            kind, start, jobs = part.split(":")
            for seed in range(int(start), int(start) + int(jobs)):
                try:
                    compare_made(folder, kind, seed, count)
                except Differs as fault:
                    bad += 1
                    print("differs: %s %d: %s" % (kind, seed, fault), flush=True)
    for name in [] if parts else never_met(count):
        bad += 1
        print("differs: the gate: a claim %s was never met" % name)
    kinds = [count[result] for result in ("equal", "left undecided", "contradicts itself", "refused")]
    print("%d jobs: %d equal at once, %d after feeding back what SWI-Prolog left undecided, "
          "%d where it contradicts itself, %d refused by both; %d of them listed, with %d claim lines; "
          "%d with missing records, whose claims are undefined %d times and true %d; %d differ"
          % (sum(kinds) + bad, *kinds, count["listed"], count["lines"],
             count["missing"], count["missing and undefined"], count["missing and true"], bad))
    return 1 if bad else 0


if __name__ == "__main__":
    sys.exit(main(sys.argv[1:]))
