#!/usr/bin/env -S python3 -B
"""Makes a job on which SWI-Prolog differs as small as it can: takes away rules
and literals and merges claims, as long as it still differs.  Prints rules and both answers.

usage: minimise.py KIND SEED [--contradicts]     (from the repository's root)

With --contradicts it must go on deciding a claim otherwise than the oracle."""
import sys
import tempfile

import compare
import model


def differs(folder, claims, rules, contradicts):
    job = model.job_of(claims, rules)
    said = compare.ask_prolog(folder, job)
    right = compare.verdicts_of(compare.output([compare.ORACLE, "verdicts"], job))
    return any(a != b and not (contradicts and a == "undefined") for a, b in zip(said, right))


def without_rules(rules, still):
    """Takes away stretches of rules, halving their length down to one."""
    length = max(1, len(rules) // 2)
    while length >= 1:
        at = 0
        while at < len(rules):
            fewer = rules[:at] + rules[at + length:]
            if still(fewer):
                rules = fewer
            else:
                at += length
        length //= 2
    return rules


def without_literals(rules, still):
    for at in range(len(rules)):
        head, body = rules[at]
        k = 0
        while k < len(body):
            shorter = body[:k] + body[k + 1:]
            fewer = rules[:at] + [(head, shorter)] + rules[at + 1:]
            if still(fewer):
                rules, body = fewer, shorter
            else:
                k += 1
    return rules


def renamed(body, name):
    """A body with other names of its claims."""
    return body if body == model.MISSING else [(name(claim), negated) for claim, negated in body]


def with_claims_merged(rules, still):
    """Puts one claim in the place of another in all bodies and leaves out the
    other's rules."""
    claims = sorted({head for head, _ in rules} | {claim for _, body in rules for claim, _ in body})
    for gone in claims:
        for kept in claims:
            fewer = [(head, renamed(body, lambda claim: kept if claim == gone else claim))
                     for head, body in rules if head != gone]
            if gone != kept and fewer != rules and still(fewer):
                rules = fewer
                break
    return rules


def renumbered(rules):
    """The same with only the claims in use, numbered from 0."""
    used = sorted({head for head, _ in rules} | {claim for _, body in rules for claim, _ in body})
    number = {claim: i for i, claim in enumerate(used)}
    return len(used), [(number[head], renamed(body, number.get)) for head, body in rules]


def show(folder, claims, rules):
    job = model.job_of(claims, rules)
    for head, body in sorted(rules, key=lambda rule: rule[0]):
        words = ["not %d" % c if negated else str(c) for c, negated in body]
        print("%d%s" % (head, " missing" if body == model.MISSING else " if " + ", ".join(words) if words else ""))
    said = compare.ask_prolog(folder, job)
    for claim, verdict in enumerate(model.alternating(job)):
        print("claim %d is %s, SWI-Prolog says %s" % (claim, verdict, said[claim]))


def main(kind, seed, *flags):
    contradicts = "--contradicts" in flags
    made = compare.output([compare.ORACLE, "gen", kind, seed])
    claims, rules = model.rules_of(made)
    with tempfile.TemporaryDirectory() as folder:
        def still(fewer):
            return differs(folder, claims, fewer, contradicts)

        if not still(rules):
            sys.exit("SWI-Prolog doesn't differ on this job")
        size = None
        while size != (len(rules), sum(len(body) for _, body in rules)):
            size = (len(rules), sum(len(body) for _, body in rules))
            rules = without_literals(without_rules(rules, still), still)
            rules = with_claims_merged(rules, still)
        fewer_claims, fewer = renumbered(rules)
        if differs(folder, fewer_claims, fewer, contradicts):
            claims, rules = fewer_claims, fewer
        show(folder, claims, rules)


if __name__ == "__main__":
    main(*sys.argv[1:])
