"""A job's rules from its bytes, a third evaluator, and a test of any answer
against the rules.  Used where SWI-Prolog and the library differ."""
import struct

NEGATED = 32768
MISSING_LENGTH = 65535
# The body of a missing record; other bodies are lists.
MISSING = ()


def rules_of(job):
    """The number of claims, and for each rule of an accepted job its head and
    body, a body being pairs of claim and whether it is negated, or MISSING."""
    _, claims, rules, _, _, _, rules_at, literals_at, _ = struct.unpack_from("<9I", job)
    found, at = [], literals_at
    for rule in range(rules):
        head, length = struct.unpack_from("<HH", job, rules_at + 4 * rule)
        if length == MISSING_LENGTH:
            found.append((head, MISSING))
            continue
        fields = struct.unpack_from("<%dH" % length, job, at)
        found.append((head, [(field % NEGATED, field >= NEGATED) for field in fields]))
        at += 2 * length
    return claims, found


def extended(job):
    """Claims and rules as order 2 extends them: one claim more, which is
    undefined, and for each missing record a rule with that claim alone."""
    claims, rules = rules_of(job)
    rules = [(head, [(claims, False)] if body == MISSING else body) for head, body in rules]
    return claims + 1, rules + [(claims, [(claims, True)])]


def job_of(claims, rules):
    """The bytes of a job with one worker and no question."""
    rules = sorted(rules, key=lambda rule: rule[0])
    bodies = [literal for _, body in rules for literal in body]
    literals_at = 36 + 4 * len(rules)
    end = literals_at + 2 * len(bodies)
    job = struct.pack("<9I", end, claims, len(rules), len(bodies), 1, 0, 36, literals_at, end)
    for head, body in rules:
        job += struct.pack("<HH", head, MISSING_LENGTH if body == MISSING else len(body))
    for claim, negated in bodies:
        job += struct.pack("<H", claim + NEGATED * negated)
    return job


def least(rules, uses, given):
    """D of the specification: the least set with the head of each rule whose
    plain claims are in it and whose negated claims are not in `given`."""
    wanting, out, new = [0] * len(rules), set(), []

    def add(head):
        if head not in out:
            out.add(head)
            new.append(head)

    for number, (head, body) in enumerate(rules):
        if any(negated and claim in given for claim, negated in body):
            wanting[number] = -1
            continue
        wanting[number] = sum(not negated for _, negated in body)
        if wanting[number] == 0:
            add(head)
    while new:
        for number in uses[new.pop()]:
            if wanting[number] > 0:
                wanting[number] -= 1
                if wanting[number] == 0:
                    add(rules[number][0])
    return out


def uses_of(claims, rules):
    """For each claim the rules that have it as a plain literal."""
    uses = [[] for _ in range(claims)]
    for number, (_, body) in enumerate(rules):
        for claim, negated in body:
            if not negated:
                uses[claim].append(number)
    return uses


def alternating(job):
    """The verdicts by the alternating fixpoint."""
    claims, rules = extended(job)
    uses, known = uses_of(claims, rules), set()
    while True:
        possible = least(rules, uses, known)
        more = least(rules, uses, possible)
        if more == known:
            break
        known = more
    return ["true" if c in known else "undefined" if c in possible else "false" for c in range(claims - 1)]


def breaks_the_rules(job, verdicts):
    """Whether these verdicts don't follow from themselves: with K the true
    claims and U those that aren't false, K = D(U) and U = D(K) must hold.  The
    model is the least such pair; an answer that is none is wrong whatever the
    model is."""
    claims, rules = extended(job)
    uses = uses_of(claims, rules)
    known = {c for c, verdict in enumerate(verdicts) if verdict == "true"}
    possible = {c for c, verdict in enumerate(verdicts) if verdict != "false"} | {claims - 1}
    return least(rules, uses, possible) != known or least(rules, uses, known) != possible
