"""The listing program beside verdicts that SWI-Prolog was asked about: each
claim line with a value and each question line must have the verdict, and a line
may say `unopened` only where the specification lets it."""
import itertools
import os
import struct
import subprocess

import model
import orders

PROGRAM = os.environ.get("ZESTCHINTZ_VERDICTS", "target/bin/verdicts")
# Larger jobs, with every claim asked, take the program too long.
MOST_CLAIMS = 200
SECONDS = 60


def asked_in_full(made):
    """The made input with one question about each claim, by the workers in turn,
    in place of its own: then every claim line has a value."""
    words = list(struct.unpack_from("<9I", made))
    total, claims, workers, questions_at = words[0], words[1], words[4], words[8]
    words[0], words[5] = questions_at + 4 * claims, claims
    questions = b"".join(struct.pack("<2H", claim % workers, claim) for claim in range(claims))
    return struct.pack("<9I", *words) + made[36:questions_at] + questions + made[total:]


def lines_of(given):
    run = subprocess.run([PROGRAM], input=given, stdout=subprocess.PIPE, timeout=SECONDS, check=True)
    return [line.split() for line in run.stdout.decode().splitlines()]


def needed(body, verdicts):
    """The claims of a rule's body that must be complete: under order 5 those up
    to the first false literal, else all."""
    claims = []
    for claim, negated in body:
        claims.append(claim)
        if orders.in_force(5) and verdicts[claim] == ("true" if negated else "false"):
            break
    return claims


def unopened_fault(given, values, verdicts):
    """What is wrong with the lines that have no value: none may be a claim asked,
    or needed by a rule of a claim with a value; and a claim with a value must be
    asked or led to."""
    questions, at = struct.unpack_from("<I", given, 20)[0], struct.unpack_from("<I", given, 32)[0]
    asked = [struct.unpack_from("<2H", given, at + 4 * question)[1] for question in range(questions)]
    bodies = {}
    for head, body in model.rules_of(given)[1]:
        bodies.setdefault(head, []).append(body)
    led_to, new = set(asked), list(asked)
    while new:
        for claim, _ in itertools.chain(*bodies.get(new.pop(), [])):
            if claim not in led_to:
                led_to.add(claim)
                new.append(claim)
    wanted = set(asked)
    for claim in range(len(values)):
        if values[claim] != "unopened":
            if claim not in led_to:
                return "claim %d has a value, and no question leads to it" % claim
            wanted.update(*(needed(body, verdicts) for body in bodies.get(claim, [])))
    for claim in sorted(wanted):
        if values[claim] == "unopened":
            return "claim %d is unopened, and stands behind no false literal" % claim
    return ""


def fault_in(given, verdicts, full):
    """What differs in the listing of an accepted input, and how many of its claim
    lines have a value.  With `full` all must have one."""
    lines, count = lines_of(given), len(verdicts)
    if not lines or lines[0] != ["claims", str(count)] or len(lines) < count + 3:
        return "the listing program doesn't list %d claims" % count, 0
    listed = lines[1:count + 1]
    if [int(line[0]) for line in listed] != list(range(count)):
        return "the listing program's claims aren't in order", 0
    valued = [line for line in listed if full or line[1] != "unopened"]
    asked = [line[1:] for line in lines[count + 2:-1]]
    for claim, value in valued + asked:
        if value != verdicts[int(claim)]:
            return "the listing program says %s of claim %s, which is %s" % (value, claim, verdicts[int(claim)]), 0
    return unopened_fault(given, [line[1] for line in listed], verdicts), len(valued)


def compare(made, verdicts):
    """The same for a made input as it is and asked in full."""
    fault, some = fault_in(made, verdicts, False)
    if fault:
        return fault, 0
    fault, all_of_them = fault_in(asked_in_full(made), verdicts, True)
    return fault, some + all_of_them
