"""The bytes of jobs with their schedules, and small edits of them."""
import struct

NOT = 32768
# In place of a list of literals: a missing record.
MISSING = ()
# Words of a job's header.
TOTAL, CLAIMS, RULES, LITERALS, WORKERS, QUESTIONS, RULES_AT, LITERALS_AT, QUESTIONS_AT = range(9)


def field(claims, workers, rules=(), questions=()):
    """The bytes of a job; a rule is a head and its literals, or MISSING."""
    literals = [literal for _, body in rules for literal in body]
    literals_at = 36 + 4 * len(rules)
    questions_at = literals_at + 2 * len(literals)
    words = [questions_at + 4 * len(questions), claims, len(rules), len(literals), workers, len(questions),
             36, literals_at, questions_at]
    halves = [half for head, body in rules for half in (head, 65535 if body == MISSING else len(body))] + literals
    halves += [half for question in questions for half in question]
    return struct.pack("<9I%dH" % len(halves), *words, *halves)


# No claim, one worker: 36 bytes.
SMALLEST = field(0, 1)
# Claims 0 if 1, 1 if 0; workers 0 and 1 ask 0 and 1.  Rules at bytes 36 and 40,
# literals at 44 and 46, questions at 48 and 52.
TWO_ALONE = field(2, 2, [(0, [1]), (1, [0])], [(0, 0), (1, 1)])
# And a schedule from 56 to 63.
TWO = TWO_ALONE + bytes([0, 1, 0, 1, 1, 1, 0, 0])


def words(given, *changes):
    """With header words put to other values."""
    out = bytearray(given)
    for index, value in changes:
        struct.pack_into("<I", out, 4 * index, value)
    return bytes(out)


def halves(given, *changes):
    """With 16-bit fields at these bytes put to other values."""
    out = bytearray(given)
    for at, value in changes:
        struct.pack_into("<H", out, at, value)
    return bytes(out)


def turns(given, *changes):
    """TWO with turns of its schedule put to other workers."""
    out = bytearray(given)
    for position, worker in changes:
        out[56 + position] = worker
    return bytes(out)


def long(given, length):
    """With zeros after it: turns of worker 0, or more of a job."""
    return given + bytes(length - len(given))
