"""Inputs that are refused, a job and behind it a schedule or a record: a name, the bytes,
and the line of a listing."""
from fields import (CLAIMS, LITERALS, LITERALS_AT, NOT, QUESTIONS, QUESTIONS_AT, RULES, RULES_AT, SMALLEST, TOTAL, TWO, WORKERS,
                    field, halves, long, turns, words)

LENGTHS = [
    ("nothing", b"", "refused 1 0"),
    ("one byte", b"\x38", "refused 1 1"),
    ("three bytes, no first word", TWO[:3], "refused 1 3"),
    ("four bytes, first word above them", TWO[:4], "refused 1 4"),
    ("35 bytes, first word above them", TWO[:35], "refused 1 35"),
    ("36 bytes, first word 35", words(SMALLEST, (TOTAL, 35)), "refused 1 35"),
    ("first word 0", words(TWO, (TOTAL, 0)), "refused 1 0"),
    ("first word 3", words(TWO, (TOTAL, 3)), "refused 1 3"),
    ("a job of 61,477 bytes", words(long(TWO, 61477), (TOTAL, 61477)), "refused 1 61477"),
    ("a job of 61,477 bytes and a schedule", words(long(TWO, 65000), (TOTAL, 61477)), "refused 1 61477"),
    ("61,477 bytes, first word above them", words(long(TWO, 61477), (TOTAL, 61478)), "refused 1 61477"),
    ("a job of 65,536 bytes", words(long(TWO, 65536), (TOTAL, 65536)), "refused 1 65536"),
    ("65,536 bytes, first word 65,537", words(long(TWO, 65536), (TOTAL, 65537)), "refused 1 65536"),
    ("first word above the input by 1", words(TWO, (TOTAL, 65)), "refused 2 0"),
    ("first word 4,294,967,295", words(TWO, (TOTAL, 2 ** 32 - 1)), "refused 2 0"),
    ("first word above the input, counts bad", words(TWO, (TOTAL, 65), (CLAIMS, 4097)), "refused 2 0"),
    ("a job short of a byte", TWO[:55], "refused 2 0"),
    ("61,476 bytes, first word above them", words(long(TWO, 61476), (TOTAL, 61477)), "refused 2 0"),
]

COUNTS = [
    ("A 4,097", words(SMALLEST, (CLAIMS, 4097)), "refused 3 4"),
    ("A 4,294,967,295", words(SMALLEST, (CLAIMS, 2 ** 32 - 1)), "refused 3 4"),
    ("M 6,145", field(1, 1, [(0, [])] * 6145), "refused 3 8"),
    ("L 16,385", field(1, 1, [(0, [0] * 16385)]), "refused 3 12"),
    ("T 33", words(SMALLEST, (WORKERS, 33)), "refused 3 16"),
    ("T 0", words(SMALLEST, (WORKERS, 0)), "refused 3 16"),
    ("Q 1,025", field(1, 1, [], [(0, 0)] * 1025), "refused 3 20"),
    ("M and T over", words(TWO, (RULES, 6145), (WORKERS, 33)), "refused 3 8"),
    ("T 0 and Q over", words(TWO, (WORKERS, 0), (QUESTIONS, 1025)), "refused 3 16"),
    ("T over, offset of rules bad", words(TWO, (WORKERS, 33), (RULES_AT, 0)), "refused 3 16"),
]

OFFSETS = [
    ("offset of rules 35", words(TWO, (RULES_AT, 35)), "refused 4 24"),
    ("offset of rules 40", words(TWO, (RULES_AT, 40)), "refused 4 24"),
    ("offset of literals 43", words(TWO, (LITERALS_AT, 43)), "refused 4 28"),
    ("offset of literals 0", words(TWO, (LITERALS_AT, 0)), "refused 4 28"),
    ("offset of questions 49", words(TWO, (QUESTIONS_AT, 49)), "refused 4 32"),
    ("offset of questions 65,584", words(TWO, (QUESTIONS_AT, 65584)), "refused 4 32"),
    ("M one more", words(TWO, (RULES, 3)), "refused 4 28"),
    ("L one more", words(TWO, (LITERALS, 3)), "refused 4 32"),
    ("Q one more", words(TWO, (QUESTIONS, 3)), "refused 4 0"),
    ("total one more", words(TWO, (TOTAL, 57)), "refused 4 0"),
    ("total one less", words(TWO, (TOTAL, 55)), "refused 4 0"),
    ("total and offset of questions", words(TWO, (TOTAL, 57), (QUESTIONS_AT, 49)), "refused 4 32"),
    ("offset of rules, a head bad", halves(words(TWO, (RULES_AT, 35)), (36, 2)), "refused 4 24"),
]

PARTS = [
    ("first head is A", halves(TWO, (36, 2)), "refused 5 36"),
    ("last head is A", halves(TWO, (40, 2)), "refused 5 40"),
    ("head 65,535", halves(TWO, (40, 65535)), "refused 5 40"),
    ("head falls", halves(TWO, (36, 1), (40, 0)), "refused 5 40"),
    ("last head before first body", halves(TWO, (38, 3), (40, 2)), "refused 5 40"),
    ("first body passes L", halves(TWO, (38, 3)), "refused 6 36"),
    ("last body passes L", halves(TWO, (42, 2)), "refused 6 40"),
    ("bodies pass L together", halves(TWO, (38, 2)), "refused 6 40"),
    ("body 65,534", halves(TWO, (42, 65534)), "refused 6 40"),
    ("bodies end short", halves(TWO, (42, 0)), "refused 6 44"),
    ("bodies empty", halves(TWO, (38, 0), (42, 0)), "refused 6 44"),
    ("last body before first literal", halves(TWO, (42, 2), (44, 2)), "refused 6 40"),
    ("first literal is A", halves(TWO, (44, 2)), "refused 7 44"),
    ("last literal is A", halves(TWO, (46, 2)), "refused 7 46"),
    ("literal is not A", halves(TWO, (46, NOT + 2)), "refused 7 46"),
    ("literal 65,535", halves(TWO, (44, 65535)), "refused 7 44"),
    ("literal before question", halves(TWO, (46, 2), (48, 2)), "refused 7 46"),
    ("first worker is T", halves(TWO, (48, 2)), "refused 8 48"),
    ("last worker is T", halves(TWO, (52, 2)), "refused 8 52"),
    ("first claim asked is A", halves(TWO, (50, 2)), "refused 8 48"),
    ("last claim asked is A", halves(TWO, (54, 2)), "refused 8 52"),
    ("claim asked negated", halves(TWO, (54, NOT + 1)), "refused 8 52"),
    ("a question where A is 0", field(0, 1, [], [(0, 0)]), "refused 8 36"),
    ("question before schedule", turns(halves(TWO, (52, 2)), (0, 2)), "refused 8 52"),
]

# By the listing program alone: of the input's length, and of the schedule.
INPUTS = [
    ("65,537 bytes, a good job in them", long(TWO, 65537), "refused 1 65537"),
    ("65,537 bytes, first word 65,537", words(long(TWO, 65537), (TOTAL, 65537)), "refused 1 65537"),
    ("65,537 bytes, first word 61,477", words(long(TWO, 65537), (TOTAL, 61477)), "refused 1 65537"),
    ("65,537 bytes, a bad schedule", long(TWO + b"\x02", 65537), "refused 1 65537"),
    ("65,538 bytes", long(TWO, 65538), "refused 1 65537"),
    ("131,072 bytes", long(TWO, 131072), "refused 1 65537"),
    ("1,000,000 bytes", long(TWO, 1000000), "refused 1 65537"),
]

SCHEDULES = [
    ("first turn of T", turns(TWO, (0, 2)), "refused 11 0"),
    ("fourth turn of T", turns(TWO, (3, 2)), "refused 11 3"),
    ("last turn of T", turns(TWO, (7, 2)), "refused 11 7"),
    ("two turns of none", turns(TWO, (5, 255), (6, 2)), "refused 11 5"),
    ("the last of 65,480 turns", long(TWO, 65535) + b"\x02", "refused 11 65479"),
    ("a turn of 32 where T is 32", field(0, 32) + b"\x1f\x20", "refused 11 1"),
]
