"""The programs run as from a shell, and what they write held to what is expected."""
import os
import subprocess
import sys
import time

SECONDS = 60
# What standard error says of a job that checks 1 to 8 refuse, up to the place.
WORDS = {
    1: "the job has under 36 or over 61,476 bytes; its length: ",
    2: "the first word is not the length of the job, which was cut or padded; byte ",
    3: "a count of the header is over its limit, or there are no workers; byte ",
    4: "an offset of the header, or its total, is not the sum of the counts; byte ",
    5: "the head of a rule is no claim of the job, or is below the head before it; byte ",
    6: "the bodies of the rules have more literals than the header says, or fewer; byte ",
    7: "a literal names no claim of the job; byte ",
    8: "a question names no worker or no claim of the job; byte ",
}


def refusal(program, number, fault, place):
    return "%s: refused by check %d: %s%d\n" % (program, number, fault, place)


def run(program, given, ends=""):
    """Standard output, standard error and what else is wrong; `ends` is what a
    shell does with the program's ends."""
    command = ["sh", "-c", 'exec "$0" ' + ends, program]
    try:
        done = subprocess.run(command, input=given, capture_output=True, timeout=SECONDS)
    except subprocess.TimeoutExpired:
        return b"", b"", "it took more than %d s" % SECONDS
    return done.stdout, done.stderr, "its exit status is %d" % done.returncode if done.returncode else ""


def run_slowly(program, given):
    """The same with the input in pieces, one or a few bytes at a time."""
    process = subprocess.Popen([program], stdin=subprocess.PIPE, stdout=subprocess.PIPE, stderr=subprocess.PIPE)
    for at in range(0, len(given), 7):
        process.stdin.write(given[at:at + 7])
        process.stdin.flush()
        time.sleep(0.002)
    out, said = process.communicate(timeout=SECONDS)
    return out, said, "its exit status is %d" % process.returncode if process.returncode else ""


def first_difference(expected, out):
    """The first line that differs, in words."""
    lines, written = expected.splitlines(True), out.splitlines(True)
    at = next((at for at, pair in enumerate(zip(lines, written)) if pair[0] != pair[1]), min(len(lines), len(written)))
    shown = [b"".join(given[at:at + 1])[:100] for given in (written, lines)]
    return "line %d of standard output is %r, expected %r; bytes: %d, expected %d" % (
        at + 1, *shown, len(out), len(expected))


def fault_of(expected, words_expected, answer):
    out, said, fault = answer
    if not fault and said != words_expected.encode():
        fault = "standard error is %r, expected %r" % (said[:300], words_expected)
    if not fault and out != expected:
        fault = first_difference(expected, out)
    return fault


def report(programs, tests, what):
    """Runs the tests (names, standard output and standard error as they must be,
    and the answer); the exit status, 1 if any differs."""
    for program in programs:
        if not os.path.exists(program):
            sys.exit("stored: there is no " + program)
    count = bad = 0
    for name, expected, said, answer in tests:
        count += 1
        fault = fault_of(expected, said, answer)
        if fault:
            bad += 1
            print("differs: %s: %s" % (name, fault))
    print("%d %s, %d differ" % (count, what, bad))
    return 1 if bad else 0
