/*
 * A field with measurements that nobody took, as a preparation step writes it:
 * the bytes of its job, on standard output.
 *
 *     cc -Iinclude examples/c/parallax.c -o parallax
 *     ./parallax | cat - examples/fields/parallax.schedule | target/bin/verdicts
 *
 * examples/fields/parallax.txt says what it is about.
 */
#include <stdio.h>

#include "zestchintz.h"

/* Claims: the first of four stars each, then one about star 3's cluster. */
enum { SAMPLE = 0, ABOVE = 4, DROPPED = 8, CLUSTER = 12, CLAIMS = 13 };
enum { STARS = 4, WORKERS = 2, NOT = 32768, HEADER = 36 };

/* Parallaxes in milliarcseconds; UNKNOWN where nobody measured. */
enum { LEAST = 10, UNKNOWN = -1 };
static const int parallax[STARS] = {23, 2, UNKNOWN, UNKNOWN};

/* The three parts of the job as half-words, and how many are filled. */
struct part {
    unsigned halves[64];
    unsigned count;
};
static struct part rules, literals, questions;

static void add(struct part *part, unsigned half)
{
    part->halves[part->count++] = half;
}

/* A rule with no literals so far; heads must never fall. */
static void add_rule(unsigned head)
{
    add(&rules, head);
    add(&rules, 0);
}

/* One literal more for the last rule. */
static void add_literal(unsigned literal)
{
    rules.halves[rules.count - 1]++;
    add(&literals, literal);
}

/* Nobody measured what would decide this claim: a record without literals. */
static void add_missing(unsigned claim)
{
    add(&rules, claim);
    add(&rules, ZESTCHINTZ_MISSING);
}

static void add_question(unsigned worker, unsigned claim)
{
    add(&questions, worker);
    add(&questions, claim);
}

static void add_sample(void)
{
    for (unsigned star = 0; star < STARS; star++) {
        add_rule(SAMPLE + star);
        add_literal(ABOVE + star);
    }
    add_rule(SAMPLE + 3);
    add_literal(CLUSTER);
}

static void add_measurements(void)
{
    for (unsigned star = 0; star < STARS; star++) {
        if (parallax[star] == UNKNOWN)
            add_missing(ABOVE + star);
        else if (parallax[star] > LEAST)
            add_rule(ABOVE + star);
    }
}

static void add_dropped(void)
{
    for (unsigned star = 0; star < STARS; star++) {
        add_rule(DROPPED + star);
        add_literal(NOT + ABOVE + star);
    }
    add_literal(NOT + CLUSTER);
}

static void add_questions(void)
{
    for (unsigned star = 0; star < STARS; star++)
        add_question(0, SAMPLE + star);
    for (unsigned star = 0; star < STARS; star++)
        add_question(1, DROPPED + star);
}

static void write_half(unsigned value)
{
    putchar(value & 255);
    putchar(value >> 8 & 255);
}

static void write_word(unsigned value)
{
    write_half(value & 65535);
    write_half(value >> 16);
}

static void write_header(void)
{
    unsigned literals_at = HEADER + 2 * rules.count;
    unsigned questions_at = literals_at + 2 * literals.count;
    write_word(questions_at + 2 * questions.count);
    write_word(CLAIMS);
    write_word(rules.count / 2);
    write_word(literals.count);
    write_word(WORKERS);
    write_word(questions.count / 2);
    write_word(HEADER);
    write_word(literals_at);
    write_word(questions_at);
}

static void write_part(const struct part *part)
{
    for (unsigned i = 0; i < part->count; i++)
        write_half(part->halves[i]);
}

int main(void)
{
    add_sample();
    add_measurements();
    add_dropped();
    add_rule(CLUSTER);
    add_questions();
    write_header();
    write_part(&rules);
    write_part(&literals);
    write_part(&questions);
    return fflush(stdout) == 0 ? 0 : 1;
}
