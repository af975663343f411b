/*
 * Plain evaluation from C: builds a small job, checks it, evaluates it and
 * prints the verdicts; then damages it and prints the refusals.
 *
 *     cc -Iinclude examples/c/plain.c target/staticlib/libzestchintz.a -o plain
 */
#include <inttypes.h>
#include <stdio.h>
#include <string.h>

#include "zestchintz.h"

/*
 * Seven records of one field of sky, a claim each: "record c is kept".
 * Records 0 and 1 are twins, each kept only if the other isn't; 2 is kept
 * unless 3, which supersedes it, is; 3 unless 4 is; 4 always.  Nothing speaks
 * for 5.  Of 6 nobody measured what would decide it.
 */
enum { CLAIMS = 7, RULES = 6, LITERALS = 4, WORKERS = 1, QUESTIONS = 0 };
enum { RULES_AT = 36, LITERALS_AT = RULES_AT + 4 * RULES };
enum { QUESTIONS_AT = LITERALS_AT + 2 * LITERALS };
enum { LENGTH = QUESTIONS_AT + 4 * QUESTIONS };
enum { NOT = 32768 };

static const unsigned rules[RULES][2] = {
    /* head, body length; heads never fall */
    {0, 1}, {1, 1}, {2, 1}, {3, 1}, {4, 0}, {6, ZESTCHINTZ_MISSING},
};
static const unsigned literals[LITERALS] = {NOT + 1, NOT + 0, NOT + 3, NOT + 4};

static void put_half(uint8_t *at, unsigned value)
{
    at[0] = (uint8_t)value;
    at[1] = (uint8_t)(value >> 8);
}

static void put_word(uint8_t *at, uint32_t value)
{
    put_half(at, value & 0xffff);
    put_half(at + 2, value >> 16);
}

static void build(uint8_t job[LENGTH])
{
    const uint32_t header[9] = {LENGTH,    CLAIMS,   RULES,       LITERALS,    WORKERS,
                                QUESTIONS, RULES_AT, LITERALS_AT, QUESTIONS_AT};
    for (int i = 0; i < 9; i++)
        put_word(job + 4 * i, header[i]);
    for (int i = 0; i < RULES; i++) {
        put_half(job + RULES_AT + 4 * i, rules[i][0]);
        put_half(job + RULES_AT + 4 * i + 2, rules[i][1]);
    }
    for (int i = 0; i < LITERALS; i++)
        put_half(job + LITERALS_AT + 2 * i, literals[i]);
}

static const char *advice(unsigned number)
{
    switch (number) {
    case 1: return "no job has this length; was the file cut, or is it something else?";
    case 2: return "the first word must be the job's length; was the file cut?";
    case 3: return "this count is over its limit, or there is no worker; split the job";
    case 4: return "this word doesn't fit the counts; write the header again from them";
    case 5: return "this rule's head is no claim or less than the one before; sort the rules";
    case 6: return "body lengths don't add up to the number of literals; count them again";
    case 7: return "this literal names no claim; correct it or raise the number of claims";
    case 8: return "this question names no worker or no claim; correct it";
    case 13: return "lend this many bytes for the verdicts";
    default: return "unknown number; is the header older than the library?";
    }
}

static const char *word_for(uint8_t verdict)
{
    switch (verdict) {
    case ZESTCHINTZ_TRUE: return "true";
    case ZESTCHINTZ_FALSE: return "false";
    case ZESTCHINTZ_UNDEFINED: return "undefined";
    default: return "not written";
    }
}

static void show(const char *what, uint64_t code)
{
    if (!zestchintz_refused(code))
        printf("%s: accepted, %" PRIu64 " claims\n", what, code);
    else
        printf("%s: refused, number %u, place %" PRIu64 ": %s\n", what, zestchintz_number(code),
               zestchintz_place(code), advice(zestchintz_number(code)));
}

int main(void)
{
    uint8_t job[LENGTH];
    uint8_t verdicts[CLAIMS];
    memset(verdicts, 0, sizeof verdicts);
    build(job);

    show("check", zestchintz_check(job, sizeof job));
    uint64_t code = zestchintz_evaluate(job, sizeof job, verdicts, sizeof verdicts);
    show("evaluate", code);
    if (zestchintz_refused(code))
        return 1;
    for (uint64_t c = 0; c < code; c++)
        printf("record %" PRIu64 " is kept: %s\n", c, word_for(verdicts[c]));

    memset(verdicts, 0, sizeof verdicts);
    show("evaluate into 5 bytes", zestchintz_evaluate(job, sizeof job, verdicts, 5));
    show("check without the last byte", zestchintz_check(job, sizeof job - 1));
    put_half(job + LITERALS_AT + 2 * 2, NOT + 9);
    show("evaluate with literal `not 9`", zestchintz_evaluate(job, sizeof job, verdicts, CLAIMS));
    printf("record 0 is kept: %s\n", word_for(verdicts[0]));
    return 0;
}
