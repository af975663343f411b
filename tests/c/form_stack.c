/*
 * How much stack the form of a job takes: one body of 16,384 literals, and 6,144 rules
 * of one head, falling, so that sorting goes deepest.  Prints the bytes; exit status 1
 * where they are over the limit.
 */
#define _POSIX_C_SOURCE 200809L
#include <stdio.h>

#include "made.h"
#include "painted.h"

/* The call on forms, of the library that is built for tests alone. */
uint64_t form_job(const uint8_t *job, size_t length, uint8_t *out, size_t out_length);

enum { LIMIT = 112000, NEGATED = 32768 };
enum { ONE_BODY = BARE + 4 + 2 * LITERALS, ONE_HEAD = BARE + 6 * RULES };

static uint8_t job[LARGEST];
static uint8_t form[LARGEST];
static size_t length;
static uint64_t written_bytes;

/* One rule; each literal twice, from the last negated one down to the first plain one. */
static void fill_body(void)
{
    const uint32_t counts[5] = {CLAIMS, 1, LITERALS, 1, 0};
    put_header(job, counts);
    uint8_t *at = put_half(put_half(job + BARE, 0), LITERALS);
    for (unsigned k = LITERALS; k-- > 0;)
        at = put_half(at, k / 2 % CLAIMS + (k / 2 < CLAIMS ? 0 : NEGATED));
    length = ONE_BODY;
}

/* Rules of one literal each, from the last down. */
static void fill_rules(void)
{
    const uint32_t counts[5] = {CLAIMS, RULES, RULES, 1, 0};
    put_header(job, counts);
    uint8_t *at = job + BARE;
    for (unsigned k = 0; k < RULES; k++)
        at = put_half(put_half(at, 0), 1);
    for (unsigned k = RULES; k-- > 0;)
        at = put_half(at, k % CLAIMS + (k < CLAIMS ? 0 : NEGATED));
    length = ONE_HEAD;
}

static void *write_form(void *given)
{
    written_bytes = form_job(job, length, form, length);
    return given;
}

/* Whether the form of the job made has so many bytes, and takes no more stack than the limit. */
static int keeps_to_limit(const char *name, size_t bytes_wanted)
{
    const size_t bytes = taken(write_form, NULL);
    printf("the form of %s: %zu bytes of stack, limit %d\n", name, bytes, LIMIT);
    return written_bytes == bytes_wanted && bytes <= LIMIT;
}

int main(void)
{
    fill_body();
    const int body = keeps_to_limit("one body of 16,384 literals", ONE_BODY - LITERALS);
    fill_rules();
    const int rules = keeps_to_limit("6,144 rules of one head", ONE_HEAD);
    return !(body && rules);
}
