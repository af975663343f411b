/*
 * How much stack plain evaluation takes.  Prints the bytes; exit status 1 where
 * they are over the limit.
 */
#define _POSIX_C_SOURCE 200809L
#include <stdio.h>

#include "made.h"
#include "painted.h"
#include "zestchintz.h"

enum { LIMIT = 200000 };

static uint8_t largest[LARGEST], bare[BARE], verdicts[CLAIMS];

struct job {
    const uint8_t *bytes;
    size_t length;
};

/* Every count at its limit; claim c has rules over claims after it, every third literal negated. */
static void fill_largest(void)
{
    const uint32_t counts[5] = {CLAIMS, RULES, LITERALS, WORKERS, QUESTIONS};
    put_header(largest, counts);
    uint8_t *at = largest + BARE;
    for (unsigned rule = 0; rule < RULES; rule++)
        at = put_half(put_half(at, rule * 2 / 3), rule < 4096 ? 3 : 2);
    for (unsigned k = 0; k < LITERALS; k++)
        at = put_half(at, (k * 5 / 19 + k % 7) % CLAIMS + (k % 3 == 0 ? 32768 : 0));
    for (unsigned q = 0; q < QUESTIONS; q++)
        at = put_half(put_half(at, q % WORKERS), q);
}

static void *evaluate(void *given)
{
    const struct job *job = given;
    if (zestchintz_evaluate(job->bytes, job->length, verdicts, CLAIMS) != CLAIMS)
        exit(2);
    return NULL;
}

int main(void)
{
    const uint32_t counts[5] = {CLAIMS, 0, 0, 1, 0};
    put_header(bare, counts);
    fill_largest();
    struct job jobs[2] = {{bare, BARE}, {largest, LARGEST}};
    evaluate(&jobs[1]);
    size_t most = 0;
    for (int i = 0; i < 2; i++) {
        const size_t bytes = taken(evaluate, &jobs[i]);
        printf("%zu bytes of job: %zu bytes of stack\n", jobs[i].length, bytes);
        most = bytes > most ? bytes : most;
    }
    printf("%zu bytes of stack at most, limit %d\n", most, LIMIT);
    return most > LIMIT;
}
