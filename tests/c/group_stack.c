/*
 * How much stack the admission of a job takes: a chain of 4,096 claims, its start asked
 * for by workers of two groups, so that each claim is met twice.  Prints the bytes; exit
 * status 1 where they are over the limit.
 */
#define _POSIX_C_SOURCE 200809L
#include <stdio.h>

#include "made.h"
#include "painted.h"

/* The call that admits a job, of the library that is built for tests alone. */
uint64_t group_admit(const uint8_t *job, size_t length, const uint8_t *groups, size_t claims,
                     const uint8_t *workers, size_t worker_count);

enum { LIMIT = 40000, LINKS = CLAIMS - 1, ASKED = 2, CHAIN = BARE + 6 * LINKS + 4 * ASKED };

static uint8_t job[CHAIN];
static const uint8_t public_claims[CLAIMS], groups[ASKED] = {1, 2};
static uint64_t answer;

/* Claim c if claim c + 1, for all but the last. */
static void fill_chain(void)
{
    const uint32_t counts[5] = {CLAIMS, LINKS, LINKS, ASKED, ASKED};
    put_header(job, counts);
    uint8_t *at = job + BARE;
    for (unsigned c = 0; c < LINKS; c++)
        at = put_half(put_half(at, c), 1);
    for (unsigned c = 0; c < LINKS; c++)
        at = put_half(at, c + 1);
    for (unsigned worker = 0; worker < ASKED; worker++)
        at = put_half(put_half(at, worker), 0);
}

static void *admit(void *given)
{
    answer = group_admit(job, CHAIN, public_claims, CLAIMS, groups, ASKED);
    return given;
}

int main(void)
{
    fill_chain();
    const size_t bytes = taken(admit, NULL);
    printf("admission: %zu bytes of stack, limit %d\n", bytes, LIMIT);
    return answer != 0 || bytes > LIMIT;
}
