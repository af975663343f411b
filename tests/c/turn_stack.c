/*
 * How much stack a turn takes that gathers 4,096 claims, and one that completes
 * them.  Prints the bytes; exit status 1 where they are over the limits.
 */
#define _POSIX_C_SOURCE 200809L
#include <stdio.h>

#include "painted.h"
#include "ring.h"

/* The calls on a table, of the library that is built for tests alone. */
uint64_t table_start(const uint8_t *job, size_t length, uint32_t *table, size_t words);
uint64_t table_turn(const uint8_t *job, size_t length, uint32_t *table, size_t words, size_t worker);

enum { FIRST_PASSED = 8 + 1 };
enum { IDLE = 0, PASSED = 5, COMPLETED = 6, KINDS = 8 };

static uint64_t kind;

static void *turn(void *given)
{
    kind = table_turn(job, JOB, table, WORDS, 0);
    return given;
}

/* Turns until the first claim has passed so many literals, then one of this kind: whether it keeps to the limit. */
static int keeps_to(size_t limit, const char *name, uint64_t wanted, uint32_t passed)
{
    while (table[FIRST_PASSED] < passed) {
        turn(NULL);
        if (kind == IDLE || kind >= KINDS)
            return 0;
    }
    const size_t bytes = taken(turn, NULL);
    printf("a turn that %s 4,096 claims: %zu bytes of stack, limit %zu\n", name, bytes, limit);
    return kind == wanted && bytes <= limit;
}

int main(void)
{
    fill_ring();
    if (table_start(job, JOB, table, WORDS) != 0)
        return 2;
    return !(keeps_to(36000, "gathers", PASSED, 2) && keeps_to(240000, "completes", COMPLETED, FIRST_LITERALS));
}
