/*
 * How much stack a recorded run takes that gathers 4,096 claims and completes them, its
 * replay, and a replay whose last pair is false, which takes the turns again.  Prints the
 * bytes; exit status 1 where they are over the limit.
 */
#define _POSIX_C_SOURCE 200809L
#include <stdio.h>

#include "painted.h"
#include "ring.h"

/* A recorded run and a replay, of the library that is built for tests alone. */
uint64_t table_record(const uint8_t *job, size_t length, uint32_t *table, size_t words, const uint8_t *schedule,
                      size_t turns, uint8_t *buffer, size_t bytes, uint64_t *tally, size_t counts);
uint64_t table_replay(const uint8_t *job, size_t length, uint32_t *table, size_t words, const uint8_t *record,
                      size_t bytes, uint64_t *tally, size_t counts);

/* The claim asked is opened, its literals are passed, all is completed and answered. */
enum { LIMIT = 240000, TURNS = 1 + LITERALS + 2, RECORD = 2 * TURNS };
enum { COMPLETED = 6, ANSWERED = 7, KINDS = 8 };

static const uint8_t schedule[TURNS];
static uint8_t record[RECORD];
static uint64_t tally[KINDS], answer;

static void *run(void *given)
{
    answer = table_record(job, JOB, table, WORDS, schedule, TURNS, record, RECORD, tally, KINDS);
    return given;
}

static void *replay(void *given)
{
    answer = table_replay(job, JOB, table, WORDS, record, RECORD, tally, KINDS);
    return given;
}

/* Whether a call gives this answer, has completed the claims and keeps to the limit. */
static int keeps_to_limit(const char *name, void *(*call)(void *), uint64_t wanted)
{
    const size_t bytes = taken(call, NULL);
    printf("%s that gathers and completes 4,096 claims: %zu bytes of stack, limit %d\n", name, bytes, LIMIT);
    return answer == wanted && tally[COMPLETED] == 1 && bytes <= LIMIT;
}

int main(void)
{
    fill_ring();
    if (!keeps_to_limit("a recorded run", run, 0) || !keeps_to_limit("a replay", replay, 0))
        return 1;
    if (record[RECORD - 1] != ANSWERED)
        return 2;
    record[RECORD - 1] = COMPLETED;
    const uint64_t last_false = ((uint64_t)1 << 63) + ((uint64_t)24 << 56) + (TURNS - 1);
    return !keeps_to_limit("a replay of a false record", replay, last_false);
}
