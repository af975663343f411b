/*
 * The calls from C at their edges: NULL where a length is 0, buffers of
 * exactly the lengths given (valgrind sees a byte read or written beside them)
 * and the header's three functions.  Prints what differs; exit status 1 if any.
 */
#include <inttypes.h>
#include <stdio.h>
#include <stdlib.h>
#include <string.h>

#include "made.h"
#include "zestchintz.h"

static int differences = 0;

static void expect(const char *what, uint64_t expected, uint64_t answer)
{
    if (answer != expected) {
        printf("differs: %s: %" PRIx64 ", expected %" PRIx64 "\n", what, answer, expected);
        differences++;
    }
}

/* A job of so many claims and nothing else, in 36 bytes of the heap. */
static uint8_t *bare_job(uint32_t claims)
{
    const uint32_t counts[5] = {claims, 0, 0, 1, 0};
    uint8_t *job = malloc(BARE);
    if (job == NULL)
        exit(2);
    put_header(job, counts);
    return job;
}

static void null_pointers(void)
{
    const uint64_t short_by_all = (uint64_t)1 << 63;
    uint8_t *empty = bare_job(0), *one = bare_job(1);
    uint8_t verdict = 9;
    expect("check NULL", short_by_all, zestchintz_check(NULL, 0));
    expect("evaluate NULL into NULL", short_by_all, zestchintz_evaluate(NULL, 0, NULL, 0));
    expect("evaluate NULL into a byte", short_by_all, zestchintz_evaluate(NULL, 0, &verdict, 1));
    expect("no claims into NULL", 0, zestchintz_evaluate(empty, 36, NULL, 0));
    expect("one claim into NULL", ((uint64_t)13 << 32) + 1, zestchintz_evaluate(one, 36, NULL, 0));
    expect("the byte lent", 9, verdict);
    free(empty);
    free(one);
}

/* Every length of a job's heap block up to 40, filled with a cut or padded job. */
static void exact_jobs(void)
{
    uint8_t *whole = bare_job(2);
    for (size_t length = 1; length <= 40; length++) {
        uint8_t *job = calloc(length, 1), *verdicts = malloc(2);
        if (job == NULL || verdicts == NULL)
            exit(2);
        memcpy(job, whole, length < 36 ? length : 36);
        uint64_t expected = length == 36 ? 2 : length < 36 ? ((uint64_t)1 << 63) + length : (uint64_t)2 << 32;
        expect("check", expected, zestchintz_check(job, length));
        expect("evaluate", expected, zestchintz_evaluate(job, length, verdicts, 2));
        free(job);
        free(verdicts);
    }
    free(whole);
}

/* Outputs of every length around the number of claims. */
static void exact_outputs(void)
{
    const uint32_t claims = 5;
    uint8_t *job = bare_job(claims);
    for (size_t length = 0; length <= 9; length++) {
        uint8_t *verdicts = malloc(length + 1);
        if (verdicts == NULL)
            exit(2);
        memset(verdicts, 9, length + 1);
        int fits = length >= claims;
        uint64_t expected = fits ? claims : ((uint64_t)13 << 32) + claims;
        expect("evaluate", expected, zestchintz_evaluate(job, 36, verdicts, length));
        for (size_t c = 0; c <= length; c++)
            expect("byte", fits && c < claims ? ZESTCHINTZ_FALSE : 9, verdicts[c]);
        free(verdicts);
    }
    free(job);
}

static void header_functions(void)
{
    const uint64_t long_job = ((uint64_t)1 << 63) + 5000000000u, literal = ((uint64_t)7 << 32) + 60;
    expect("4096 refused", 0, (uint64_t)zestchintz_refused(4096));
    expect("number of 4096", 0, zestchintz_number(4096));
    expect("7 refused", 1, (uint64_t)zestchintz_refused(literal));
    expect("number 7", 7, zestchintz_number(literal));
    expect("place 60", 60, zestchintz_place(literal));
    expect("1 refused", 1, (uint64_t)zestchintz_refused((uint64_t)1 << 63));
    expect("number 1", 1, zestchintz_number(long_job));
    expect("place 5,000,000,000", 5000000000u, zestchintz_place(long_job));
    expect("place 0", 0, zestchintz_place((uint64_t)1 << 63));
}

int main(void)
{
    null_pointers();
    exact_jobs();
    exact_outputs();
    header_functions();
    printf("%d differences\n", differences);
    return differences != 0;
}
