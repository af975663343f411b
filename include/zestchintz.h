/*
 * zestchintz.h: verdicts for a job of claims and rules.
 *
 * A job is a string of bytes whose layout README.md gives.  Its rules say
 * when a claim holds; every claim has one verdict: true, false or undefined.
 *
 * Four things to know first:
 *
 *   - Undefined is not false.  (Neither is `unopened`, a word of the listing
 *     program: nobody asked for that claim.  No call here gives it.)
 *   - Compare a verdict byte with ZESTCHINTZ_TRUE, ZESTCHINTZ_FALSE or
 *     ZESTCHINTZ_UNDEFINED.  `if (verdicts[c])` holds for false too: it is 2.
 *   - Look at the code that a call answers first.  A refused call writes
 *     nothing, so `verdicts` is then what it was before.
 *   - The job must not change during a call, and nobody else may read or write
 *     `verdicts` until it returns.  Beyond that any number of threads may call
 *     at once, on one job too, each with an output of its own.  (Calls on a
 *     shared table, none of which is here, are made one at a time.)
 *
 * Both functions answer with one code:
 *
 *     0 to 4096             accepted: the number of claims
 *     2^63 + length         refused, number 1: the job's length is the fault
 *     number * 2^32 + place refused, any other number
 *
 * The number says which check refuses, the place where: mostly the byte of the
 * job at which the word, rule, literal or question at fault begins.  README.md
 * lists the checks and what to do about each.  Take a code apart with the three
 * functions at the end.
 *
 * Pointers: each must be good for as many bytes as its length says, and
 * `verdicts` must not overlap `job`.  Where a length is 0 the pointer may be
 * anything, NULL too.  Nothing needs to be aligned.
 *
 * Link with libzestchintz.a, which `make library` writes to target/staticlib/.
 * It is for x86-64, keeps no state between calls, allocates nothing, and needs
 * nothing of other libraries but C's memset and its like.
 */
#ifndef ZESTCHINTZ_H
#define ZESTCHINTZ_H

#include <stddef.h>
#include <stdint.h>

#ifdef __cplusplus
extern "C" {
#endif

/* No job has more claims or more bytes. */
#define ZESTCHINTZ_MAX_CLAIMS 4096
#define ZESTCHINTZ_MAX_JOB_LENGTH 61476

/*
 * The body length of a rule record that has no literals and says: nobody
 * measured this.  Its claim is then not false: true by a rule that holds,
 * else undefined.
 */
#define ZESTCHINTZ_MISSING 65535

/* The bytes that stand for the verdicts.  None is 0. */
#define ZESTCHINTZ_TRUE 1
#define ZESTCHINTZ_FALSE 2
#define ZESTCHINTZ_UNDEFINED 3

/*
 * Checks a job.  Answers its number of claims, or a refusal, numbers 1 to 8.
 * Only reads.
 */
uint64_t zestchintz_check(const uint8_t *job, size_t job_length);

/*
 * Checks a job and writes the verdict of each claim: byte c of `verdicts` is
 * the verdict of claim c.  Answers the number of claims; every byte after that
 * many stays as it was.
 *
 * A refusal is one of numbers 1 to 8, as zestchintz_check gives it, or 13 where
 * `verdicts` has fewer bytes than there are claims; the place is then the
 * number of bytes needed.  A refused call writes nothing.
 *
 * A call takes up to 128 KB of stack: a thread with a small stack must have
 * that much left.
 */
uint64_t zestchintz_evaluate(const uint8_t *job, size_t job_length,
                             uint8_t *verdicts, size_t verdicts_length);

/* Is this code a refusal?  1 if it is, else 0. */
static inline int zestchintz_refused(uint64_t code)
{
    return (code >> 32) != 0;
}

/* The number of a refusal: 1 to 8 or 13; 0 for a code that is none. */
static inline unsigned zestchintz_number(uint64_t code)
{
    return (code >> 63) != 0 ? 1u : (unsigned)(code >> 32);
}

/* The place of a refusal: for number 1 the job's length. */
static inline uint64_t zestchintz_place(uint64_t code)
{
    return (code >> 63) != 0 ? code - ((uint64_t)1 << 63)
                             : (code & (uint64_t)0xffffffffu);
}

#ifdef __cplusplus
}
#endif

#endif
