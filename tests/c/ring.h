/* A job whose turns gather 4,096 claims and complete them: each claim leads to the next in a ring, the first one to
   every claim three times besides.  The last, which is the newest, has soon passed its literal, and then the first
   passes one after the other. */
#include "made.h"

enum { RING_RULES = CLAIMS + 1, JOB = BARE + 4 * RING_RULES + 2 * LITERALS + 4 };
enum { FIRST_LITERALS = LITERALS - (CLAIMS - 1) };
enum { WORDS = 8 + 3 * CLAIMS + 3 * 1 + 1 };

static uint8_t job[JOB];
static uint32_t table[WORDS];

static void fill_ring(void)
{
    const uint32_t counts[5] = {CLAIMS, RING_RULES, LITERALS, 1, 1};
    put_header(job, counts);
    uint8_t *at = job + BARE;
    at = put_half(put_half(at, 0), 1);
    at = put_half(put_half(at, 0), FIRST_LITERALS - 1);
    for (unsigned claim = 1; claim < CLAIMS; claim++)
        at = put_half(put_half(at, claim), 1);
    for (unsigned k = 0; k < FIRST_LITERALS; k++)
        at = put_half(at, (k + 1) % CLAIMS);
    for (unsigned claim = 1; claim < CLAIMS; claim++)
        at = put_half(at, (claim + 1) % CLAIMS);
    put_half(put_half(at, 0), 0);
}
