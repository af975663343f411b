/* Jobs made in C. */
#include <stdint.h>
#include <string.h>

enum { CLAIMS = 4096, RULES = 6144, LITERALS = 16384, WORKERS = 32, QUESTIONS = 1024 };
enum { BARE = 36, LARGEST = BARE + 4 * RULES + 2 * LITERALS + 4 * QUESTIONS };

static uint8_t *put_half(uint8_t *at, unsigned value)
{
    at[0] = (uint8_t)value;
    at[1] = (uint8_t)(value >> 8);
    return at + 2;
}

/* The header of a job with these counts: claims, rules, literals, workers, questions. */
static void put_header(uint8_t *job, const uint32_t counts[5])
{
    const uint32_t literals_at = BARE + 4 * counts[1], questions_at = literals_at + 2 * counts[2];
    const uint32_t offsets[3] = {BARE, literals_at, questions_at};
    uint32_t words[9] = {questions_at + 4 * counts[4]};
    memcpy(words + 1, counts, 20);
    memcpy(words + 6, offsets, 12);
    for (int i = 0; i < 9; i++)
        put_half(put_half(job + 4 * i, words[i] & 0xFFFF), words[i] >> 16);
}
