#include <stdio.h>
#include "zestchintz.h"

static uint8_t job[ZESTCHINTZ_MAX_JOB_LENGTH + 1]; /* a byte more, so that a longer input is refused */
static uint8_t verdicts[ZESTCHINTZ_MAX_CLAIMS];

int main(void)
{
    size_t length = fread(job, 1, sizeof job, stdin);
    uint64_t code = zestchintz_evaluate(job, length, verdicts, sizeof verdicts);
    if (zestchintz_refused(code)) {
        printf("refused by check %u, place %lu\n", zestchintz_number(code),
               (unsigned long)zestchintz_place(code));
        return 1;
    }
    for (unsigned c = 0; c < code; c++) {
        switch (verdicts[c]) {
        case ZESTCHINTZ_TRUE: printf("%u true\n", c); break;
        case ZESTCHINTZ_FALSE: printf("%u false\n", c); break;
        case ZESTCHINTZ_UNDEFINED: printf("%u undefined\n", c); break;
        }
    }
    return 0;
}
