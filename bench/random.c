#include "random.h"

static uint64_t state = 1;

void random_seed(uint64_t seed)
{
    state = seed * 2 + 1;
}

/* xorshift */
static uint64_t next_random(void)
{
    state ^= state << 13;
    state ^= state >> 7;
    state ^= state << 17;
    return state * 0x2545f4914f6cdd1du;
}

uint32_t pick(uint32_t n)
{
    return (uint32_t)((next_random() >> 32) * n >> 32);
}

bool one_in(uint32_t n)
{
    return pick(n) == 0;
}

uint64_t random_number(void)
{
    switch (pick(4)) {
    case 0:
        return next_random() >> pick(64);
    case 1:
        return ((uint64_t)1 << pick(64)) - 1 + pick(3);
    default:
        return pick(12);
    }
}

void random_report(Report *r, uint32_t work)
{
    static const uint8_t suited[] = {REPORT_NONE, REPORT_PREPARED, REPORT_RESULT, REPORT_RESULT, REPORT_DONE};
    r->kind = suited[work];
    if (one_in(6))
        r->kind = one_in(8) ? random_number() : one_in(2) ? REPORT_FAILED : pick(5);
    r->placeholders = one_in(20) ? MAX_PLACEHOLDERS - 1 + pick(4) : one_in(4) ? pick(4) : 0;
    r->columns = one_in(20) ? MAX_COLUMNS - 1 + pick(4) : pick(4);
    r->rows = one_in(10) ? random_number() : one_in(20) ? UINT32_MAX - 1 + (uint64_t)pick(4) : pick(30);
    if (r->columns == 0 && !one_in(3))
        r->rows = 0;
    r->code = one_in(3) ? random_number() : UINT32_MAX - 1 + (uint64_t)pick(4);
}
