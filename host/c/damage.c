#define _GNU_SOURCE
#include "damage.h"

#include <stdio.h>
#include <stdlib.h>
#include <string.h>
#include <sys/mman.h>

static uint64_t state = 0x9e3779b97f4a7c15u;

/* xorshift; of its product the upper half, because the lower bits of two states in turn depend on each other. */
uint64_t below(uint64_t n)
{
    state ^= state << 13;
    state ^= state >> 7;
    state ^= state << 17;
    return (state * 0x2545f4914f6cdd1du >> 32) % n;
}

bool untouched(const uint8_t *bytes, size_t len)
{
    for (size_t i = 0; i < len; i++) {
        if (bytes[i] != UNTOUCHED)
            return false;
    }
    return true;
}

uint8_t *guarded_end(size_t room)
{
    uint8_t *start = mmap(NULL, room + PAGE, PROT_READ | PROT_WRITE, MAP_PRIVATE | MAP_ANONYMOUS, -1, 0);
    if (start == MAP_FAILED || mprotect(start + room, PAGE, PROT_NONE) != 0) {
        perror("survive");
        exit(2);
    }
    return start + room;
}

size_t drafted_frame(uint8_t *frame, size_t room)
{
    static const uint8_t kinds[] = {40, 40, 40, 40, 40, 43, 43, 43, 43, 45, 44, 42, 41};
    static const uint8_t body[] = {0x0a, 0x01, 'S'}, object[] = {0x12, 0x02, 0x08, 0x02};
    struct karramotx_draft draft = {.kind = kinds[below(sizeof kinds)],
                                    .stmt = (uint32_t)below(80),
                                    .cursor = (uint32_t)below(24),
                                    .hasrows = below(2),
                                    .rows = below(6),
                                    .operation = KARRAMOTX_STMT_EXECUTE};
    return karramotx_write(draft, body, sizeof body, object, below(16) == 0 ? sizeof object : 0, frame, room).len;
}

size_t parted(uint8_t *frame, size_t len)
{
    static const uint8_t body[LONGEST_PART] = {0x12, 0x05, 0x32, 0x03, 0x0a, 0x01, 'S'};
    static const uint8_t execute[] = {0x22, 0x04, 0x12, 0x02, 0x08, 0x01};
    bool is_open = frame[4] == KARRAMOTX_CURSOR_OPEN, is_short = len < UINT8_MAX - LONGEST_PART;
    if (!is_short || (!is_open && frame[4] != KARRAMOTX_PREPARE))
        return len;
    size_t more = is_open ? sizeof execute : sizeof body;
    memcpy(frame + len, is_open ? execute : body, more);
    if (below(2)) {
        frame[len + 1] = 0;
        more = 2;
    }
    frame[0] = (uint8_t)(frame[0] + more);
    return len + more;
}

size_t padded(uint8_t *frame, size_t len)
{
    frame[0]++;
    frame[len - 1] |= 0x80;
    frame[len] = 0;
    return len + 1;
}

size_t damaged(uint8_t *bytes, size_t len)
{
    size_t at = below(len + 1);
    switch (below(5)) {
    case 0:
        if (at < len)
            bytes[at] = (uint8_t)below(256);
        return len;
    case 1:
        if (at == len)
            return len;
        memmove(bytes + at, bytes + at + 1, len - at - 1);
        return len - 1;
    case 2:
        memmove(bytes + at + 1, bytes + at, len - at);
        bytes[at] = (uint8_t)below(256);
        return len + 1;
    case 3:
        return at;
    default:
        return len;
    }
}
