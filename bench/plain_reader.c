#include "plain_reader.h"

#include <string.h>

enum { HEAD = 4, MAX_LENGTH = PLAIN_STORE - HEAD };
/* What `first` is where no frame's length stands first: more than is ever held. */
static const uint32_t UNKNOWN = UINT32_MAX - 1, BAD = UINT32_MAX;

void plain_start_over(PlainReader *r)
{
    r->start = r->end = 0;
    r->first = UNKNOWN;
}

/* Reads the length that stands first. Behind a bad one nothing can be read, so the rest is dropped. */
static inline uint32_t look_at_first(PlainReader *r, uint32_t start)
{
    uint32_t length;
    if (r->end - start < HEAD)
        return r->first = UNKNOWN;
    memcpy(&length, r->bytes + start, HEAD);
    /* 0 wraps round */
    if (length - 1 < MAX_LENGTH)
        return r->first = HEAD + length;
    r->end = start + HEAD;
    return r->first = BAD;
}

static uint32_t reason_of(uint32_t first)
{
    return first == BAD ? PLAIN_BAD : PLAIN_WAIT;
}

PlainPushed plain_push(PlainReader *r, const uint8_t *bytes, size_t len)
{
    uint32_t held = r->end - r->start, first = r->first;
    size_t room = PLAIN_STORE - held, count = len < room ? len : room;
    if (first == BAD)
        return (PlainPushed){0, PLAIN_BAD};
    if (r->start > 0) {
        /* to the front, where the processor's cache still has it */
        if (held > 0)
            memmove(r->bytes, r->bytes + r->start, held);
        r->start = 0;
    }
    memcpy(r->bytes + held, bytes, count);
    r->end = held + (uint32_t)count;
    if (first == UNKNOWN)
        first = look_at_first(r, 0);
    return (PlainPushed){(uint32_t)count, r->end >= first ? PLAIN_FRAME : reason_of(first)};
}

PlainFrame plain_next_frame(PlainReader *r)
{
    uint32_t start = r->start, len = r->first;
    if (r->end - start < len)
        return (PlainFrame){0, 0, 0, reason_of(len)};
    r->start = start + len;
    look_at_first(r, start + len);
    return (PlainFrame){start, len, r->bytes[start + HEAD], PLAIN_FRAME};
}
