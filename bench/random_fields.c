#include "random_fields.h"

#include <string.h>

#include "plain_wire.h"
#include "random.h"

/* How many numbers come ahead of the next padded one; and whether others follow it. */
static uint32_t ahead = UINT32_MAX;
static bool some;

void random_padding(void)
{
    static const uint32_t ranges[] = {4, 16, 64};
    ahead = one_in(4) ? UINT32_MAX : pick(ranges[pick(3)]);
    some = one_in(4);
}

/* Longer than it need be, in ten bytes with any bits past 64. One in twelve has any length: it may be cut, or too
 * long. */
static void put_longer(Frame *f, uint64_t v)
{
    enum { LONGEST = 10 };
    uint32_t len = 1;
    for (uint64_t left = v >> 7; left > 0; left >>= 7)
        len++;
    if (len < LONGEST)
        len += 1 + pick(LONGEST - len);
    if (one_in(12))
        len = 1 + pick(LONGEST + 1);
    put_padded(f, v, len);
    if (len == LONGEST && one_in(2))
        f->bytes[f->len - 1] |= (uint8_t)(pick(64) << 1);
}

void put_some_number(Frame *f, uint64_t v)
{
    if (ahead-- > 0) {
        put_number(f, v);
        return;
    }
    ahead = some ? pick(24) : UINT32_MAX;
    put_longer(f, v);
}

void put_some_field(Frame *f, uint32_t number, uint64_t v)
{
    put_some_number(f, TAG(number, NUMBER));
    put_some_number(f, v);
}

void put_some_bytes(Frame *f, uint32_t number, const Frame *bytes)
{
    put_some_number(f, TAG(number, BYTES));
    put_some_number(f, bytes->len);
    memcpy(f->bytes + f->len, bytes->bytes, bytes->len);
    f->len += bytes->len;
}

/* Where a part that begins at `from` ends. Which field ends where does not matter for what is compared, so the plain
 * side's reader tells it. */
static size_t part_end(const Frame *message, size_t from)
{
    const uint8_t *at = message->bytes + from, *end = message->bytes + message->len;
    Field f;
    if (one_in(60))
        return from + pick((uint32_t)(message->len - from + 1));
    for (bool ignored = false; at && at < end && !one_in(3);)
        at = read_field(at, end, &f, &ignored);
    return at ? (size_t)(at - message->bytes) : message->len;
}

void put_some_parts(Frame *f, uint32_t number, const Frame *message)
{
    static Frame part;
    bool whole = !one_in(3);
    size_t from = 0;
    do {
        size_t end = whole ? message->len : part_end(message, from);
        part.len = end - from;
        memcpy(part.bytes, message->bytes + from, part.len);
        put_some_bytes(f, number, &part);
        maybe_noise(f);
        from = end;
    } while (from < message->len);
}

void put_random_bytes(Frame *f, size_t len)
{
    while (len-- > 0)
        put(f, (uint8_t)pick(256));
}

/* Groups around the deepest that are read, some with fields in them or an end that is not theirs. */
static void put_some_groups(Frame *f)
{
    uint32_t depth = one_in(3) ? 31 + pick(10) / 4 : 1 + pick(4), number = 1 + pick(20);
    for (uint32_t i = 0; i < depth; i++) {
        put_some_number(f, TAG(number, GROUP));
        if (one_in(4))
            put_some_field(f, 1 + pick(20), random_number());
    }
    for (uint32_t i = 0; i < depth; i++)
        put_some_number(f, TAG(one_in(200) ? number + 1 : number, GROUP_END));
}

void put_noise(Frame *f)
{
    uint32_t number = one_in(8) ? (uint32_t)random_number() >> 3 : 1 + pick(12);
    if (one_in(40)) {
        put_some_number(f, random_number());
        return;
    }
    switch (pick(16)) {
    case 0:
    case 1:
        put_some_groups(f);
        break;
    case 2:
    case 3:
        put_some_number(f, TAG((uint64_t)number, FIXED64));
        put_random_bytes(f, 8);
        break;
    case 4:
    case 5:
        put_some_number(f, TAG((uint64_t)number, FIXED32));
        put_random_bytes(f, 4);
        break;
    case 6:
    case 7:
    case 8: {
        size_t len = pick(5);
        put_some_number(f, TAG((uint64_t)number, BYTES));
        put_some_number(f, len);
        put_random_bytes(f, len);
        break;
    }
    default:
        put_some_number(f, TAG((uint64_t)number, NUMBER));
        put_some_number(f, random_number());
    }
}

void maybe_noise(Frame *f)
{
    while (one_in(12))
        put_noise(f);
}
