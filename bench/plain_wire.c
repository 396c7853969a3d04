#include "plain_wire.h"

#include <string.h>

/* Of any length; bits past 64 fall off. Unrolled, so that each shift is a constant. Whether it is padded shows in the
 * last byte: the shortest form ends in a byte that is not 0, and of ten bytes in one that has bit 63 alone. Inlined by
 * force, since the flag makes it too long for the compiler to do so by itself. */
static inline __attribute__((always_inline)) const uint8_t *read_long_varint(const uint8_t *at, const uint8_t *end,
                                                                             uint64_t *value, bool *padded)
{
    uint64_t v = 0;
#pragma GCC unroll 10
    for (unsigned i = 0; i < 10; i++) {
        if (at == end)
            return NULL;
        uint64_t b = *at++;
        v |= (b & 0x7f) << (7 * i);
        if (b < 0x80) {
            *value = v;
            if (i < 9 ? i > 0 && b == 0 : b != 1)
                *padded = true;
            return at;
        }
    }
    return NULL;
}

/* Most have one byte or two. */
static inline const uint8_t *read_varint(const uint8_t *at, const uint8_t *end, uint64_t *value, bool *padded)
{
    if (at < end && at[0] < 0x80) {
        *value = at[0];
        return at + 1;
    }
    if (end - at >= 2 && at[1] < 0x80) {
        *value = (at[0] & 0x7fu) | (uint32_t)at[1] << 7;
        if (at[1] == 0)
            *padded = true;
        return at + 2;
    }
    return read_long_varint(at, end, value, padded);
}

/* The wire type is left to the caller. */
static inline const uint8_t *read_tag(const uint8_t *at, const uint8_t *end, uint32_t *tag, bool *padded)
{
    uint64_t v;
    at = read_varint(at, end, &v, padded);
    if (!at || v < TAG(1, 0) || v > UINT32_MAX)
        return NULL;
    *tag = (uint32_t)v;
    return at;
}

/* Written out, so that the compiler makes it one load. */
static inline uint32_t little(const uint8_t *s)
{
    return s[0] | (uint32_t)s[1] << 8 | (uint32_t)s[2] << 16 | (uint32_t)s[3] << 24;
}

/* What stands behind the tag of a field that is no group. */
static const uint8_t *read_value(const uint8_t *at, const uint8_t *end, Field *f, bool *padded)
{
    switch (f->tag & 7) {
    case NUMBER:
        return read_varint(at, end, &f->value, padded);
    case FIXED64:
        if (end - at < 8)
            return NULL;
        f->value = little(at) | (uint64_t)little(at + 4) << 32;
        return at + 8;
    case BYTES:
        at = read_varint(at, end, &f->value, padded);
        if (!at || f->value > (size_t)(end - at))
            return NULL;
        f->bytes = at;
        return at + f->value;
    case FIXED32:
        if (end - at < 4)
            return NULL;
        f->value = little(at);
        return at + 4;
    default:
        return NULL;
    }
}

/* Behind a group's start. The numbers of the groups that are open stand in an array, since each end must carry
 * its start's. What is padded here does not count. Not inlined, so that other fields keep their registers. */
static __attribute__((noinline)) const uint8_t *skip_group(const uint8_t *at, const uint8_t *end, uint32_t number)
{
    uint32_t open[MAX_DEPTH];
    unsigned depth = 0;
    bool ignored = false;
    open[depth++] = number;
    while (depth > 0) {
        Field f;
        at = read_tag(at, end, &f.tag, &ignored);
        if (!at)
            return NULL;
        switch (f.tag & 7) {
        case GROUP:
            if (depth == MAX_DEPTH)
                return NULL;
            open[depth++] = f.tag >> 3;
            break;
        case GROUP_END:
            if (open[--depth] != f.tag >> 3)
                return NULL;
            break;
        default:
            at = read_value(at, end, &f, &ignored);
            if (!at)
                return NULL;
        }
    }
    return at;
}

const uint8_t *read_long_field(const uint8_t *at, const uint8_t *end, Field *f, bool *padded)
{
    at = read_tag(at, end, &f->tag, padded);
    if (!at)
        return NULL;
    if ((f->tag & 7) == GROUP)
        return skip_group(at, end, f->tag >> 3);
    return read_value(at, end, f, padded);
}

bool are_fields(const uint8_t *at, const uint8_t *end, bool *padded)
{
    while (at < end) {
        Field f;
        at = read_field(at, end, &f, padded);
        if (!at)
            return false;
    }
    return true;
}
