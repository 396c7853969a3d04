#include "random_images.h"

#include <string.h>

#include "plain_tables.h"
#include "random.h"

void random_session(Session *s)
{
    uint32_t live = pick(5);
    plain_fresh(s);
    s->closed = one_in(8);
    for (int i = 0; i < MAX_STMTS; i++) {
        s->stmt_ids[i] = (uint32_t)random_number();
        s->placeholders[i] = (uint32_t)random_number();
        if (pick(4) < live)
            take_place(s->live_stmts, MAX_STMTS, i);
    }
    for (int i = 0; i < MAX_CURSORS; i++) {
        s->cursor_ids[i] = (uint32_t)random_number();
        s->cursor_stmts[i] = (uint32_t)random_number();
        s->rows[i] = (uint32_t)random_number();
        s->sent[i] = (uint32_t)random_number();
        if (pick(4) < live)
            take_place(s->live_cursors, MAX_CURSORS, i);
    }
}

/* ---- numbers */

static size_t put_number(uint8_t *at, uint64_t v)
{
    size_t len = 0;
    for (; v >= 0x80; v >>= 7)
        at[len++] = (uint8_t)(v | 0x80);
    at[len++] = (uint8_t)v;
    return len;
}

/* Where the number behind this one begins. */
static size_t behind(const uint8_t *image, size_t len, size_t at)
{
    while (at < len && image[at] >= 0x80)
        at++;
    return at < len ? at + 1 : len;
}

/* Where one of the numbers begins. */
static size_t some_place(const uint8_t *image, size_t len)
{
    size_t wanted = pick((uint32_t)len), at = 0;
    while (behind(image, len, at) <= wanted)
        at = behind(image, len, at);
    return at;
}

/* Other bytes in the place of some. */
static size_t replace(uint8_t *image, size_t len, size_t from, size_t to, const uint8_t *bytes, size_t count)
{
    memmove(image + from + count, image + to, len - to);
    memcpy(image + from, bytes, count);
    return len - (to - from) + count;
}

/* A number around a limit, any other, or one of the image's own. */
static size_t other_number(const uint8_t *image, size_t len, uint8_t *number)
{
    static const uint32_t limits[] = {1, MAX_CURSORS, MAX_STMTS, MAX_PLACEHOLDERS};
    if (one_in(3)) {
        size_t at = some_place(image, len), count = behind(image, len, at) - at;
        count = count > 10 ? 10 : count;
        memcpy(number, image + at, count);
        return count;
    }
    return put_number(number, one_in(2)   ? (uint64_t)limits[pick(4)] + pick(3) - 1
                              : one_in(8) ? (uint64_t)UINT32_MAX + pick(3)
                                          : random_number());
}

/* The number with a byte of 0 at its end, or in ten bytes with a bit that falls off at 64. */
static size_t pad_number(uint8_t *image, size_t len, size_t at, size_t to)
{
    static const uint8_t zero[] = {0}, ten[] = {0x80, 0x80, 0x80, 0x80, 0x80, 0x80, 0x80, 0x80, 0x80, 0x02};
    size_t count = to - at;
    image[to - 1] |= 0x80;
    if (count >= sizeof ten || one_in(2))
        return replace(image, len, to, to, zero, sizeof zero);
    return replace(image, len, to, to, ten + count, sizeof ten - count);
}

size_t damage_image(uint8_t *image, size_t len)
{
    uint8_t number[10], byte = (uint8_t)pick(256);
    if (len == 0)
        return replace(image, len, 0, 0, &byte, 1);
    size_t at = some_place(image, len), to = behind(image, len, at), count = other_number(image, len, number);
    switch (pick(8)) {
    case 0:
        return replace(image, len, at, to, number, 0);
    case 1:
        return replace(image, len, at, at, number, count);
    case 2:
        return pad_number(image, len, at, to);
    case 3:
        return pick((uint32_t)len);
    case 4:
        return replace(image, len, len, len, &byte, 1);
    case 5:
        image[pick((uint32_t)len)] = byte;
        return len;
    default:
        return replace(image, len, at, to, number, count);
    }
}

/* ---- images */

static size_t put_table(uint8_t *image, uint32_t places, int numbers)
{
    uint32_t count = pick(one_in(4) ? places : 4), place = 0;
    size_t len = put_number(image, count);
    for (uint32_t i = 0; i < count && len + 64 < MAX_IMAGE / 2; i++) {
        len += put_number(image + len, place);
        place += one_in(32) ? pick(places) : one_in(4) ? 2 : 1;
        for (int k = 0; k < numbers; k++)
            len += put_number(image + len, one_in(32) ? random_number() : pick(100));
    }
    return len;
}

size_t random_image(uint8_t *image)
{
    size_t len = put_number(image, one_in(16) ? random_number() : 1);
    len += put_number(image + len, one_in(16) ? random_number() : 0);
    len += put_table(image + len, MAX_STMTS, 2);
    return len + put_table(image + len, MAX_CURSORS, 4);
}
