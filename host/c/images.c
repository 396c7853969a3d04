#include "images.h"
#include "damage.h"
#include "server.h"

#include <inttypes.h>
#include <string.h>

/* SPARE bytes take what damage adds; every SWEEP-th image is damaged at each of its bytes. */
enum { SPARE = 16, SWEEP = 1024, LONGEST = KARRAMOTX_MAX_IMAGE + SPARE };

/* The image that is read and the buffer that is written end here. */
static uint8_t *image_end, *buf_end;

/* The session that is restored, with a page behind it that may not be touched, and one met before. */
static struct karramotx_session *target;
static struct karramotx_session other;

static struct {
    uint64_t images, accepted, refused;
} met;

/* Writes the image, which is known, into so many bytes. */
static bool writes(const struct karramotx_session *session, const uint8_t *image, size_t len, size_t room)
{
    uint8_t *buf = buf_end - room;
    bool fits = len <= room;
    size_t written = fits ? len : 0;
    memset(buf - GUARD, UNTOUCHED, GUARD + room);
    struct karramotx_sent sent = karramotx_image(session, room > 0 ? buf : NULL, room);
    return sent.reason == (fits ? KARRAMOTX_ACCEPTED : KARRAMOTX_NO_ROOM) && sent.len == written &&
           memcmp(buf, image, written) == 0 && untouched(buf - GUARD, GUARD) &&
           untouched(buf + written, room - written);
}

/* Reads an image over a session met before. */
static bool reads(const uint8_t *image, size_t len, uint64_t *reason)
{
    uint8_t *bytes = image_end - len;
    uint8_t *before = (uint8_t *)target - GUARD;
    memcpy(bytes, image, len);
    memset(before, UNTOUCHED, GUARD);
    *target = other;
    *reason = karramotx_restore(target, len > 0 ? bytes : NULL, len);
    met.accepted += *reason == KARRAMOTX_ACCEPTED;
    met.refused += *reason == KARRAMOTX_BAD_IMAGE;
    if (memcmp(bytes, image, len) != 0 || !untouched(before, GUARD))
        return false;
    if (*reason == KARRAMOTX_BAD_IMAGE)
        return memcmp(target, &other, sizeof other) == 0;
    return *reason == KARRAMOTX_ACCEPTED && session_is_sound(target) && writes(target, image, len, len);
}

static bool reads_any(const uint8_t *image, size_t len)
{
    uint64_t reason;
    return reads(image, len, &reason);
}

/* ---- Images that are no session's */

static size_t put_number(uint8_t *at, uint64_t number)
{
    size_t len = 0;
    for (; number > 0x7f; number >>= 7)
        at[len++] = (uint8_t)(number | 0x80);
    at[len++] = (uint8_t)number;
    return len;
}

/* Small, so that ids are met again, or at the edge of a limit. */
static uint64_t some_number(void)
{
    static const uint64_t edges[] = {15, 16, 63, 64, 65535, 65536, UINT32_MAX, UINT32_MAX + 1ull, UINT64_MAX};
    return below(8) == 0 ? edges[below(sizeof edges / sizeof edges[0])] : below(6);
}

/* A table of some entries, whose places mostly rise, with so many numbers behind each. */
static size_t put_table(uint8_t *at, size_t numbers)
{
    uint64_t place = 0, count = below(4);
    size_t len = put_number(at, count);
    for (uint64_t i = 0; i < count; i++) {
        len += put_number(at + len, place);
        place += below(8) == 0 ? some_number() : 1;
        for (size_t k = 0; k < numbers; k++)
            len += put_number(at + len, some_number());
    }
    return len;
}

static size_t made_up_image(uint8_t *image)
{
    size_t len = put_number(image, below(8) == 0 ? some_number() : 1);
    len += put_number(image + len, below(8) == 0 ? some_number() : 0);
    len += put_table(image + len, 2);
    return len + put_table(image + len, 4);
}

/* Each byte changed in some ways, each cut, and each byte appended. */
static bool sweep(const uint8_t *image, size_t len)
{
    uint8_t copy[LONGEST];
    memcpy(copy, image, len);
    for (size_t i = 0; i < len; i++) {
        const uint8_t changes[] = {0, (uint8_t)(image[i] + 1), (uint8_t)(image[i] - 1), image[i] ^ 0x80};
        for (size_t k = 0; k < sizeof changes; k++) {
            copy[i] = changes[k];
            if (!reads_any(copy, len))
                return false;
        }
        copy[i] = image[i];
        if (!reads_any(image, i))
            return false;
    }
    for (unsigned byte = 0; byte <= UINT8_MAX; byte++) {
        uint64_t reason;
        copy[len] = (uint8_t)byte;
        if (!reads(copy, len + 1, &reason) || reason == KARRAMOTX_ACCEPTED)
            return false;
    }
    return true;
}

/* ---- A session's image */

static void make_room(void)
{
    image_end = guarded_end(PAGE);
    buf_end = guarded_end(PAGE);
    target = (struct karramotx_session *)(void *)(guarded_end(PAGE) - sizeof *target);
    other = karramotx_fresh();
}

static bool goes_back(const struct karramotx_session *session, const uint8_t *image, size_t len, bool reached)
{
    uint64_t reason;
    bool good = reads(image, len, &reason);
    return good && (!reached || (reason == KARRAMOTX_ACCEPTED && memcmp(target, session, sizeof *session) == 0));
}

bool images_survive(const struct karramotx_session *session, bool reached)
{
    uint8_t image[LONGEST], made[LONGEST];
    if (target == NULL)
        make_room();
    struct karramotx_session before = *session;
    size_t len = karramotx_image(session, image, KARRAMOTX_MAX_IMAGE).len;
    bool good = writes(session, image, len, len) && writes(session, image, len, len - 1) &&
                writes(session, image, len, below(LONGEST)) && goes_back(session, image, len, reached);
    good = good && (met.images++ % SWEEP != 0 || sweep(image, len));

    good = good && reads_any(made, made_up_image(made));
    size_t made_len = len;
    memcpy(made, image, len);
    for (uint64_t times = 1 + below(3); times > 0; times--)
        made_len = damaged(made, made_len);
    good = good && reads_any(made, made_len) && memcmp(session, &before, sizeof before) == 0;
    if (below(8) == 0)
        other = *session;
    return good;
}

void images_print(void)
{
    printf("survived %" PRIu64 " images, and %" PRIu64 " reads accepted, %" PRIu64 " refused\n", met.images,
           met.accepted, met.refused);
    memset(&met, 0, sizeof met);
}
