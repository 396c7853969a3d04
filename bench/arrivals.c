#include "arrivals.h"

#include <string.h>

void stream_add(Stream *stream, const uint8_t *frame, size_t len)
{
    memcpy(stream->bytes + stream->len, frame, len);
    stream->len += len;
    stream->frames++;
}

static void start_over(Stream *stream)
{
    stream->at = 0;
    library_start_over(&stream->library);
    plain_start_over(&stream->plain);
}

void stream_finish(Stream *stream)
{
    /* the last arrival of a round goes on into the next one */
    for (size_t i = 0; i < ARRIVAL; i++)
        stream->bytes[stream->len + i] = stream->bytes[i];
    stream->rounds = 1;
    while (stream->rounds * stream->len % ARRIVAL != 0)
        stream->rounds++;
    stream->frames *= stream->rounds;
    start_over(stream);
}

/* ---- runs */

static size_t arrivals(const Stream *stream)
{
    return stream->rounds * stream->len / ARRIVAL;
}

static const uint8_t *receive(Stream *stream)
{
    const uint8_t *bytes = stream->bytes + stream->at;
    stream->at += ARRIVAL;
    if (stream->at >= stream->len)
        stream->at -= stream->len;
    return bytes;
}

uint64_t library_run(Stream *stream)
{
    uint64_t sum = 0;
    for (size_t left = arrivals(stream); left > 0; left--) {
        uint64_t added = library_arrival(&stream->library, receive(stream), ARRIVAL);
        if (added == UINT64_MAX)
            return added;
        sum += added;
    }
    return sum;
}

static uint64_t plain_arrival(PlainReader *reader, const uint8_t *bytes, size_t len)
{
    uint64_t sum = 0;
    for (size_t at = 0; at < len;) {
        PlainFrame next;
        at += plain_push(reader, bytes + at, len - at).count;
        while ((next = plain_next_frame(reader)).reason == PLAIN_FRAME)
            sum += next.kind + next.len + reader->bytes[next.start];
        if (next.reason == PLAIN_BAD)
            return UINT64_MAX;
    }
    return sum;
}

uint64_t plain_run(Stream *stream)
{
    uint64_t sum = 0;
    for (size_t left = arrivals(stream); left > 0; left--) {
        uint64_t added = plain_arrival(&stream->plain, receive(stream), ARRIVAL);
        if (added == UINT64_MAX)
            return added;
        sum += added;
    }
    return sum;
}

/* ---- agreement */

typedef struct {
    uint64_t reason;   /* the last answer */
    size_t frames;     /* handed out by both so far */
} Told;

/* Pushes to both sides; the bytes taken, or `len` + 1 where they differ. */
static size_t push_both(Stream *stream, const uint8_t *bytes, size_t len)
{
    PlainPushed a = library_push(&stream->library, bytes, len), b = plain_push(&stream->plain, bytes, len);
    return a.count == b.count && a.reason == b.reason ? a.count : len + 1;
}

/* Hands out of both sides until there is no frame; false where they differ. */
static bool drain_both(Stream *stream, Told *told)
{
    for (;;) {
        PlainFrame a = library_next_frame(&stream->library), b = plain_next_frame(&stream->plain);
        told->reason = a.reason;
        if (a.reason != b.reason || a.kind != b.kind || a.len != b.len ||
            memcmp(stream->library.store + a.start, stream->plain.bytes + b.start, a.len) ||
            library_held(&stream->library) != stream->plain.end - stream->plain.start)
            return false;
        if (a.reason != PLAIN_FRAME)
            return true;
        told->frames++;
    }
}

/* Bytes in arrivals of `cut`, up to a bad length. */
static bool feed_both(Stream *stream, const uint8_t *bytes, size_t len, size_t cut, Told *told)
{
    for (size_t at = 0; at < len && told->reason != PLAIN_BAD;) {
        size_t offered = len - at < cut ? len - at : cut, count = push_both(stream, bytes + at, offered);
        if (count > offered || !drain_both(stream, told))
            return false;
        at += count;
    }
    return true;
}

/* A round, a bad length and some bytes more. Both must stay there until they start over. */
static bool bad_agrees(Stream *stream, uint32_t length, size_t cut)
{
    static uint8_t bytes[sizeof stream->bytes];
    size_t behind = 7, len = stream->len + sizeof length + behind;
    Told told = {0};
    memcpy(bytes, stream->bytes, stream->len);
    memcpy(bytes + stream->len, &length, sizeof length);
    start_over(stream);
    if (!feed_both(stream, bytes, len, cut, &told) || told.reason != PLAIN_BAD)
        return false;
    return push_both(stream, bytes, len) == 0 && drain_both(stream, &told) && told.reason == PLAIN_BAD;
}

/* Arrivals of which no frame is handed out until the store is full, behind one of which all are. */
static bool full_agrees(Stream *stream)
{
    Told told = {0};
    const uint8_t *bytes;
    size_t count;
    start_over(stream);
    if (!feed_both(stream, receive(stream), ARRIVAL, ARRIVAL, &told))
        return false;
    do {
        bytes = receive(stream);
        count = push_both(stream, bytes, ARRIVAL);
    } while (count == ARRIVAL);
    return count < ARRIVAL && feed_both(stream, bytes + count, ARRIVAL - count, ARRIVAL, &told);
}

bool stream_agrees(Stream *stream)
{
    static const uint32_t bad[] = {0, MAX_LENGTH + 1, UINT32_MAX};
    static const size_t cuts[] = {1, 7, ARRIVAL, sizeof stream->bytes};
    Told told = {0};
    bool same = full_agrees(stream);
    for (size_t i = 0; i < sizeof bad / sizeof *bad; i++)
        for (size_t k = 0; k < sizeof cuts / sizeof *cuts; k++)
            same = same && bad_agrees(stream, bad[i], cuts[k]);
    start_over(stream);
    for (size_t left = arrivals(stream); same && left > 0; left--)
        same = feed_both(stream, receive(stream), ARRIVAL, ARRIVAL, &told);
    start_over(stream);
    uint64_t sum = library_run(stream);
    same = same && told.frames == stream->frames && sum != UINT64_MAX && sum == plain_run(stream);
    start_over(stream);
    return same;
}
