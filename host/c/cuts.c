#define _GNU_SOURCE
#include "cuts.h"
#include "damage.h"

#include <inttypes.h>
#include <stdio.h>
#include <stdlib.h>
#include <string.h>
#include <sys/mman.h>
#include <unistd.h>

enum {
    STREAM = 1 << 21,
    MAX_BORDERS = 1 << 17,
    MAX_PIECE = KARRAMOTX_STORE + PAGE,
    SCRATCH = KARRAMOTX_STORE + MAX_PIECE
};

/* The bytes that arrive, the places where a frame was put, and some bytes more for a part of the store. */
static uint8_t stream[STREAM + SCRATCH];
static size_t borders[MAX_BORDERS];
static size_t border_count;

/* The reader, its store, the same store for reading only, and the end of what arrives. */
static struct karramotx_reader reader;
static uint8_t *store;
static const uint8_t *view;
static uint8_t *arrival_end;

/* Steps are taken on the frames that are handed out. */
static struct karramotx_session session;

/* What the reader must hold: `held` bytes of the stream from `first` on. What comes next stands behind them. */
static struct {
    size_t first;
    size_t held;
} shadow;

static struct {
    uint64_t calls, frames, waits, bad, partly, moved, strange;
} met;

/* ---- The stream ---- */

static size_t with_length(uint8_t *frame, uint32_t length)
{
    for (int i = 0; i < 4; i++)
        frame[i] = (uint8_t)(length >> (8 * i));
    return 4 + (size_t)length;
}

/* A frame of any type and length, the longest more often than others. */
static size_t any_frame(uint8_t *frame)
{
    size_t len = with_length(frame, below(2) ? 65532 : (uint32_t)(1 + below(65532)));
    for (size_t i = 4; i < len; i++)
        frame[i] = (uint8_t)below(256);
    return len;
}

static size_t bad_length(uint8_t *frame)
{
    static const uint32_t lengths[] = {0, 65533, 65536, UINT32_MAX};
    with_length(frame, lengths[below(4)]);
    return 4;
}

static size_t put_frame(uint8_t *at)
{
    size_t len = drafted_frame(at, PAGE);
    switch (below(256)) {
    case 0: return any_frame(at);
    case 1: return bad_length(at);
    case 2: return damaged(at, len);
    default: return len;
    }
}

static void fill_stream(void)
{
    size_t at = 0;
    while (at + KARRAMOTX_MAX_FRAME <= STREAM && border_count < MAX_BORDERS) {
        borders[border_count++] = at;
        at += put_frame(stream + at);
    }
}

/* ---- What the rules say ---- */

static size_t shadow_frame(void)
{
    const uint8_t *b = stream + shadow.first;
    return 4 + ((size_t)b[0] | (size_t)b[1] << 8 | (size_t)b[2] << 16 | (size_t)b[3] << 24);
}

/* What stands first: 0 a whole frame, 2 a bad length, 1 neither. */
static uint64_t shadow_reason(void)
{
    if (shadow.held < 4)
        return KARRAMOTX_NOT_ALL_THERE;
    size_t len = shadow_frame();
    if (len == 4 || len > KARRAMOTX_MAX_FRAME)
        return KARRAMOTX_BAD_LENGTH;
    return len <= shadow.held ? KARRAMOTX_ACCEPTED : KARRAMOTX_NOT_ALL_THERE;
}

/* What stands behind a bad length is dropped. */
static void settle(void)
{
    if (shadow_reason() == KARRAMOTX_BAD_LENGTH)
        shadow.held = 4;
}

/* The reader holds those bytes, within its store. */
static bool agrees(void)
{
    return reader.start <= reader.end && reader.end <= KARRAMOTX_STORE &&
           reader.end - reader.start == shadow.held &&
           memcmp(store + reader.start, stream + shadow.first, shadow.held) == 0;
}

/* ---- Calls ---- */

/* Nothing is held, and a frame or a damaged one comes next. */
static void jump(struct karramotx_reader empty)
{
    reader = empty;
    shadow.first = borders[below(border_count)];
    shadow.held = 0;
}

/* Sizes small and large; an arrival may be empty, or longer than the store. */
static size_t piece_size(void)
{
    static const uint64_t sizes[] = {8, 8, 8, 64, 64, 512, 4096, MAX_PIECE + 1};
    return below(sizes[below(8)]);
}

static bool push(size_t size)
{
    const uint8_t *source = stream + shadow.first + shadow.held;
    size_t room = KARRAMOTX_STORE - shadow.held;
    size_t count = shadow_reason() == KARRAMOTX_BAD_LENGTH ? 0 : size < room ? size : room;
    size_t start = reader.start;
    uint8_t *bytes = arrival_end - size;
    memcpy(bytes, source, size);
    struct karramotx_pushed pushed = karramotx_push(reader, size > 0 ? bytes : NULL, size, store);
    reader = pushed.reader;
    met.calls++;
    met.moved += shadow.held > 0 && reader.start < start;
    met.partly += 0 < count && count < size;
    shadow.held += count;
    settle();
    return pushed.count == count && pushed.reason == shadow_reason() && agrees() && memcmp(bytes, source, size) == 0;
}

/* A step on a frame that was handed out is never refused 1, 2 or 3, and uses all of it. */
static bool steps(const uint8_t *frame, size_t len)
{
    struct karramotx_report none = {.kind = KARRAMOTX_REPORT_NONE};
    uint8_t reply[KARRAMOTX_MIN_REPLY];
    struct karramotx_answer answer = karramotx_step(&session, frame, len, none, reply, sizeof reply);
    return (answer.reason == KARRAMOTX_ACCEPTED || answer.reason >= KARRAMOTX_CLOSED) && answer.used == len;
}

/* The frame that stands first lies where the held bytes began; where there is none, all is 0. */
static bool next_frame(void)
{
    uint64_t reason = shadow_reason();
    bool whole = reason == KARRAMOTX_ACCEPTED;
    size_t len = whole ? shadow_frame() : 0;
    const uint8_t *bytes = stream + shadow.first;
    struct karramotx_next_frame next = karramotx_next_frame(reader, view);
    bool same = next.reason == reason && next.len == len && next.start == (whole ? reader.start : 0) &&
                next.kind == (whole ? bytes[4] : 0) && memcmp(view + next.start, bytes, len) == 0;
    reader = next.reader;
    met.calls++;
    met.frames += whole;
    met.waits += reason == KARRAMOTX_NOT_ALL_THERE;
    met.bad += reason == KARRAMOTX_BAD_LENGTH;
    shadow.first += len;
    shadow.held -= len;
    settle();
    return same && agrees() && (!whole || steps(view + next.start, len));
}

static bool drain(void)
{
    while (shadow_reason() == KARRAMOTX_ACCEPTED) {
        if (!next_frame())
            return false;
    }
    return next_frame();
}

/* Two numbers that the library did not answer: a part of the store, or no part, which holds nothing. */
static bool strange(void)
{
    static const size_t edges[] = {
        0, 1, 5, 4096, KARRAMOTX_STORE - 1, KARRAMOTX_STORE, KARRAMOTX_STORE + 1, SIZE_MAX / 2, SIZE_MAX - 4, SIZE_MAX};
    size_t n = sizeof edges / sizeof edges[0];
    struct karramotx_reader made = {.start = edges[below(n)], .end = edges[below(n)]};
    met.strange++;
    jump(made);
    if (made.start <= made.end && made.end <= KARRAMOTX_STORE) {
        shadow.first = STREAM;
        shadow.held = made.end - made.start;
        memcpy(stream + STREAM, store + made.start, shadow.held);
        settle();
    }
    bool well = below(2) ? next_frame() : push(piece_size());
    jump(karramotx_start_over());
    return well;
}

static bool one_call(void)
{
    bool bad = shadow_reason() == KARRAMOTX_BAD_LENGTH;
    uint64_t chosen = below(64);
    if ((bad && below(4) == 0) || chosen == 0 || shadow.first + shadow.held + MAX_PIECE > STREAM)
        jump(karramotx_start_over());
    if (chosen == 1)
        return strange();
    return chosen < 32 ? push(piece_size()) : chosen < 56 ? next_frame() : drain();
}

/* ---- Memory ---- */

/* A view of the store between two pages that may not be touched. */
static uint8_t *guarded_view(int fd, int protection)
{
    uint8_t *start = mmap(NULL, KARRAMOTX_STORE + 2 * PAGE, PROT_NONE, MAP_PRIVATE | MAP_ANONYMOUS, -1, 0);
    if (start == MAP_FAILED ||
        mmap(start + PAGE, KARRAMOTX_STORE, protection, MAP_SHARED | MAP_FIXED, fd, 0) == MAP_FAILED) {
        perror("survive");
        exit(2);
    }
    return start + PAGE;
}

/* The store has two views, so that a write of next_frame, which is handed the second, ends the program. */
static void make_store(void)
{
    int fd = memfd_create("store", 0);
    if (fd < 0 || ftruncate(fd, KARRAMOTX_STORE) != 0) {
        perror("survive");
        exit(2);
    }
    store = guarded_view(fd, PROT_READ | PROT_WRITE);
    view = guarded_view(fd, PROT_READ);
}

bool cuts_survive(uint64_t calls)
{
    make_store();
    arrival_end = guarded_end(KARRAMOTX_STORE + PAGE);
    fill_stream();
    session = karramotx_fresh();
    jump(karramotx_start_over());
    while (met.calls < calls) {
        if (!one_call()) {
            fprintf(stderr, "survive: call %" PRIu64 " of the reader is wrong\n", met.calls);
            return false;
        }
    }
    printf("survived %" PRIu64 " calls of a reader: %" PRIu64 " frames, %" PRIu64 " waits, %" PRIu64
           " bad lengths, %" PRIu64 " arrivals taken in part, %" PRIu64 " moves, %" PRIu64 " strange readers\n",
           met.calls, met.frames, met.waits, met.bad, met.partly, met.moved, met.strange);
    return true;
}
