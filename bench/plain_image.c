#include "plain_image.h"

#include <string.h>

#include "plain_tables.h"

enum { IMAGE_FORM = 1 };

/* The bits that say of a byte that the number goes on, in four bytes. */
static const uint32_t GOES_ON = 0x80808080;

/* ---- writing */

/* The low 28 bits as four bytes of seven: first the upper 14 go two up, then of either half the upper seven one up. */
static inline uint32_t spread(uint32_t v)
{
    v &= (1u << 28) - 1;
    v += (v >> 14) * ((1u << 16) - (1u << 14));
    return v + (v & 0x3f803f80);
}

/* Most numbers have one byte, and few of the others fewer than five. Nothing behind them is touched. */
static inline __attribute__((always_inline)) uint8_t *put_number(uint8_t *at, uint32_t v)
{
    uint32_t low;
    if (v < 1u << 7) {
        at[0] = (uint8_t)v;
        return at + 1;
    }
    if (v >= 1u << 28) {
        low = spread(v) | GOES_ON;
        memcpy(at, &low, sizeof low);
        at[4] = (uint8_t)(v >> 28);
        return at + 5;
    }
    at[0] = (uint8_t)(v | 0x80);
    if (v < 1u << 14) {
        at[1] = (uint8_t)(v >> 7);
        return at + 2;
    }
    at[1] = (uint8_t)(v >> 7 | 0x80);
    if (v < 1u << 21) {
        at[2] = (uint8_t)(v >> 14);
        return at + 3;
    }
    at[2] = (uint8_t)(v >> 14 | 0x80);
    at[3] = (uint8_t)(v >> 21);
    return at + 4;
}

/* A place, or how many there are: one byte where the limit says so. */
static inline uint8_t *put_short(uint8_t *at, uint32_t v, int most)
{
    if (SHORT_NUMBER(most) > 1)
        return put_number(at, v);
    at[0] = (uint8_t)v;
    return at + 1;
}

/* Ahead of the entries. Where one byte is enough it is left free: counting as they are written costs less than bits. */
static inline uint8_t *put_count(uint8_t *at, const uint64_t *live, int places)
{
    int count = 0;
    if (SHORT_NUMBER(places) == 1)
        return at + 1;
    for (int k = 0; k < MASKS(places); k++)
        count += __builtin_popcountll(live[k]);
    return put_number(at, (uint32_t)count);
}

static inline void set_count(uint8_t *at, uint8_t count, int places)
{
    if (SHORT_NUMBER(places) == 1)
        at[0] = count;
}

static inline uint8_t *put_stmts(uint8_t *count_at, const Session *s)
{
    uint8_t *at = put_count(count_at, s->live_stmts, MAX_STMTS), count = 0;
    for (int k = 0; k < MASKS(MAX_STMTS); k++)
        for (uint64_t rest = s->live_stmts[k]; rest; rest &= rest - 1, count++) {
            int i = MASK * k + __builtin_ctzll(rest);
            at = put_short(at, (uint32_t)i, MAX_STMTS - 1);
            at = put_number(at, s->stmt_ids[i]);
            at = put_number(at, s->placeholders[i]);
        }
    set_count(count_at, count, MAX_STMTS);
    return at;
}

static inline uint8_t *put_cursors(uint8_t *count_at, const Session *s)
{
    uint8_t *at = put_count(count_at, s->live_cursors, MAX_CURSORS), count = 0;
    for (int k = 0; k < MASKS(MAX_CURSORS); k++)
        for (uint64_t rest = s->live_cursors[k]; rest; rest &= rest - 1, count++) {
            int i = MASK * k + __builtin_ctzll(rest);
            at = put_short(at, (uint32_t)i, MAX_CURSORS - 1);
            at = put_number(at, s->cursor_ids[i]);
            at = put_number(at, s->cursor_stmts[i]);
            at = put_number(at, s->rows[i]);
            at = put_number(at, s->sent[i]);
        }
    set_count(count_at, count, MAX_CURSORS);
    return at;
}

/* A buffer that any image fits is written at once; another gets a copy of what fits. */
size_t plain_image(const Session *session, uint8_t *buf, size_t buf_len)
{
    uint8_t own[MAX_IMAGE], *image = buf_len >= MAX_IMAGE ? buf : own;
    image[0] = IMAGE_FORM;
    image[1] = session->closed;
    size_t len = (size_t)(put_cursors(put_stmts(image + 2, session), session) - image);
    if (image == buf)
        return len;
    if (len > buf_len)
        return 0;
    memcpy(buf, image, len);
    return len;
}

/* ---- reading */

/* Bytes of five numbers, whatever they are: so many are read without asking for the end. The last ones of an image are
 * read from a copy with zeros behind it, which end every number. */
enum { AHEAD = 5 * LONG_NUMBER };

typedef struct {
    const uint8_t *safe; /* up to here there are AHEAD bytes; in the copy, the end */
    const uint8_t *end;
    uint8_t tail[2 * AHEAD]; /* zeros before it is used */
} Input;

/* On from here in the copy; NULL where an entry there ended behind the image. */
static __attribute__((noinline)) const uint8_t *read_tail(Input *in, const uint8_t *at)
{
    if (in->safe == in->end)
        return NULL;
    size_t left = (size_t)(in->end - at);
    memcpy(in->tail, at, left);
    in->safe = in->end = in->tail + left;
    return in->tail;
}

/* Here five numbers can be read, though they may end behind the image. */
static inline const uint8_t *ready(Input *in, const uint8_t *at)
{
    return at <= in->safe ? at : read_tail(in, at);
}

/* The inverse of spread, whatever bits 7 of the bytes are. */
static inline uint32_t join(uint32_t v)
{
    v &= 0x7f7f7f7f;
    v -= (v & 0x7f007f00) >> 1;
    return v - (v >> 16) * ((1u << 16) - (1u << 14));
}

/* A number below 2^32 in its shortest form; else NULL. */
static inline __attribute__((always_inline)) const uint8_t *read_number(const uint8_t *at, uint32_t *v)
{
    uint32_t four, b = at[0];
    if (b < 0x80) {
        *v = b;
        return at + 1;
    }
    memcpy(&four, at, sizeof four);
    if (!(~four & GOES_ON)) {
        *v = join(four) | (uint32_t)at[4] << 28;
        /* 0 is padding; above four bits it is too great or goes on */
        return at[4] - 1u < 0xf ? at + 5 : NULL;
    }
    *v = b - 0x80 + ((uint32_t)at[1] << 7);
    if (at[1] < 0x80)
        return at[1] != 0 ? at + 2 : NULL;
    *v += ((uint32_t)at[2] << 14) - (0x80u << 7);
    if (at[2] < 0x80)
        return at[2] != 0 ? at + 3 : NULL;
    *v = join(four);
    return at[3] != 0 ? at + 4 : NULL;
}

/* Places by the hash of the ids there, so that no id is searched for in a table: 1 and the place, 0 in a free slot. At
 * most half of the slots are taken. */
typedef uint16_t Slot;
enum { STMT_SLOTS = 2 * MAX_STMTS, CURSOR_SLOTS = 2 * MAX_CURSORS };

/* The slot of an id, or the free one that it would get. `count` is a power of two. */
static inline Slot *slot_of(Slot *slots, unsigned count, const uint32_t *ids, uint32_t id)
{
    /* 2^32 over the golden ratio scatters ids that follow each other */
    unsigned at = id * 0x9e3779b1u >> (32 - __builtin_ctz(count));
    while (slots[at] != 0 && ids[slots[at] - 1] != id)
        at = (at + 1) % count;
    return &slots[at];
}

/* An entry goes to its place as soon as it is read; what stood there is kept until all is read. */
typedef struct {
    Session *session, *kept;
    uint64_t stmts[MASKS(MAX_STMTS)], cursors[MASKS(MAX_CURSORS)]; /* the new entries */
    uint64_t carrying[MASKS(MAX_STMTS)];                           /* the statements with a cursor */
    Slot stmt_slots[STMT_SLOTS];
} Restored;

static inline void put_stmt(Session *s, int i, uint32_t id, uint32_t placeholders)
{
    s->stmt_ids[i] = id;
    s->placeholders[i] = placeholders;
}

static inline void put_cursor(Session *s, int i, uint32_t id, uint32_t stmt, uint32_t rows, uint32_t sent)
{
    s->cursor_ids[i] = id;
    s->cursor_stmts[i] = stmt;
    s->rows[i] = rows;
    s->sent[i] = sent;
}

static inline void copy_stmt(Session *to, const Session *from, int i)
{
    put_stmt(to, i, from->stmt_ids[i], from->placeholders[i]);
}

static inline void copy_cursor(Session *to, const Session *from, int i)
{
    put_cursor(to, i, from->cursor_ids[i], from->cursor_stmts[i], from->rows[i], from->sent[i]);
}

static void undo(const Restored *r)
{
    for (int i = 0; i < MAX_STMTS; i++)
        if (is_live(r->stmts, MAX_STMTS, i))
            copy_stmt(r->session, r->kept, i);
    for (int i = 0; i < MAX_CURSORS; i++)
        if (is_live(r->cursors, MAX_CURSORS, i))
            copy_cursor(r->session, r->kept, i);
}

static const uint8_t *read_stmts(Input *in, const uint8_t *at, Restored *r)
{
    Session *s = r->session;
    uint32_t count, next = 0;
    at = read_number(at, &count);
    for (; at && count > 0; count--) {
        uint32_t place, id, holes;
        if (!(at = ready(in, at)) || !(at = read_number(at, &place)) || !(at = read_number(at, &id)) ||
            !(at = read_number(at, &holes)))
            return NULL;
        Slot *slot = slot_of(r->stmt_slots, STMT_SLOTS, s->stmt_ids, id);
        if (place < next || place >= MAX_STMTS || holes > MAX_PLACEHOLDERS || *slot != 0)
            return NULL;
        next = place + 1;
        *slot = (Slot)next;
        copy_stmt(r->kept, s, (int)place);
        put_stmt(s, (int)place, id, holes);
        take_place(r->stmts, MAX_STMTS, (int)place);
    }
    return at;
}

/* Marks a statement as one that carries a cursor; false where there is none or it carries one already. */
static inline bool carry(Restored *r, uint32_t stmt)
{
    int place = *slot_of(r->stmt_slots, STMT_SLOTS, r->session->stmt_ids, stmt) - 1;
    if (place < 0 || is_live(r->carrying, MAX_STMTS, place))
        return false;
    take_place(r->carrying, MAX_STMTS, place);
    return true;
}

static const uint8_t *read_cursors(Input *in, const uint8_t *at, Restored *r)
{
    Session *s = r->session;
    Slot slots[CURSOR_SLOTS] = {0};
    uint32_t count, next = 0;
    if (!(at = ready(in, at)))
        return NULL;
    at = read_number(at, &count);
    for (; at && count > 0; count--) {
        uint32_t place, id, stmt, rows, sent;
        if (!(at = ready(in, at)) || !(at = read_number(at, &place)) || !(at = read_number(at, &id)) ||
            !(at = read_number(at, &stmt)) || !(at = read_number(at, &rows)) || !(at = read_number(at, &sent)))
            return NULL;
        Slot *slot = slot_of(slots, CURSOR_SLOTS, s->cursor_ids, id);
        if (place < next || place >= MAX_CURSORS || sent > rows || *slot != 0 || !carry(r, stmt))
            return NULL;
        next = place + 1;
        *slot = (Slot)next;
        copy_cursor(r->kept, s, (int)place);
        put_cursor(s, (int)place, id, stmt, rows, sent);
        take_place(r->cursors, MAX_CURSORS, (int)place);
    }
    return at;
}

static bool any(const uint64_t *live, int places)
{
    uint64_t all = 0;
    for (int k = 0; k < MASKS(places); k++)
        all |= live[k];
    return all != 0;
}

/* The two tables and no byte more; none is there in a closed session. */
static bool read_tables(Input *in, const uint8_t *at, Restored *r, bool closed)
{
    at = read_stmts(in, at, r);
    if (at)
        at = read_cursors(in, at, r);
    return at && at == in->end && !(closed && (any(r->stmts, MAX_STMTS) || any(r->cursors, MAX_CURSORS)));
}

uint32_t plain_restore(Session *session, const uint8_t *image, size_t len)
{
    if (len < 2 || image[0] != IMAGE_FORM || image[1] > 1)
        return BAD_IMAGE;
    Session kept;
    Restored r = {.session = session, .kept = &kept};
    Input in = {.safe = len < AHEAD ? image : image + len - AHEAD, .end = image + len};
    bool closed = image[1];
    if (!read_tables(&in, ready(&in, image + 2), &r, closed)) {
        undo(&r);
        return BAD_IMAGE;
    }
    session->closed = closed;
    memcpy(session->live_stmts, r.stmts, sizeof r.stmts);
    memcpy(session->live_cursors, r.cursors, sizeof r.cursors);
    return ACCEPTED;
}
