#include "plain_read.h"

#include "plain_args.h"
#include "plain_wire.h"

/* The number of the field that holds a type's body; there is no type 3. */
static const uint8_t body_field[] = {2, 3, 4, 0, 5, 6};
/* They are below this. */
enum { BODY_FIELDS = 7 };

/* A statement is always read, so each part of it is read where it is met, into what the parts before it held. */

static uint32_t place(const uint8_t *frame, const uint8_t *at)
{
    return (uint32_t)(at - frame);
}

static void set_body(const uint8_t *frame, const uint8_t *at, const uint8_t *end, Message *m)
{
    m->body = (Part){place(frame, at), (uint32_t)(end - at)};
}

static void set_args(const uint8_t *frame, const uint8_t *at, const uint8_t *end, Message *m)
{
    m->args.start = place(frame, at);
    m->args.end = place(frame, end);
}

/* ---- Prepare */

/* What a Prepare's statement holds; `again` has the bodies that occur more than once. */
typedef struct {
    const uint8_t *bodies[BODY_FIELDS];
    uint64_t lens[BODY_FIELDS];
    unsigned seen, again;
    bool has_type;
} Operation;

/* One part of a Prepare's body: what is padded in it does not count. */
static inline __attribute__((always_inline)) bool add_stmt_execute(const uint8_t *at, const uint8_t *end, Message *m,
                                                                   bool *has_text)
{
    bool ignored = false;
    while (at < end) {
        Field f;
        at = read_field(at, end, &f, &ignored);
        if (!at)
            return false;
        if (f.tag == TAG(2, BYTES)) {
            if (!count_argument(&f, &m->args, &ignored))
                return false;
        } else if (f.tag == TAG(1, BYTES)) {
            *has_text = true;
        }
    }
    return true;
}

static inline __attribute__((always_inline)) bool add_body(const uint8_t *at, const uint8_t *end, Message *m,
                                                           bool *has_text)
{
    bool ignored = false;
    return m->operation == STMT_EXECUTE ? add_stmt_execute(at, end, m, has_text) : are_fields(at, end, &ignored);
}

/* The chosen body each time that it occurs, in every part of the statement. All fields on the way to it are good. */
static __attribute__((noinline)) bool add_bodies(const uint8_t *at, const uint8_t *end, uint32_t tag, Message *m,
                                                 bool *has_text)
{
    bool noted = false;
    while (at < end) {
        Field part;
        at = read_field(at, end, &part, &noted);
        if (part.tag != TAG(2, BYTES))
            continue;
        for (const uint8_t *in = part.bytes, *stop = in + part.value; in < stop;) {
            Field f;
            in = read_field(in, stop, &f, &noted);
            if (f.tag == tag && !add_body(f.bytes, f.bytes + f.value, m, has_text))
                return false;
        }
    }
    return true;
}

/* One part of a Prepare's statement. */
static bool add_operation(const uint8_t *at, const uint8_t *end, Message *m, Operation *o)
{
    while (at < end) {
        Field f;
        at = read_field(at, end, &f, &m->padded);
        if (!at)
            return false;
        switch (f.tag) {
        case TAG(1, NUMBER):
            if ((uint32_t)f.value <= STMT_EXECUTE && body_field[(uint32_t)f.value] != 0) {
                o->has_type = true;
                m->operation = (uint8_t)f.value;
            }
            break;
        case TAG(2, BYTES):
        case TAG(3, BYTES):
        case TAG(4, BYTES):
        case TAG(5, BYTES):
        case TAG(6, BYTES): {
            unsigned bit = 1u << (f.tag >> 3);
            o->bodies[f.tag >> 3] = f.bytes;
            o->lens[f.tag >> 3] = f.value;
            o->again |= o->seen & bit;
            o->seen |= bit;
        }
        }
    }
    return true;
}

/* The body that the type chooses. */
static bool read_body(const uint8_t *frame, const uint8_t *from, const uint8_t *to, Message *m, const Operation *o)
{
    unsigned field = body_field[m->operation];
    bool has_text = m->operation != STMT_EXECUTE;
    if (!(o->seen & 1u << field))
        return false;
    if (o->again & 1u << field) {
        m->reason = BODY_TWICE;
        return add_bodies(from, to, TAG(field, BYTES), m, &has_text) && has_text;
    }
    const uint8_t *at = o->bodies[field], *end = at + o->lens[field];
    set_body(frame, at, end, m);
    if (m->operation == STMT_EXECUTE)
        set_args(frame, at, end, m);
    return add_body(at, end, m, &has_text) && has_text;
}

static bool read_prepare(const uint8_t *frame, const uint8_t *from, const uint8_t *end, Message *m)
{
    Operation o;
    bool has_id = false;
    o.seen = o.again = o.has_type = 0;
    for (const uint8_t *at = from; at < end;) {
        Field f;
        at = read_field(at, end, &f, &m->padded);
        if (!at)
            return false;
        if (f.tag == TAG(1, NUMBER)) {
            has_id = true;
            m->stmt = (uint32_t)f.value;
        } else if (f.tag == TAG(2, BYTES)) {
            if (!add_operation(f.bytes, f.bytes + f.value, m, &o))
                return false;
        }
    }
    return has_id && o.has_type && read_body(frame, from, end, m, &o);
}

/* ---- Execute and Open */

/* One part of an Execute. */
static bool add_execute(const uint8_t *at, const uint8_t *end, Message *m, bool *has_id)
{
    while (at < end) {
        Field f;
        at = read_field(at, end, &f, &m->padded);
        if (!at)
            return false;
        switch (f.tag) {
        case TAG(1, NUMBER):
            *has_id = true;
            m->stmt = (uint32_t)f.value;
            break;
        case TAG(2, BYTES):
            if (!count_argument(&f, &m->args, &m->padded))
                return false;
            break;
        case TAG(3, NUMBER):
            m->has_compact = true;
            m->compact = f.value != 0;
        }
    }
    return true;
}

static bool read_execute(const uint8_t *at, const uint8_t *end, Message *m)
{
    bool has_id = false;
    return add_execute(at, end, m, &has_id) && has_id;
}

/* What an Open's statement holds beside the Execute in it, whose fields stand in the message. */
typedef struct {
    bool has_type, has_execute, has_stmt;
} Opening;

/* One part of an Open's statement. Its only type chooses the Execute, so that is read where it is met, too. */
static bool add_opening(const uint8_t *frame, const uint8_t *at, const uint8_t *end, Message *m, Opening *o)
{
    while (at < end) {
        Field f;
        at = read_field(at, end, &f, &m->padded);
        if (!at)
            return false;
        if (f.tag == TAG(1, NUMBER)) {
            o->has_type |= (uint32_t)f.value == 0;
        } else if (f.tag == TAG(2, BYTES)) {
            if (o->has_execute)
                m->reason = BODY_TWICE;
            o->has_execute = true;
            set_body(frame, f.bytes, f.bytes + f.value, m);
            set_args(frame, f.bytes, f.bytes + f.value, m);
            if (!add_execute(f.bytes, f.bytes + f.value, m, &o->has_stmt))
                return false;
        }
    }
    return true;
}

static bool read_open(const uint8_t *frame, const uint8_t *at, const uint8_t *end, Message *m)
{
    Opening o = {0};
    bool has_id = false;
    while (at < end) {
        Field f;
        at = read_field(at, end, &f, &m->padded);
        if (!at)
            return false;
        switch (f.tag) {
        case TAG(1, NUMBER):
            has_id = true;
            m->cursor = (uint32_t)f.value;
            break;
        case TAG(4, BYTES):
            if (!add_opening(frame, f.bytes, f.bytes + f.value, m, &o))
                return false;
            break;
        case TAG(5, NUMBER):
            m->has_rows = true;
            m->rows = f.value;
        }
    }
    /* an Execute's statement id stands in an Execute */
    return has_id && o.has_type && o.has_stmt;
}

/* ---- the others, and all */

/* Deallocate and Close: an id. */
static bool read_id(const uint8_t *at, const uint8_t *end, uint32_t *id, bool *padded)
{
    bool has_id = false;
    while (at < end) {
        Field f;
        at = read_field(at, end, &f, padded);
        if (!at)
            return false;
        if (f.tag == TAG(1, NUMBER)) {
            has_id = true;
            *id = (uint32_t)f.value;
        }
    }
    return has_id;
}

static bool read_fetch(const uint8_t *at, const uint8_t *end, Message *m)
{
    bool has_id = false;
    while (at < end) {
        Field f;
        at = read_field(at, end, &f, &m->padded);
        if (!at)
            return false;
        if (f.tag == TAG(1, NUMBER)) {
            has_id = true;
            m->cursor = (uint32_t)f.value;
        } else if (f.tag == TAG(2, NUMBER)) {
            m->has_rows = true;
            m->rows = f.value;
        }
    }
    return has_id;
}

uint32_t read_head(const uint8_t *frame, size_t len, uint32_t *used)
{
    if (len < HEAD)
        return NOT_ALL_THERE;
    uint32_t length = frame[0] | (uint32_t)frame[1] << 8 | (uint32_t)frame[2] << 16 | (uint32_t)frame[3] << 24;
    if (length == 0 || length > MAX_LENGTH)
        return BAD_LENGTH;
    if (len - HEAD < length)
        return NOT_ALL_THERE;
    *used = HEAD + length;
    return ACCEPTED;
}

uint32_t read_message(const uint8_t *frame, uint32_t used, Message *m)
{
    const uint8_t *at = frame + HEAD + 1, *end = frame + used;
    bool good;
    *m = (Message){.used = used, .kind = frame[HEAD]};
    switch (m->kind) {
    case RESET:
    case SESS_CLOSE:
        good = are_fields(at, end, &m->padded);
        break;
    case PREPARE:
        good = read_prepare(frame, at, end, m);
        break;
    case EXECUTE:
        set_args(frame, at, end, m);
        good = read_execute(at, end, m);
        break;
    case DEALLOCATE:
        good = read_id(at, end, &m->stmt, &m->padded);
        break;
    case OPEN:
        good = read_open(frame, at, end, m);
        break;
    case CLOSE:
        good = read_id(at, end, &m->cursor, &m->padded);
        break;
    case FETCH:
        good = read_fetch(at, end, m);
        break;
    default:
        return UNKNOWN_TYPE;
    }
    if (good)
        return m->reason;
    m->padded = false;
    return BAD_PAYLOAD;
}

void plain_read(const uint8_t *frame, size_t len, Message *m)
{
    uint32_t used = 0, reason = read_head(frame, len, &used);
    m->padded = false;
    if (reason == ACCEPTED)
        reason = read_message(frame, used, m);
    if (reason != ACCEPTED)
        *m = (Message){.reason = reason, .used = used, .padded = m->padded};
}
