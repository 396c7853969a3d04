#include "library.h"

#include <stdio.h>
#include <stdlib.h>

#include "line.h"
#include "plain_tables.h"

/* The library's numbers have 64 bits. One that does not fit the plain side's 32 must not look alike. */
static uint32_t narrow(uint64_t v)
{
    if (v > UINT32_MAX) {
        printf("the library answers a number above 2^32 - 1\n");
        exit(1);
    }
    return (uint32_t)v;
}

LibraryReport library_report(const Report *r)
{
    return (LibraryReport){.kind = r->kind,
                           .placeholders = r->placeholders,
                           .columns = r->columns,
                           .rows = r->rows,
                           .code = r->code};
}

/* ---- sessions */

void library_fresh(LibrarySession *session)
{
    *session = karramotx_fresh();
}

/* The library writes a flag as 0 or 1. */
bool library_holds(const LibrarySession *session, const Session *plain)
{
    if (session->closed != plain->closed)
        return false;
    for (int i = 0; i < MAX_STMTS; i++) {
        const struct karramotx_stmt *x = &session->stmts[i];
        uint32_t live = is_live(plain->live_stmts, MAX_STMTS, i);
        if (x->live != live)
            return false;
        if (live && (session->stmt_ids[i] != plain->stmt_ids[i] || x->placeholders != plain->placeholders[i]))
            return false;
    }
    for (int i = 0; i < MAX_CURSORS; i++) {
        const struct karramotx_cursor *x = &session->cursors[i];
        uint32_t live = is_live(plain->live_cursors, MAX_CURSORS, i);
        if (x->live != live)
            return false;
        if (live && (x->id != plain->cursor_ids[i] || x->stmt != plain->cursor_stmts[i] || x->rows != plain->rows[i] ||
                     x->sent != plain->sent[i]))
            return false;
    }
    return true;
}

void library_of(LibrarySession *session, const Session *plain)
{
    *session = (LibrarySession){.closed = plain->closed};
    for (int i = 0; i < MAX_STMTS; i++)
        if (is_live(plain->live_stmts, MAX_STMTS, i)) {
            session->stmt_ids[i] = plain->stmt_ids[i];
            session->stmts[i] = (struct karramotx_stmt){.placeholders = plain->placeholders[i], .live = 1};
        }
    for (int i = 0; i < MAX_CURSORS; i++)
        if (is_live(plain->live_cursors, MAX_CURSORS, i))
            session->cursors[i] = (struct karramotx_cursor){.id = plain->cursor_ids[i],
                                                            .stmt = plain->cursor_stmts[i],
                                                            .rows = plain->rows[i],
                                                            .sent = plain->sent[i],
                                                            .live = 1};
}

/* ---- answers */

static Message message_of(struct karramotx_message k)
{
    Message x = {.reason = narrow(k.reason), .used = narrow(k.used), .kind = narrow(k.kind)}, *m = &x;
    m->stmt = narrow(k.stmt);
    m->cursor = narrow(k.cursor);
    m->has_rows = k.rows.present;
    m->rows = k.rows.value;
    m->has_compact = k.compact.present;
    m->compact = narrow(k.compact.value);
    m->operation = (uint8_t)narrow(k.operation);
    m->body = (Part){narrow(k.body.start), narrow(k.body.len)};
    m->args = (Arguments){narrow(k.args.count), narrow(k.args.kind), narrow(k.args.index), narrow(k.args.start),
                          narrow(k.args.end)};
    m->padded = k.padded;
    return x;
}

void library_read(const uint8_t *frame, size_t len, Message *m)
{
    *m = message_of(karramotx_read(frame, len));
}

void library_next_argument(const uint8_t *frame, size_t end, size_t at, Value *v)
{
    struct karramotx_value k = karramotx_next_argument(frame, end, at);
    *v = (Value){narrow(k.reason), narrow(k.kind), k.value, narrow(k.start), narrow(k.len), narrow(k.next)};
}

bool library_refuses(const uint8_t *frame, size_t len, uint32_t reason)
{
    return karramotx_body(frame, len).len == 0 && karramotx_argument(frame, len, 0).reason == reason &&
           karramotx_argument(frame, len, SIZE_MAX).reason == reason;
}

static Look look_of(struct karramotx_look k)
{
    return (Look){narrow(k.reason), (uint16_t)narrow(k.work), k.padded, narrow(k.first), narrow(k.count)};
}

Look library_look(const LibrarySession *session, const uint8_t *frame, size_t len)
{
    return look_of(karramotx_look(session, frame, len));
}

void library_inspect(const LibrarySession *session, const uint8_t *frame, size_t len, Inspection *told)
{
    struct karramotx_inspection k = karramotx_inspect(session, frame, len);
    *told = (Inspection){look_of(k.look), message_of(k.message), narrow(k.stmt_place), narrow(k.cursor_place), k.ends};
}

Answer library_step(LibrarySession *session, const uint8_t *frame, size_t len, const LibraryReport *report,
                    uint8_t *reply, size_t reply_len)
{
    struct karramotx_answer k = karramotx_step(session, frame, len, *report, reply, reply_len);
    return (Answer){narrow(k.reason), narrow(k.used),  narrow(k.reply), k.columns,
                    k.padded,         narrow(k.first), narrow(k.count)};
}

/* A refusal that is not the one expected has no length like it. */
size_t library_image(const LibrarySession *session, uint8_t *buf, size_t buf_len)
{
    struct karramotx_sent k = karramotx_image(session, buf, buf_len);
    return k.reason == KARRAMOTX_ACCEPTED || (k.reason == KARRAMOTX_NO_ROOM && k.len == 0) ? k.len : SIZE_MAX;
}

uint32_t library_restore(LibrarySession *session, const uint8_t *image, size_t len)
{
    return narrow(karramotx_restore(session, image, len));
}

void library_start_over(LibraryReader *r)
{
    r->reader = karramotx_start_over();
}

PlainPushed library_push(LibraryReader *r, const uint8_t *bytes, size_t len)
{
    struct karramotx_pushed k = karramotx_push(r->reader, bytes, len, r->store);
    r->reader = k.reader;
    return (PlainPushed){narrow(k.count), narrow(k.reason)};
}

PlainFrame library_next_frame(LibraryReader *r)
{
    struct karramotx_next_frame k = karramotx_next_frame(r->reader, r->store);
    r->reader = k.reader;
    return (PlainFrame){narrow(k.start), narrow(k.len), narrow(k.kind), narrow(k.reason)};
}

uint32_t library_held(const LibraryReader *r)
{
    return narrow(r->reader.end - r->reader.start);
}

/* ---- what is timed */

uint64_t library_reads(Line *line)
{
    struct karramotx_message m = karramotx_read(line->event.frame.bytes, line->event.frame.len);
    return m.reason + m.stmt;
}

/* The loop of karramotx.h. */
uint64_t library_args(Line *line)
{
    const uint8_t *frame = line->event.frame.bytes;
    struct karramotx_message m = karramotx_read(frame, line->event.frame.len);
    struct karramotx_value v;
    uint64_t sum = 0;
    for (size_t at = m.args.start; at < m.args.end; at = v.next) {
        v = karramotx_next_argument(frame, m.args.end, at);
        if (v.reason == KARRAMOTX_FEW_ARGUMENTS)
            break;
        sum += v.value;
    }
    return sum;
}

uint64_t library_looks(Line *line)
{
    struct karramotx_look l = karramotx_look(&line->library_session, line->event.frame.bytes, line->event.frame.len);
    return l.reason + l.count;
}

uint64_t library_inspects(Line *line)
{
    struct karramotx_inspection told =
        karramotx_inspect(&line->library_session, line->event.frame.bytes, line->event.frame.len);
    return told.look.reason + told.message.stmt + told.stmt_place + told.cursor_place + told.ends;
}

static inline uint64_t step(LibrarySession *session, const Event *e)
{
    uint8_t reply[MIN_REPLY];
    struct karramotx_answer a =
        karramotx_step(session, e->frame.bytes, e->frame.len, e->library_report, reply, sizeof reply);
    return a.reason + a.count;
}

uint64_t library_steps(Line *line)
{
    return step(&line->library_session, &line->event);
}

uint64_t library_writes_image(Line *line)
{
    uint8_t image[KARRAMOTX_MAX_IMAGE];
    struct karramotx_sent sent = karramotx_image(&line->library_session, image, sizeof image);
    return sent.reason + sent.len;
}

uint64_t library_reads_image(Line *line)
{
    return karramotx_restore(&line->library_session, line->event.frame.bytes, line->event.frame.len);
}

uint64_t library_plays(const Event *const *events, size_t count)
{
    LibrarySession session = karramotx_fresh();
    uint64_t sum = 0;
    for (size_t i = 0; i < count; i++)
        sum += step(&session, events[i]);
    return sum;
}

/* The loop of karramotx.h. */
uint64_t library_arrival(LibraryReader *r, const uint8_t *bytes, size_t len)
{
    uint8_t *store = r->store;
    struct karramotx_reader reader = r->reader;
    uint64_t sum = 0;
    for (size_t at = 0; at < len;) {
        struct karramotx_pushed pushed = karramotx_push(reader, bytes + at, len - at, store);
        struct karramotx_next_frame next;
        reader = pushed.reader;
        at += pushed.count;
        while ((next = karramotx_next_frame(reader, store)).reason == KARRAMOTX_ACCEPTED) {
            reader = next.reader;
            sum += next.kind + next.len + store[next.start];
        }
        reader = next.reader;
        if (next.reason == KARRAMOTX_BAD_LENGTH)
            return UINT64_MAX;
    }
    r->reader = reader;
    return sum;
}
