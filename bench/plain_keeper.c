#include <string.h>

#include "plain.h"
#include "plain_refusals.h"
#include "plain_reply.h"
#include "plain_tables.h"

void plain_fresh(Session *session)
{
    memset(session, 0, sizeof *session);
}

/* ---- look */

/* The lesser is at most `rows`, so it has 32 bits. */
static uint32_t least(uint64_t wanted, uint32_t rows)
{
    return wanted < rows ? (uint32_t)wanted : rows;
}

static uint32_t fetch_count(const Session *s, int cursor, const Message *m)
{
    uint32_t left = s->rows[cursor] - s->sent[cursor];
    return m->has_rows ? least(m->rows, left) : left;
}

static uint16_t work_of(uint32_t kind)
{
    switch (kind) {
    case PREPARE:
        return WORK_PREPARE;
    case EXECUTE:
        return WORK_EXECUTE;
    case OPEN:
        return WORK_OPEN;
    case FETCH:
        return WORK_FETCH;
    default:
        return WORK_NONE;
    }
}

Look plain_look(const Session *session, const uint8_t *frame, size_t len)
{
    Message m;
    Places at;
    uint32_t used;
    Look look = {.reason = look_reason(session, frame, len, &used, &m, &at)};
    look.padded = m.padded;
    if (look.reason != ACCEPTED)
        return look;
    look.work = work_of(m.kind);
    if (m.kind == FETCH) {
        look.first = session->sent[at.cursor];
        look.count = fetch_count(session, at.cursor, &m);
    }
    return look;
}

/* ---- steps that are accepted */

static void end_cursor(Session *s, int cursor)
{
    free_place(s->live_cursors, MAX_CURSORS, cursor);
}

static void end_cursor_on(Session *s, uint32_t stmt)
{
    int cursor = cursor_on(s, stmt);
    if (cursor != NOWHERE)
        end_cursor(s, cursor);
}

static void end_all(Session *s)
{
    memset(s->live_stmts, 0, sizeof s->live_stmts);
    memset(s->live_cursors, 0, sizeof s->live_cursors);
}

static void prepare(Session *s, const Message *m, const Places *at, const Report *r)
{
    if (at->replaces)
        end_cursor_on(s, m->stmt);
    s->stmt_ids[at->stmt] = m->stmt;
    s->placeholders[at->stmt] = (uint32_t)r->placeholders;
    take_place(s->live_stmts, MAX_STMTS, at->stmt);
}

static void execute(Session *s, const Message *m, const Report *r, uint8_t *reply, Answer *a)
{
    end_cursor_on(s, m->stmt);
    a->columns = r->columns != 0;
    a->count = (uint32_t)r->rows;
    a->reply = a->columns ? put_rows_end(reply, true) : put_frame(reply, EXECUTE_OK);
}

static void deallocate(Session *s, const Message *m, const Places *at)
{
    end_cursor_on(s, m->stmt);
    free_place(s->live_stmts, MAX_STMTS, at->stmt);
}

static void open_cursor(Session *s, const Message *m, const Places *at, const Report *r, uint8_t *reply, Answer *a)
{
    uint32_t rows = (uint32_t)r->rows;
    a->columns = r->columns != 0;
    a->count = least(m->rows, rows);
    s->cursor_ids[at->cursor] = m->cursor;
    s->cursor_stmts[at->cursor] = m->stmt;
    s->rows[at->cursor] = rows;
    s->sent[at->cursor] = a->count;
    take_place(s->live_cursors, MAX_CURSORS, at->cursor);
    a->reply = put_rows_end(reply, a->count == rows);
}

static void fetch(Session *s, const Message *m, const Places *at, uint8_t *reply, Answer *a)
{
    a->first = s->sent[at->cursor];
    a->count = fetch_count(s, at->cursor, m);
    s->sent[at->cursor] += a->count;
    a->reply = put_rows_end(reply, s->sent[at->cursor] == s->rows[at->cursor]);
}

static void accept(Session *s, const Message *m, const Places *at, const Report *r, uint8_t *reply, Answer *a)
{
    switch (m->kind) {
    case EXECUTE:
        execute(s, m, r, reply, a);
        return;
    case OPEN:
        open_cursor(s, m, at, r, reply, a);
        return;
    case FETCH:
        fetch(s, m, at, reply, a);
        return;
    case PREPARE:
        prepare(s, m, at, r);
        break;
    case DEALLOCATE:
        deallocate(s, m, at);
        break;
    case CLOSE:
        end_cursor(s, at->cursor);
        break;
    default:
        end_all(s);
        s->closed = m->kind == SESS_CLOSE;
    }
    a->reply = put_frame(reply, OK);
}

void plain_step(Session *session, const uint8_t *frame, size_t len, const Report *report, uint8_t *reply,
                size_t reply_len, Answer *a)
{
    Message m;
    Places at;
    *a = (Answer){0};
    if (reply_len < MIN_REPLY) {
        a->reason = NO_ROOM;
        return;
    }
    a->reason = look_reason(session, frame, len, &a->used, &m, &at);
    a->padded = m.padded;
    if (a->reason == ACCEPTED)
        a->reason = report_reason(m.kind, report);
    if (a->reason == ACCEPTED)
        accept(session, &m, &at, report, reply, a);
    else if (a->reason > NO_ROOM)
        a->reply = put_error(reply, a->reason, &m, report);
}
