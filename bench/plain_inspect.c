#include "plain.h"
#include "plain_refusals.h"
#include "plain_tables.h"

/* Each entry is searched once, for the refusals and for the places. */

_Static_assert(MASKS(MAX_CURSORS) == 1, "endings are told in one mask");

static uint64_t with_number(const Session *s, const uint32_t *numbers, uint32_t number)
{
    uint64_t same = 0;
    for (int i = 0; i < MAX_CURSORS; i++)
        same |= (uint64_t)(numbers[i] == number) << i;
    return same & s->live_cursors[0];
}

/* Of a message with arguments, by its statement. */
static uint32_t bound_reason(const Session *s, const Message *m, int stmt)
{
    if (stmt == NOWHERE)
        return NO_STMT;
    if (m->args.kind != 0)
        return NOT_SCALAR;
    return m->args.count < s->placeholders[stmt] ? FEW_ARGUMENTS : ACCEPTED;
}

static uint32_t open_reason(const Session *s, const Message *m, const Places *at)
{
    uint32_t reason = bound_reason(s, m, at->stmt);
    if (reason != ACCEPTED)
        return reason;
    int carried = cursor_on(s, m->stmt);
    if (carried != NOWHERE && s->cursor_ids[carried] != m->cursor)
        return OTHER_CURSOR;
    return at->cursor == NOWHERE ? CURSORS_FULL : ACCEPTED;
}

static void on_stmt(const Session *s, const Message *m, Places *at, Inspection *told)
{
    at->stmt = find_stmt(s, m->stmt);
    told->ends = with_number(s, s->cursor_stmts, m->stmt);
}

static void fetch(const Session *s, const Message *m, Places *at, Look *look)
{
    at->cursor = find_cursor(s, m->cursor);
    if (at->cursor == NOWHERE) {
        look->reason = NO_CURSOR;
        return;
    }
    uint32_t left = s->rows[at->cursor] - s->sent[at->cursor];
    if (left == 0) {
        look->reason = ALL_SENT;
        return;
    }
    look->work = WORK_FETCH;
    look->first = s->sent[at->cursor];
    look->count = m->has_rows && m->rows < left ? (uint32_t)m->rows : left;
}

static void touch(const Session *s, const Message *m, Places *at, Inspection *told)
{
    Look *look = &told->look;
    switch (m->kind) {
    case PREPARE:
        on_stmt(s, m, at, told);
        if (at->stmt == NOWHERE)
            at->stmt = free_stmt(s);
        look->work = WORK_PREPARE;
        look->reason = at->stmt == NOWHERE ? STMTS_FULL : ACCEPTED;
        break;
    case EXECUTE:
        on_stmt(s, m, at, told);
        look->work = WORK_EXECUTE;
        look->reason = bound_reason(s, m, at->stmt);
        break;
    case DEALLOCATE:
        on_stmt(s, m, at, told);
        look->reason = at->stmt == NOWHERE ? NO_STMT : ACCEPTED;
        break;
    case OPEN:
        at->stmt = find_stmt(s, m->stmt);
        at->cursor = find_cursor(s, m->cursor);
        if (at->cursor == NOWHERE)
            at->cursor = free_cursor(s);
        told->ends = with_number(s, s->cursor_ids, m->cursor);
        look->work = WORK_OPEN;
        look->reason = open_reason(s, m, at);
        break;
    case CLOSE:
        at->cursor = find_cursor(s, m->cursor);
        told->ends = with_number(s, s->cursor_ids, m->cursor);
        look->reason = at->cursor == NOWHERE ? NO_CURSOR : ACCEPTED;
        break;
    case FETCH:
        fetch(s, m, at, look);
        break;
    default:
        told->ends = s->live_cursors[0];
    }
}

void plain_inspect(const Session *session, const uint8_t *frame, size_t len, Inspection *told)
{
    Places at = {.stmt = NOWHERE, .cursor = NOWHERE};
    const Message *m = &told->message;
    plain_read(frame, len, &told->message);
    told->look = (Look){.reason = m->reason, .padded = m->padded};
    told->ends = 0;
    if (m->reason == ACCEPTED)
        touch(session, m, &at, told);
    bool closed = session->closed && m->reason != NOT_ALL_THERE && m->reason != BAD_LENGTH;
    if (closed)
        told->look = (Look){.reason = CLOSED};
    else if (told->look.reason != ACCEPTED)
        told->look = (Look){.reason = told->look.reason, .padded = m->padded};
    told->stmt_place = at.stmt == NOWHERE ? MAX_STMTS : (uint32_t)at.stmt;
    told->cursor_place = at.cursor == NOWHERE ? MAX_CURSORS : (uint32_t)at.cursor;
}
