#include "plain_refusals.h"

#include "plain_read.h"
#include "plain_tables.h"

static uint32_t prepare_reason(const Session *s, const Message *m, Places *at)
{
    at->stmt = find_stmt(s, m->stmt);
    at->replaces = at->stmt != NOWHERE;
    if (!at->replaces)
        at->stmt = free_stmt(s);
    return at->stmt == NOWHERE ? STMTS_FULL : ACCEPTED;
}

static uint32_t execute_reason(const Session *s, const Message *m)
{
    int stmt = find_stmt(s, m->stmt);
    if (stmt == NOWHERE)
        return NO_STMT;
    if (m->args.kind != 0)
        return NOT_SCALAR;
    return m->args.count < s->placeholders[stmt] ? FEW_ARGUMENTS : ACCEPTED;
}

static uint32_t open_reason(const Session *s, const Message *m, Places *at)
{
    uint32_t reason = execute_reason(s, m);
    if (reason != ACCEPTED)
        return reason;
    int carried = cursor_on(s, m->stmt);
    if (carried != NOWHERE) {
        at->cursor = carried;
        return s->cursor_ids[carried] == m->cursor ? ACCEPTED : OTHER_CURSOR;
    }
    at->cursor = find_cursor(s, m->cursor);
    if (at->cursor == NOWHERE)
        at->cursor = free_cursor(s);
    return at->cursor == NOWHERE ? CURSORS_FULL : ACCEPTED;
}

static uint32_t table_reason(const Session *s, const Message *m, Places *at)
{
    switch (m->kind) {
    case PREPARE:
        return prepare_reason(s, m, at);
    case EXECUTE:
        return execute_reason(s, m);
    case DEALLOCATE:
        at->stmt = find_stmt(s, m->stmt);
        return at->stmt == NOWHERE ? NO_STMT : ACCEPTED;
    case OPEN:
        return open_reason(s, m, at);
    case CLOSE:
        at->cursor = find_cursor(s, m->cursor);
        return at->cursor == NOWHERE ? NO_CURSOR : ACCEPTED;
    case FETCH:
        at->cursor = find_cursor(s, m->cursor);
        if (at->cursor == NOWHERE)
            return NO_CURSOR;
        return s->sent[at->cursor] == s->rows[at->cursor] ? ALL_SENT : ACCEPTED;
    default:
        return ACCEPTED;
    }
}

uint32_t look_reason(const Session *s, const uint8_t *frame, size_t len, uint32_t *used, Message *m, Places *at)
{
    uint32_t reason = read_head(frame, len, used);
    m->padded = false;
    if (reason != ACCEPTED)
        return reason;
    if (s->closed)
        return CLOSED;
    reason = read_message(frame, *used, m);
    if (reason != ACCEPTED)
        return reason;
    return table_reason(s, m, at);
}

static bool is_result(const Report *r)
{
    return r->kind == REPORT_RESULT && r->columns <= MAX_COLUMNS && r->rows <= UINT32_MAX &&
           (r->columns != 0 || r->rows == 0);
}

uint32_t report_reason(uint32_t kind, const Report *r)
{
    bool suits;
    switch (kind) {
    case PREPARE:
        suits = r->kind == REPORT_PREPARED && r->placeholders <= MAX_PLACEHOLDERS;
        break;
    case EXECUTE:
    case OPEN:
        suits = is_result(r);
        break;
    case FETCH:
        suits = r->kind == REPORT_DONE;
        break;
    default:
        return ACCEPTED;
    }
    if (suits)
        return ACCEPTED;
    return r->kind == REPORT_FAILED && r->code != 0 && r->code <= UINT32_MAX ? ENGINE_FAILED : BAD_REPORT;
}
