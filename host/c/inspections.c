#include "inspections.h"

static bool same_look(struct karramotx_look a, struct karramotx_look b)
{
    return a.reason == b.reason && a.work == b.work && a.first == b.first && a.count == b.count && a.padded == b.padded;
}

static bool same_arguments(struct karramotx_arguments a, struct karramotx_arguments b)
{
    return a.good == b.good && a.count == b.count && a.kind == b.kind && a.index == b.index && a.start == b.start &&
           a.end == b.end;
}

static bool same_message(const struct karramotx_message *a, const struct karramotx_message *b)
{
    return a->reason == b->reason && a->used == b->used && a->kind == b->kind && a->stmt == b->stmt &&
           a->cursor == b->cursor && a->rows.present == b->rows.present && a->rows.value == b->rows.value &&
           a->compact.present == b->compact.present && a->compact.value == b->compact.value &&
           a->operation == b->operation && a->body.start == b->body.start && a->body.len == b->body.len &&
           same_arguments(a->args, b->args) && a->padded == b->padded;
}

/* The first place where the statement, the cursor of an id is live; or, where `put`, else the first free one. */
static size_t stmt_place(const struct karramotx_session *s, uint64_t id, bool put)
{
    size_t at = KARRAMOTX_MAX_STMTS;
    for (size_t i = KARRAMOTX_MAX_STMTS; i-- > 0;) {
        if (put && !s->stmts[i].live)
            at = i;
    }
    for (size_t i = KARRAMOTX_MAX_STMTS; i-- > 0;) {
        if (s->stmts[i].live && s->stmt_ids[i] == id)
            at = i;
    }
    return at;
}

static size_t cursor_place(const struct karramotx_session *s, uint64_t id, bool put)
{
    size_t at = KARRAMOTX_MAX_CURSORS;
    for (size_t i = KARRAMOTX_MAX_CURSORS; i-- > 0;) {
        if (put && !s->cursors[i].live)
            at = i;
    }
    for (size_t i = KARRAMOTX_MAX_CURSORS; i-- > 0;) {
        if (s->cursors[i].live && s->cursors[i].id == id)
            at = i;
    }
    return at;
}

static size_t own_stmt(const struct karramotx_session *s, const struct karramotx_message *m)
{
    switch (m->kind) {
    case KARRAMOTX_PREPARE: return stmt_place(s, m->stmt, true);
    case KARRAMOTX_EXECUTE:
    case KARRAMOTX_DEALLOCATE:
    case KARRAMOTX_CURSOR_OPEN: return stmt_place(s, m->stmt, false);
    default: return KARRAMOTX_MAX_STMTS;
    }
}

static size_t own_cursor(const struct karramotx_session *s, const struct karramotx_message *m)
{
    switch (m->kind) {
    case KARRAMOTX_CURSOR_OPEN: return cursor_place(s, m->cursor, true);
    case KARRAMOTX_CURSOR_CLOSE:
    case KARRAMOTX_CURSOR_FETCH: return cursor_place(s, m->cursor, false);
    default: return KARRAMOTX_MAX_CURSORS;
    }
}

static bool ends(struct karramotx_cursor c, const struct karramotx_message *m)
{
    switch (m->kind) {
    case KARRAMOTX_SESS_RESET:
    case KARRAMOTX_SESS_CLOSE: return true;
    case KARRAMOTX_PREPARE:
    case KARRAMOTX_EXECUTE:
    case KARRAMOTX_DEALLOCATE: return c.stmt == m->stmt;
    case KARRAMOTX_CURSOR_OPEN:
    case KARRAMOTX_CURSOR_CLOSE: return c.id == m->cursor;
    default: return false;
    }
}

static uint64_t all_ends(const struct karramotx_session *s, const struct karramotx_message *m)
{
    uint64_t bits = 0;
    for (size_t i = 0; i < KARRAMOTX_MAX_CURSORS; i++) {
        if (s->cursors[i].live && ends(s->cursors[i], m))
            bits |= 1ull << i;
    }
    return bits;
}

uint64_t live_cursors(const struct karramotx_session *session)
{
    return all_ends(session, &(struct karramotx_message){.kind = KARRAMOTX_SESS_RESET});
}

/* Of a frame that is refused by itself nothing else is told: no type, no body, and each argument is refused alike. */
static bool refused_alike(const struct karramotx_message *m, const uint8_t *frame, size_t len)
{
    enum { SOME_ARGUMENTS = 3 };
    if (m->reason == KARRAMOTX_ACCEPTED)
        return true;
    for (size_t index = 0; index < SOME_ARGUMENTS; index++) {
        struct karramotx_value value = karramotx_argument(frame, len, index);
        if (value.reason != m->reason || value.kind != 0)
            return false;
    }
    return m->kind == 0 && m->body.len == 0 && m->args.count == 0 && karramotx_body(frame, len).len == 0;
}

bool inspection_agrees(const struct karramotx_inspection *told, const struct karramotx_session *session,
                       const uint8_t *frame, size_t len)
{
    struct karramotx_message message = karramotx_read(frame, len);
    return same_look(told->look, karramotx_look(session, frame, len)) && same_message(&told->message, &message) &&
           told->stmt_place == own_stmt(session, &message) && told->cursor_place == own_cursor(session, &message) &&
           told->ends == all_ends(session, &message) && refused_alike(&message, frame, len);
}
