#include "odd_frames.h"

#include <stdbool.h>

enum { UNKNOWN = 9, LONGEST = 10 };

void unknown_groups(Frame *f, size_t len)
{
    while (f->len < len)
        put_groups(f, UNKNOWN, MAX_DEPTH);
}

void tiny_fields(Frame *f, size_t len)
{
    while (f->len + 2 <= len)
        put_field(f, UNKNOWN, 1);
}

/* ---- padded */

static void put_padded_number(Frame *f, uint64_t number, uint64_t v)
{
    put_number(f, TAG(number, NUMBER));
    put_padded(f, v, LONGEST);
}

static void put_padded_tag(Frame *f, uint64_t number, uint64_t v)
{
    put_padded(f, TAG(number, NUMBER), LONGEST);
    put_number(f, v);
}

void padded_numbers(Frame *f, size_t len)
{
    while (f->len + 1 + LONGEST <= len)
        put_padded_number(f, UNKNOWN, 1);
}

void padded_tags(Frame *f, size_t len)
{
    while (f->len + LONGEST + 1 <= len)
        put_padded_tag(f, UNKNOWN, 1);
}

/* ---- frames */

void reset_with(Frame *f, Fields fields, size_t len)
{
    start(f, RESET);
    fields(f, len);
    finish(f);
}

void fetch_with(Frame *f, uint64_t cursor, Fields fields, size_t len)
{
    fetch_frame(f, cursor, 1);
    fields(f, len);
    finish(f);
}

void fetch_padded_numbers(Frame *f, uint64_t cursor)
{
    start(f, FETCH);
    put_padded_number(f, 1, cursor);
    put_padded_number(f, 2, 1);
    finish(f);
}

void fetch_padded_tags(Frame *f, uint64_t cursor)
{
    start(f, FETCH);
    put_padded_tag(f, 1, cursor);
    put_padded_tag(f, 2, 1);
    finish(f);
}

/* ---- embedded messages in parts */

static void put_body(Frame *stmt)
{
    static Frame body;
    body.len = 0;
    put_bytes(&body, 1, "S", 1);
    put_message(stmt, 6, &body);
}

void prepare_again(Frame *f, uint64_t id, unsigned empty)
{
    static Frame stmt;
    stmt.len = 0;
    put_field(&stmt, 1, STMT_EXECUTE);
    put_body(&stmt);
    start(f, PREPARE);
    put_field(f, 1, id);
    while (empty-- > 0)
        put_bytes(f, 2, "", 0);
    put_message(f, 2, &stmt);
    finish(f);
}

void prepare_in_parts(Frame *f, uint64_t id, unsigned types)
{
    static Frame type, rest;
    type.len = rest.len = 0;
    put_field(&type, 1, STMT_EXECUTE);
    put_body(&rest);
    start(f, PREPARE);
    put_field(f, 1, id);
    while (types-- > 0)
        put_message(f, 2, &type);
    put_message(f, 2, &rest);
    finish(f);
}

/* A scalar's type, then its value, or both, in the second part. */
static void put_two_parts(Frame *f, bool again)
{
    static Frame part, any;
    part.len = any.len = 0;
    put_field(&any, 1, ANY_SCALAR);
    put_field(&part, 1, SINT);
    put_message(&any, 2, &part);
    if (!again)
        part.len = 0;
    put_field(&part, 2, 1);
    put_message(&any, 2, &part);
    put_message(f, 2, &any);
}

void put_scalar_again(Frame *f)
{
    put_two_parts(f, true);
}

void put_scalar_in_parts(Frame *f)
{
    put_two_parts(f, false);
}

void open_in_parts(Frame *f, uint64_t cursor, uint64_t stmt, unsigned args, uint64_t rows)
{
    static Frame execute, type, rest;
    execute.len = type.len = rest.len = 0;
    put_field(&execute, 1, stmt);
    for (unsigned i = 0; i < args; i++)
        put_argument(&execute, i);
    put_field(&type, 1, 0);
    put_message(&rest, 2, &execute);
    start(f, OPEN);
    put_field(f, 1, cursor);
    put_message(f, 4, &type);
    put_message(f, 4, &rest);
    put_field(f, 5, rows);
    finish(f);
}
