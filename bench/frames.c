#include "frames.h"

#include <string.h>

/* ---- parts */

void put(Frame *f, uint8_t b)
{
    f->bytes[f->len++] = b;
}

void put_number(Frame *f, uint64_t v)
{
    for (; v >= 0x80; v >>= 7)
        put(f, (uint8_t)(v | 0x80));
    put(f, (uint8_t)v);
}

void put_padded(Frame *f, uint64_t v, size_t len)
{
    for (; len > 1; len--, v >>= 7)
        put(f, (uint8_t)(v | 0x80));
    put(f, (uint8_t)v);
}

void put_field(Frame *f, uint64_t number, uint64_t v)
{
    put_number(f, TAG(number, NUMBER));
    put_number(f, v);
}

void put_fixed64(Frame *f, uint64_t number, uint64_t v)
{
    put_number(f, TAG(number, FIXED64));
    for (int i = 0; i < 8; i++)
        put(f, (uint8_t)(v >> (8 * i)));
}

void put_bytes(Frame *f, uint64_t number, const void *bytes, size_t len)
{
    put_number(f, TAG(number, BYTES));
    put_number(f, len);
    memcpy(f->bytes + f->len, bytes, len);
    f->len += len;
}

void put_message(Frame *f, uint64_t number, const Frame *message)
{
    put_bytes(f, number, message->bytes, message->len);
}

void put_groups(Frame *f, uint64_t number, unsigned depth)
{
    for (unsigned i = 0; i < depth; i++)
        put_number(f, TAG(number, GROUP));
    for (unsigned i = 0; i < depth; i++)
        put_number(f, TAG(number, GROUP_END));
}

void start(Frame *f, uint8_t type)
{
    f->len = HEAD;
    put(f, type);
}

void put_length(Frame *f, size_t length)
{
    for (int i = 0; i < HEAD; i++)
        f->bytes[i] = (uint8_t)(length >> (8 * i));
}

void finish(Frame *f)
{
    put_length(f, f->len - HEAD);
}

/* ---- arguments */

static void put_scalar(Frame *f, const Frame *scalar)
{
    static Frame any;
    any.len = 0;
    put_field(&any, 1, ANY_SCALAR);
    put_message(&any, 2, scalar);
    put_message(f, 2, &any);
}

static void put_string(Frame *f, const char *text)
{
    static Frame scalar, string;
    string.len = 0;
    put_bytes(&string, 1, text, strlen(text));
    scalar.len = 0;
    put_field(&scalar, 1, STRING);
    put_message(&scalar, 9, &string);
    put_scalar(f, &scalar);
}

void put_argument(Frame *f, unsigned i)
{
    static Frame scalar;
    scalar.len = 0;
    switch (i % 5) {
    case 0:
        put_field(&scalar, 1, SINT);
        put_field(&scalar, 2, 2 * i + 1);
        break;
    case 1:
        put_field(&scalar, 1, UINT);
        put_field(&scalar, 3, (uint64_t)1000003 * i);
        break;
    case 2:
        put_string(f, "changeover 1");
        return;
    case 3:
        put_field(&scalar, 1, DOUBLE);
        put_fixed64(&scalar, 6, 0x3ff0000000000000u + i);
        break;
    default:
        put_field(&scalar, 1, BOOL);
        put_field(&scalar, 8, i / 5 % 2);
    }
    put_scalar(f, &scalar);
}

void put_null(Frame *f)
{
    static Frame scalar;
    scalar.len = 0;
    put_field(&scalar, 1, NULL_VALUE);
    put_scalar(f, &scalar);
}

void put_object(Frame *f)
{
    static Frame any;
    any.len = 0;
    put_field(&any, 1, ANY_OBJECT);
    put_message(f, 2, &any);
}

void put_empty_string(Frame *f)
{
    put_string(f, "");
}

/* ---- whole frames */

void id_frame(Frame *f, uint8_t type, uint64_t id)
{
    start(f, type);
    put_field(f, 1, id);
    finish(f);
}

void fetch_frame(Frame *f, uint64_t cursor, uint64_t rows)
{
    start(f, FETCH);
    put_field(f, 1, cursor);
    put_field(f, 2, rows);
    finish(f);
}

static void prepare_of(Frame *f, uint64_t id, unsigned type, unsigned field, const Frame *body)
{
    static Frame stmt;
    stmt.len = 0;
    put_field(&stmt, 1, type);
    put_message(&stmt, field, body);
    start(f, PREPARE);
    put_field(f, 1, id);
    put_message(f, 2, &stmt);
    finish(f);
}

void prepare_frame(Frame *f, uint64_t id, size_t sql, size_t args, void (*argument)(Frame *f))
{
    static Frame body;
    static uint8_t text[MAX_FRAME];
    memset(text, 'S', sql);
    body.len = 0;
    put_bytes(&body, 1, text, sql);
    for (size_t i = 0; i < args; i++)
        argument(&body);
    prepare_of(f, id, STMT_EXECUTE, 6, &body);
}

void find_frame(Frame *f, uint64_t id, size_t len)
{
    static Frame body;
    body.len = 0;
    while (body.len + 20 <= len)
        put_bytes(&body, 3, "eighteen bytes it ", 18);
    prepare_of(f, id, FIND, 2, &body);
}

void execute_frame(Frame *f, uint64_t id, unsigned args)
{
    start(f, EXECUTE);
    put_field(f, 1, id);
    for (unsigned i = 0; i < args; i++)
        put_argument(f, i);
    finish(f);
}

void repeat_frame(Frame *f, uint64_t id, unsigned args, void (*argument)(Frame *f))
{
    start(f, EXECUTE);
    put_field(f, 1, id);
    for (unsigned i = 0; i < args; i++)
        argument(f);
    finish(f);
}

void open_frame(Frame *f, uint64_t cursor, uint64_t stmt, unsigned args, uint64_t rows)
{
    static Frame execute, chosen;
    execute.len = 0;
    put_field(&execute, 1, stmt);
    for (unsigned i = 0; i < args; i++)
        put_argument(&execute, i);
    chosen.len = 0;
    put_field(&chosen, 1, 0);
    put_message(&chosen, 2, &execute);
    start(f, OPEN);
    put_field(f, 1, cursor);
    put_message(f, 4, &chosen);
    if (rows)
        put_field(f, 5, rows);
    finish(f);
}
