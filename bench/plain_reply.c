#include "plain_reply.h"

#include <string.h>

/* A text whose length the compiler knows. */
#define PUT(at, text) put_bytes(at, text, sizeof(text) - 1)

static inline uint8_t *put_bytes(uint8_t *at, const char *bytes, size_t len)
{
    memcpy(at, bytes, len);
    return at + len;
}

static uint8_t *put_varint(uint8_t *at, uint32_t v)
{
    for (; v >= 0x80; v >>= 7)
        *at++ = (uint8_t)(v | 0x80);
    *at++ = (uint8_t)v;
    return at;
}

static uint8_t *put_decimal(uint8_t *at, uint32_t v)
{
    uint8_t digits[10];
    unsigned first = sizeof digits;
    do {
        digits[--first] = (uint8_t)('0' + v % 10);
        v /= 10;
    } while (v > 0);
    memcpy(at, digits + first, sizeof digits - first);
    return at + sizeof digits - first;
}

uint32_t put_frame(uint8_t *reply, uint8_t type)
{
    memcpy(reply, "\1\0\0\0", HEAD);
    reply[HEAD] = type;
    return HEAD + 1;
}

uint32_t put_rows_end(uint8_t *reply, bool done)
{
    uint32_t n = put_frame(reply, done ? FETCH_DONE : FETCH_SUSPENDED);
    return n + put_frame(reply + n, EXECUTE_OK);
}

static uint8_t *put_text(uint8_t *at, uint32_t reason, const Message *m)
{
    switch (reason) {
    case NO_STMT:
        at = put_decimal(PUT(at, "Statement with ID="), m->stmt);
        return PUT(at, " was not prepared.");
    case NOT_SCALAR:
        at = put_decimal(PUT(at, "Argument at index '"), m->args.index);
        at = PUT(at, "' and of type '");
        at = m->args.kind == ANY_ARRAY ? PUT(at, "ARRAY") : PUT(at, "OBJECT");
        return PUT(at, "' is not supported for binding to prepared statement");
    case FEW_ARGUMENTS:
        return put_decimal(PUT(at, "There is no argument for statement placeholder at position: "),
                           m->args.count);
    case NO_CURSOR:
        at = put_decimal(PUT(at, "Cursor with ID="), m->cursor);
        return PUT(at, " was not opened.");
    case ALL_SENT:
        at = put_decimal(PUT(at, "No more data in cursor (cursor id:'"), m->cursor);
        return PUT(at, "')");
    default:
        at = put_decimal(PUT(at, "Refused ("), reason);
        return PUT(at, ").");
    }
}

uint32_t put_error(uint8_t *reply, uint32_t reason, const Message *m, const Report *report)
{
    static const uint16_t codes[REASONS] = {
        [CLOSED] = 6004,        [UNKNOWN_TYPE] = 6005, [BAD_PAYLOAD] = 5000, [NO_STMT] = 5110,      [NOT_SCALAR] = 6008,
        [FEW_ARGUMENTS] = 6009, [NO_CURSOR] = 5111,    [ALL_SENT] = 6011,    [OTHER_CURSOR] = 6012, [STMTS_FULL] = 6013,
        [CURSORS_FULL] = 6014,  [BAD_REPORT] = 6015,   [BODY_TWICE] = 6017,
    };
    uint8_t *at = reply + HEAD, *text;
    *at++ = ERROR;
    at = PUT(at, "\x08\0\x10");
    at = put_varint(at, reason == ENGINE_FAILED ? (uint32_t)report->code : codes[reason]);
    *at++ = TAG(3, BYTES);
    /* a text has fewer than 128 bytes, so its length has one */
    text = at + 1;
    at = put_text(text, reason, m);
    text[-1] = (uint8_t)(at - text);
    at = PUT(at, "\x22\5HY000");
    uint32_t length = (uint32_t)(at - reply) - HEAD;
    for (unsigned i = 0; i < HEAD; i++)
        reply[i] = (uint8_t)(length >> (8 * i));
    return HEAD + length;
}
