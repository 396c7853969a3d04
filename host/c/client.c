#include "client.h"

#include <string.h>

/* A buffer that frames are put into; `failed` once one did not fit or was refused. */
struct output {
    uint8_t *buf;
    size_t len;
    size_t at;
    bool failed;
};

static void put(struct output *o, struct karramotx_draft draft, const uint8_t *body, size_t body_len,
                const uint8_t *args, size_t args_len)
{
    struct karramotx_sent sent =
        karramotx_write(draft, body, body_len, args, args_len, o->buf + o->at, o->len - o->at);
    o->failed = o->failed || sent.reason != KARRAMOTX_ACCEPTED;
    o->at += sent.len;
}

/* A statement of SQL: a StmtExecute body has its text in field 1. The text is below 128 bytes here. */
static void prepare(struct output *o, uint32_t stmt, const char *sql)
{
    uint8_t body[2 + 127] = {0x0a};
    size_t n = strlen(sql);
    if (n > 127) {
        o->failed = true;
        return;
    }
    body[1] = (uint8_t)n;
    memcpy(body + 2, sql, n);
    struct karramotx_draft draft = {
        .kind = KARRAMOTX_PREPARE, .stmt = stmt, .operation = KARRAMOTX_STMT_EXECUTE};
    put(o, draft, body, n + 2, NULL, 0);
}

/* Two arguments: a string and a negative number. */
static void open_cursor(struct output *o, uint32_t cursor, uint32_t stmt, uint64_t rows)
{
    static const uint8_t airport[] = "LFBO";
    uint8_t args[64];
    struct karramotx_scalar text = {.kind = KARRAMOTX_STRING};
    struct karramotx_scalar level = {.kind = KARRAMOTX_SINT, .value = (uint64_t)(int64_t)-500};
    struct karramotx_sent one = karramotx_append(text, airport, 4, args, sizeof args, 0);
    struct karramotx_sent two = karramotx_append(level, NULL, 0, args, sizeof args, one.len);
    struct karramotx_draft draft = {.kind = KARRAMOTX_CURSOR_OPEN,
                                    .stmt = stmt,
                                    .cursor = cursor,
                                    .hasrows = true,
                                    .rows = rows};
    o->failed = o->failed || one.reason != KARRAMOTX_ACCEPTED || two.reason != KARRAMOTX_ACCEPTED;
    put(o, draft, NULL, 0, args, two.len);
}

/* Reset, Session close, Deallocate, Close: a kind and at most an id. */
static void put_plain(struct output *o, uint64_t kind, uint32_t id)
{
    struct karramotx_draft draft = {.kind = kind, .stmt = id, .cursor = id};
    put(o, draft, NULL, 0, NULL, 0);
}

/* A Fetch of this many rows. */
static void fetch(struct output *o, uint32_t cursor, uint64_t rows)
{
    struct karramotx_draft draft = {
        .kind = KARRAMOTX_CURSOR_FETCH, .cursor = cursor, .hasrows = true, .rows = rows};
    put(o, draft, NULL, 0, NULL, 0);
}

/* The same from a client that writes every id in five bytes, which the library's writer never does. */
static void fetch_padded(struct output *o, uint8_t cursor, uint8_t rows)
{
    const uint8_t id = cursor | 0x80;
    const uint8_t frame[] = {9, 0, 0, 0, KARRAMOTX_CURSOR_FETCH, 0x08, id, 0x80, 0x80, 0x80, 0x00, 0x10, rows};
    if (o->len - o->at < sizeof frame) {
        o->failed = true;
        return;
    }
    memcpy(o->buf + o->at, frame, sizeof frame);
    o->at += sizeof frame;
}

/* A Fetch of all rows that are left. */
static void fetch_all(struct output *o, uint32_t cursor)
{
    put_plain(o, KARRAMOTX_CURSOR_FETCH, cursor);
}

size_t client_conversation(uint8_t *buf, size_t len)
{
    struct output o = {.buf = buf, .len = len};
    prepare(&o, 1, "select leg from airways where airport = ? and level > ?");
    open_cursor(&o, 1, 1, 2);                       /* two of five rows */
    fetch(&o, 1, 2);                                /* two more */
    prepare(&o, 1, "select fix from fixes where airport = ? and level > ?"); /* its cursor ends */
    fetch_all(&o, 1);                               /* refused: the cursor is gone */
    open_cursor(&o, 1, 1, 2);
    fetch_padded(&o, 1, 1);                         /* one more, the cursor id in five bytes */
    fetch_all(&o, 1);                               /* FetchDone, from the standby */
    fetch_all(&o, 1);                               /* refused: all rows are sent */
    prepare(&o, 2, "oops");                         /* the engine fails */
    put_plain(&o, KARRAMOTX_CURSOR_CLOSE, 1);
    put_plain(&o, KARRAMOTX_EXECUTE, 1);            /* refused: two placeholders, no arguments */
    put_plain(&o, KARRAMOTX_DEALLOCATE, 1);
    put_plain(&o, KARRAMOTX_SESS_RESET, 0);
    put_plain(&o, KARRAMOTX_SESS_CLOSE, 0);
    return o.failed ? 0 : o.at;
}
