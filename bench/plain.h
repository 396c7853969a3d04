/* The same rules in plain C: what the library is measured against. Nothing here is proved. A frame has at most
 * 65,536 bytes, so places and lengths fit 32 bits. */
#ifndef PLAIN_H
#define PLAIN_H

#include <stdbool.h>
#include <stddef.h>
#include <stdint.h>

#include "rules.h"

/* ---- reading a frame by itself */

typedef struct {
    uint32_t start, len;
} Part;

typedef struct {
    uint32_t count;
    uint32_t kind, index;   /* the first object or array; kind 0 where there is none */
    uint32_t start, end;    /* the message that holds the arguments */
} Arguments;

/* What a frame holds. What its type does not have is 0. */
typedef struct {
    uint32_t reason, used, kind, stmt, cursor;
    bool has_rows, has_compact, compact;
    uint8_t operation;
    uint64_t rows;
    Part body;
    Arguments args;
    /* whether a varint that was read is padded; not where the frame is refused 1, 2, 5 or 6 */
    bool padded;
} Message;

typedef struct {
    uint32_t reason, kind;
    uint64_t value;
    uint32_t start, len;
    uint32_t next;
} Value;

void plain_read(const uint8_t *frame, size_t len, Message *m);
/* One argument at or behind `at`: reason 9 where there is none. */
void plain_next_argument(const uint8_t *frame, size_t end, size_t at, Value *v);

/* ---- look and step */

/* The masks that have a bit for each place of a table. */
enum { MASK = 64 };
#define MASKS(places) (((places) + MASK - 1) / MASK)

/* Words of a cursor that the rules use; others stand in rows of their own, so that no search goes over them. */
enum { CURSOR_FIELDS = 5 };

/* Ids stand side by side, so that a search goes over few bytes. Bit i % 64 of mask i / 64 tells of place i. */
typedef struct {
    uint64_t live_stmts[MASKS(MAX_STMTS)], live_cursors[MASKS(MAX_CURSORS)];
    bool closed;
    uint32_t stmt_ids[MAX_STMTS], placeholders[MAX_STMTS];
    uint32_t cursor_ids[MAX_CURSORS], cursor_stmts[MAX_CURSORS];
    uint32_t rows[MAX_CURSORS], sent[MAX_CURSORS];
    uint32_t spare[MAX_CURSORS][CURSOR_WORDS - CURSOR_FIELDS];
} Session;

typedef struct {
    uint64_t kind, placeholders, columns, rows, code;
} Report;

/* Small enough to be handed back in registers. */
typedef struct {
    uint32_t reason;
    uint16_t work;
    bool padded;
    uint32_t first, count;
} Look;

typedef struct {
    uint32_t reason, used, reply;
    bool columns, padded;
    uint32_t first, count;
} Answer;

/* All of a frame before its step: places as told by karramotx.h, bit i of `ends` of the cursor at place i. */
typedef struct {
    Look look;
    Message message;
    uint32_t stmt_place, cursor_place;
    uint64_t ends;
} Inspection;

void plain_fresh(Session *session);
Look plain_look(const Session *session, const uint8_t *frame, size_t len);
void plain_inspect(const Session *session, const uint8_t *frame, size_t len, Inspection *told);
void plain_step(Session *session, const uint8_t *frame, size_t len, const Report *report, uint8_t *reply,
                size_t reply_len, Answer *answer);

#endif
