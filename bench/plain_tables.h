/* Places of a session's tables. */
#ifndef PLAIN_TABLES_H
#define PLAIN_TABLES_H

#include "plain.h"

enum { NOWHERE = -1 };

/* Whether places are live. Where one mask has them all, nothing is computed to find it. */
static inline int mask_of(int places, int i)
{
    return places <= MASK ? 0 : i / MASK;
}

static inline uint64_t bit_of(int i)
{
    return (uint64_t)1 << (unsigned)i % MASK;
}

static inline bool is_live(const uint64_t *live, int places, int i)
{
    return live[mask_of(places, i)] >> (unsigned)i % MASK & 1;
}

static inline void take_place(uint64_t *live, int places, int i)
{
    live[mask_of(places, i)] |= bit_of(i);
}

static inline void free_place(uint64_t *live, int places, int i)
{
    live[mask_of(places, i)] &= ~bit_of(i);
}

static inline int lowest_free(const uint64_t *live, int places)
{
    for (int k = 0; k < MASKS(places); k++)
        if (~live[k]) {
            int i = MASK * k + __builtin_ctzll(~live[k]);
            return i < places ? i : NOWHERE;
        }
    return NOWHERE;
}

/* Where a number stands in a table, in a place that is live. Unrolled, since most places are passed over. */
static inline int find(const uint32_t *numbers, int places, const uint64_t *live, uint32_t number)
{
#pragma GCC unroll 8
    for (int i = 0; i < places; i++)
        if (numbers[i] == number && is_live(live, places, i))
            return i;
    return NOWHERE;
}

static inline int find_stmt(const Session *s, uint32_t id)
{
    return find(s->stmt_ids, MAX_STMTS, s->live_stmts, id);
}

static inline int find_cursor(const Session *s, uint32_t id)
{
    return find(s->cursor_ids, MAX_CURSORS, s->live_cursors, id);
}

/* A statement carries one cursor at most. */
static inline int cursor_on(const Session *s, uint32_t stmt)
{
    return find(s->cursor_stmts, MAX_CURSORS, s->live_cursors, stmt);
}

static inline int free_stmt(const Session *s)
{
    return lowest_free(s->live_stmts, MAX_STMTS);
}

static inline int free_cursor(const Session *s)
{
    return lowest_free(s->live_cursors, MAX_CURSORS);
}

#endif
