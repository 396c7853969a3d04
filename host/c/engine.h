/* A made-up engine, where a server has its database. */
#ifndef ENGINE_H
#define ENGINE_H

#include "karramotx.h"

#include <stdio.h>

/* The columns and rows that every query of this engine has. */
enum { ENGINE_COLUMNS = 2, ENGINE_ROWS = 5 };

/* A result, which the rows of a cursor are sent from. */
struct engine_result {
    uint64_t columns;
    uint64_t rows;
};

/* What the engine keeps for one connection: the result of each cursor at that cursor's place, and one just made. */
struct engine {
    struct engine_result *results[KARRAMOTX_MAX_CURSORS];
    struct engine_result *made;
};

/*
 * Does the work that a frame wants, and reports it. A statement whose text holds "oops" can't be prepared: the engine
 * fails with code 1064.
 */
struct karramotx_report engine_work(struct engine *e, const struct karramotx_inspection *told, const uint8_t *frame);

/*
 * After a hand-over: the results of the session's cursors, made anew at the same places. A real engine runs the
 * statements again, so that each has the rows that it had. Answers false where there is no memory.
 */
bool engine_take_over(struct engine *e, const struct karramotx_session *session);

/* Sends columns and rows, here as text. */
void engine_send(const struct engine *e, const struct karramotx_inspection *told, struct karramotx_answer answer,
                 FILE *out);

/* After the step: the results of the cursors that ended are freed, and an Open's is kept. */
void engine_settle(struct engine *e, const struct karramotx_inspection *told, struct karramotx_answer answer);

/* Frees what is kept. */
void engine_end(struct engine *e);

#endif
