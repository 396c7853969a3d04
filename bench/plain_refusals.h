/* Why a frame is refused, from the session and from the report. */
#ifndef PLAIN_REFUSALS_H
#define PLAIN_REFUSALS_H

#include "plain.h"

/* Where a message's statement and cursor stand, or are to stand. Searched once, by the refusals. */
typedef struct {
    int stmt, cursor;
    bool replaces;   /* of a Prepare: the statement id is in use */
} Places;

/* All refusals that need no report: a look and a step give the same. What stands behind `len` is filled in as far as
 * the frame is accepted, but `m->padded` always: it is false where the frame is refused 1 to 6. */
uint32_t look_reason(const Session *s, const uint8_t *frame, size_t len, uint32_t *used, Message *m, Places *at);
/* 0, 15 or 16, for a message of this type. */
uint32_t report_reason(uint32_t kind, const Report *report);

#endif
