/* What karramotx_inspect tells, against a look, a read and the session itself. */
#ifndef INSPECTIONS_H
#define INSPECTIONS_H

#include "karramotx.h"

/* Whether every field is what a look and a read answer, and what the words of the session say, one by one; and whether
 * a frame that is refused by itself tells nothing else. */
bool inspection_agrees(const struct karramotx_inspection *told, const struct karramotx_session *session,
                       const uint8_t *frame, size_t len);

/* The places of live cursors, as bits. */
uint64_t live_cursors(const struct karramotx_session *session);

#endif
