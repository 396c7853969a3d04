/* Reply frames. Each function answers the bytes written; all of them fit MIN_REPLY. */
#ifndef PLAIN_REPLY_H
#define PLAIN_REPLY_H

#include "plain.h"

/* A frame without a payload. */
uint32_t put_frame(uint8_t *reply, uint8_t type);
/* What follows rows: FetchDone or FetchSuspended, then StmtExecuteOk. */
uint32_t put_rows_end(uint8_t *reply, bool done);
uint32_t put_error(uint8_t *reply, uint32_t reason, const Message *m, const Report *report);

#endif
