/* All that the benchmark knows of the library's structs. A change of include/karramotx.h ends here and in
 * library.c: the rest of the benchmark uses the plain C side's structs and carries these about unopened. */
#ifndef LIBRARY_H
#define LIBRARY_H

#include "karramotx.h"
#include "plain.h"
#include "plain_reader.h"

typedef struct karramotx_session LibrarySession;
typedef struct karramotx_report LibraryReport;

typedef struct {
    struct karramotx_reader reader;
    uint8_t store[KARRAMOTX_STORE];
} LibraryReader;

LibraryReport library_report(const Report *report);

/* ---- the library's answers as the plain C side gives them, for comparison */

void library_fresh(LibrarySession *session);
bool library_holds(const LibrarySession *session, const Session *plain);
/* The session with the plain one's entries and zeros in every free place. */
void library_of(LibrarySession *session, const Session *plain);
void library_read(const uint8_t *frame, size_t len, Message *m);
/* Whether the frame has no body and its arguments are refused for this reason. */
bool library_refuses(const uint8_t *frame, size_t len, uint32_t reason);
void library_next_argument(const uint8_t *frame, size_t end, size_t at, Value *v);
Look library_look(const LibrarySession *session, const uint8_t *frame, size_t len);
void library_inspect(const LibrarySession *session, const uint8_t *frame, size_t len, Inspection *told);
Answer library_step(LibrarySession *session, const uint8_t *frame, size_t len, const LibraryReport *report,
                    uint8_t *reply, size_t reply_len);
/* As plain_image and plain_restore answer. */
size_t library_image(const LibrarySession *session, uint8_t *buf, size_t buf_len);
uint32_t library_restore(LibrarySession *session, const uint8_t *image, size_t len);
void library_start_over(LibraryReader *r);
PlainPushed library_push(LibraryReader *r, const uint8_t *bytes, size_t len);
PlainFrame library_next_frame(LibraryReader *r);
/* How many bytes it holds. */
uint32_t library_held(const LibraryReader *r);

/* ---- what is timed: the library called as a host calls it, its answers summed up */

/* One arrival: every whole frame is handed out. UINT64_MAX after a bad length. */
uint64_t library_arrival(LibraryReader *r, const uint8_t *bytes, size_t len);
/* The rest stands in line.h. */

#endif
