/* Whether the plain C side and the library answer alike. Each function says what differs, or NULL. */
#ifndef COMPARE_H
#define COMPARE_H

#include "library.h"
#include "plain.h"

/* What the frame holds, its arguments too. */
const char *differ_reading(const uint8_t *frame, size_t len);

/* A look and then a step, which changes both sessions. */
const char *differ_stepping(Session *plain, LibrarySession *library, const uint8_t *frame, size_t len,
                            const Report *report, size_t reply_len, Answer *answer);

/* The image of both sessions, in a buffer of so many bytes. */
const char *differ_writing(const Session *plain, const LibrarySession *library, size_t buf_len);

/* An image that is read, and changes both sessions where it is accepted. */
const char *differ_restoring(Session *plain, LibrarySession *library, const uint8_t *image, size_t len,
                             uint32_t *reason);

#endif
