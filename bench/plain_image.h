/* The image of a session in plain C: what the library's is measured against. */
#ifndef PLAIN_IMAGE_H
#define PLAIN_IMAGE_H

#include "plain.h"

/* Bytes of a number below 2^32, and of one below 2^14 such as a place or a count. */
enum { LONG_NUMBER = 5 };
#define SHORT_NUMBER(most) ((most) < 0x80 ? 1 : 2)

enum {
    STMT_BYTES = SHORT_NUMBER(MAX_STMTS - 1) + 2 * LONG_NUMBER,
    CURSOR_BYTES = SHORT_NUMBER(MAX_CURSORS - 1) + 4 * LONG_NUMBER,
    /* what the image of any session fits: form, closed, and each table behind its count */
    MAX_IMAGE =
        2 + SHORT_NUMBER(MAX_STMTS) + MAX_STMTS * STMT_BYTES + SHORT_NUMBER(MAX_CURSORS) + MAX_CURSORS * CURSOR_BYTES
};

/* The image at the front of `buf`; its length, or 0 where the buffer is too small: then nothing is written. */
size_t plain_image(const Session *session, uint8_t *buf, size_t buf_len);

/* The session of an image in the place of this one. ACCEPTED, or BAD_IMAGE: the session is then as it was. */
uint32_t plain_restore(Session *session, const uint8_t *image, size_t len);

#endif
