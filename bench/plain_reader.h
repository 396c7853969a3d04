/* A reader of frames as they arrive, in plain C: what the library's reader is measured against. */
#ifndef PLAIN_READER_H
#define PLAIN_READER_H

#include <stddef.h>
#include <stdint.h>

enum { PLAIN_STORE = 65536 };
enum { PLAIN_FRAME = 0, PLAIN_WAIT = 1, PLAIN_BAD = 2 };

/* The bytes held are bytes[start] to bytes[end - 1]. */
typedef struct {
    uint32_t start, end;
    /* the length of the frame that stands first, so that its four bytes are read once; above PLAIN_STORE where
     * there is none */
    uint32_t first;
    uint8_t bytes[PLAIN_STORE];
} PlainReader;

/* Small enough to be handed back in registers, both. */
typedef struct {
    uint32_t count, reason;
} PlainPushed;

typedef struct {
    uint32_t start, len, kind, reason;
} PlainFrame;

void plain_start_over(PlainReader *r);
/* Takes what there is room for. The reason is what stands first now. */
PlainPushed plain_push(PlainReader *r, const uint8_t *bytes, size_t len);
/* The frame that stands first; it stays where it is until the next push. */
PlainFrame plain_next_frame(PlainReader *r);

#endif
