/* Frames and messages. */
#ifndef PLAIN_READ_H
#define PLAIN_READ_H

#include "plain.h"

/* The reason 1 or 2, or 0 and the frame's length, its four bytes included. */
uint32_t read_head(const uint8_t *frame, size_t len, uint32_t *used);
/* The message of a frame that is all there: 0, 5, 6 or 17. Of a refused one `padded` alone means something in `m`:
 * it is false at 5 and 6. */
uint32_t read_message(const uint8_t *frame, uint32_t used, Message *m);

#endif
