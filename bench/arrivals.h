/* Frames that arrive cut anywhere, read by the library's reader and by the one in plain C. */
#ifndef ARRIVALS_H
#define ARRIVALS_H

#include <stdbool.h>
#include <stddef.h>
#include <stdint.h>

#include "library.h"
#include "plain_reader.h"
#include "rules.h"

/* What one TCP segment carries on an Ethernet. */
enum { ARRIVAL = 1460 };

/* One connection whose bytes come round again and again. A run begins and ends between two frames, and each side
 * goes on where it stopped, so that its store is used as in a long connection. */
typedef struct {
    uint8_t bytes[MAX_FRAME + ARRIVAL];
    size_t len;      /* bytes of one round */
    size_t at;       /* where in the round the next arrival begins */
    size_t rounds;   /* of one run: as many as end with an arrival */
    size_t frames;   /* of one run */
    LibraryReader library;
    PlainReader plain;
} Stream;

/* One frame more in a round. */
void stream_add(Stream *stream, const uint8_t *frame, size_t len);
/* After the last frame. */
void stream_finish(Stream *stream);

/* One run: every frame is handed out before the next arrival is pushed. The sum of each frame's type, length
 * and first byte; UINT64_MAX after a bad length. */
uint64_t library_run(Stream *stream);
uint64_t plain_run(Stream *stream);

/* Whether both sides answer alike and hand out the same frames, as many as a run has; with a full store and around
 * a bad length too. Starts both over. */
bool stream_agrees(Stream *stream);

#endif
