/* Frames, put together field by field. */
#ifndef FRAMES_H
#define FRAMES_H

#include <stddef.h>
#include <stdint.h>

#include "rules.h"

/* A frame, or a message that goes into one. */
typedef struct {
    size_t len;
    uint8_t bytes[MAX_FRAME];
} Frame;

/* ---- parts */

void put(Frame *f, uint8_t b);
void put_number(Frame *f, uint64_t v);
/* With bytes of 0 at its end, so that it has `len`. */
void put_padded(Frame *f, uint64_t v, size_t len);
void put_field(Frame *f, uint64_t number, uint64_t v);
void put_fixed64(Frame *f, uint64_t number, uint64_t v);
void put_bytes(Frame *f, uint64_t number, const void *bytes, size_t len);
void put_message(Frame *f, uint64_t number, const Frame *message);
/* Groups with this number, nested so deep, with nothing in them. */
void put_groups(Frame *f, uint64_t number, unsigned depth);
/* A frame begins with `start` and ends with `finish`, which fills in its length. */
void start(Frame *f, uint8_t type);
void finish(Frame *f);
/* A length in the frame's first four bytes, right or wrong. */
void put_length(Frame *f, size_t length);

/* ---- arguments, as args fields */

/* A sint, a uint, a string of 12, a double, a bool, in turn. */
void put_argument(Frame *f, unsigned i);
void put_null(Frame *f);
void put_object(Frame *f);
void put_empty_string(Frame *f);

/* ---- whole frames */

/* Deallocate and Close. */
void id_frame(Frame *f, uint8_t type, uint64_t id);
void fetch_frame(Frame *f, uint64_t cursor, uint64_t rows);
/* A Prepare whose type is 5. */
void prepare_frame(Frame *f, uint64_t id, size_t sql, size_t args, void (*argument)(Frame *f));
/* A Prepare whose type is 0, with a body of fields of 20 bytes. */
void find_frame(Frame *f, uint64_t id, size_t body);
void execute_frame(Frame *f, uint64_t id, unsigned args);
/* The same argument over and over. */
void repeat_frame(Frame *f, uint64_t id, unsigned args, void (*argument)(Frame *f));
void open_frame(Frame *f, uint64_t cursor, uint64_t stmt, unsigned args, uint64_t rows);

#endif
