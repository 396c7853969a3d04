/* Frames that are good, with fields that no message has, with numbers longer than they need be, or with embedded
 * messages in parts. */
#ifndef ODD_FRAMES_H
#define ODD_FRAMES_H

#include "frames.h"

/* Fields with a number that is not known, one after the other, as far as a length. */
typedef void (*Fields)(Frame *f, size_t len);

/* Groups 32 deep with nothing in them; the last may pass the length. */
void unknown_groups(Frame *f, size_t len);
/* Fields of two bytes. */
void tiny_fields(Frame *f, size_t len);
/* Numbers of ten bytes, the longest that are read, under tags of one byte. */
void padded_numbers(Frame *f, size_t len);
/* The other way round. */
void padded_tags(Frame *f, size_t len);

/* A Reset with such fields, and a Fetch of one row with such fields behind its own. */
void reset_with(Frame *f, Fields fields, size_t len);
void fetch_with(Frame *f, uint64_t cursor, Fields fields, size_t len);

/* A Fetch of one row whose own numbers, or tags, have ten bytes. */
void fetch_padded_numbers(Frame *f, uint64_t cursor);
void fetch_padded_tags(Frame *f, uint64_t cursor);

/* A Prepare whose statement comes so often with no bytes, and then whole. */
void prepare_again(Frame *f, uint64_t id, unsigned empty);
/* A Prepare whose statement comes in so many parts with its type, and one with its body. */
void prepare_in_parts(Frame *f, uint64_t id, unsigned types);
/* An args field whose scalar comes twice, first with its type alone. */
void put_scalar_again(Frame *f);
/* One whose scalar comes in two parts, its type and its value. */
void put_scalar_in_parts(Frame *f);
/* An Open whose statement comes in two parts, its type and its Execute. */
void open_in_parts(Frame *f, uint64_t cursor, uint64_t stmt, unsigned args, uint64_t rows);

#endif
