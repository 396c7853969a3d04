/* What the tests of survival share: numbers at random, memory with guards, and frames good and damaged. */
#ifndef DAMAGE_H
#define DAMAGE_H

#include "karramotx.h"

/* Bytes on either side of what may be written have a value that shows whether they were. */
enum { PAGE = 4096, GUARD = 64, UNTOUCHED = 0xa5 };
bool untouched(const uint8_t *bytes, size_t len);

/* Numbers below n, at most 2^32; the same in every run. */
uint64_t below(uint64_t n);

/* `room` bytes, whole pages, in front of a page that may not be touched; answers the end of them. */
uint8_t *guarded_end(size_t room);

/* A message of so many ids that the tables fill up, now and then with an object for its argument. */
size_t drafted_frame(uint8_t *frame, size_t room);

/*
 * Puts one part more of its statement behind a short Prepare or Open: one without bytes, or one with a body or an
 * Execute in it, which then comes twice. Answers the length then; there is room for LONGEST_PART bytes more.
 */
enum { LONGEST_PART = 7 };
size_t parted(uint8_t *frame, size_t len);

/*
 * Puts a byte of 0 behind the last byte of a short frame: a number that stands there is then padded. Answers the length
 * then; there is room for one byte more.
 */
size_t padded(uint8_t *frame, size_t len);

/* Flips, removes or adds a byte, or cuts. Answers the length then; there is room for one byte more. */
size_t damaged(uint8_t *bytes, size_t len);

#endif
