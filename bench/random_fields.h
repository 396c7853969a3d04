/* Random fields, good and bad. */
#ifndef RANDOM_FIELDS_H
#define RANDOM_FIELDS_H

#include "frames.h"

/* Chooses anew which of the numbers to come are padded: none, one, or some of them. One alone shows at which layers
 * padding counts. */
void random_padding(void);
/* Tags, numbers and lengths, padded as chosen. */
void put_some_number(Frame *f, uint64_t v);
void put_some_field(Frame *f, uint32_t number, uint64_t v);
void put_some_bytes(Frame *f, uint32_t number, const Frame *bytes);
/* A message in one part or several, cut between its fields, now and then anywhere; some parts are empty. */
void put_some_parts(Frame *f, uint32_t number, const Frame *message);
void put_random_bytes(Frame *f, size_t len);

/* A field of any number and wire type; one in forty is no field at all. */
void put_noise(Frame *f);
/* Mostly nothing. */
void maybe_noise(Frame *f);

#endif
