/* Sessions that no step made, and images that are damaged or were none from the start. */
#ifndef RANDOM_IMAGES_H
#define RANDOM_IMAGES_H

#include "plain.h"
#include "plain_image.h"

/* Room for an image and what damage adds to it. */
enum { IMAGE_ROOM = MAX_IMAGE + 64 };

/* Any entries at any places; many an id stands twice, many a cursor is on no statement. */
void random_session(Session *s);
/* Some numbers in the form of an image, most of them small. */
size_t random_image(uint8_t *image);
/* One number or one byte more, less or another. The length then; there is room for some bytes more. */
size_t damage_image(uint8_t *image, size_t len);

#endif
