/* Random frames, most of them good. */
#ifndef RANDOM_FRAMES_H
#define RANDOM_FRAMES_H

#include "frames.h"

/* Ids of frames are from 0 to below this. Few ids meet each other often. */
void random_ids(uint32_t range);
/* A frame of one of the eight types, with fields repeated, padded, unknown or bad among the others, with messages in
 * parts at every layer and bodies that come twice; one in six has some bytes changed, some have a length that is not
 * theirs. */
void random_frame(Frame *f);

#endif
