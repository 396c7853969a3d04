/* Images of sessions, good, damaged and made up. */
#ifndef IMAGES_H
#define IMAGES_H

#include "karramotx.h"

/*
 * Writes the image of a session into buffers of several lengths, reads it back, and reads images that come of it by
 * damage, and others, over sessions met before. Nothing but the image may be written, nothing at all at a refusal; an
 * image that is accepted must be that of the session read, which is sound. The image of a session that was `reached`
 * by steps must be accepted and give it back. Answers whether all was so.
 */
bool images_survive(const struct karramotx_session *session, bool reached);

/* Prints what was met since the last time. */
void images_print(void);

#endif
