/* The client's side: a conversation written with the library's writer. */
#ifndef CLIENT_H
#define CLIENT_H

#include "karramotx.h"

/*
 * Writes the frames of a conversation one behind the other and answers how many bytes they are; 0 where
 * the buffer is too small.
 */
size_t client_conversation(uint8_t *buf, size_t len);

#endif
