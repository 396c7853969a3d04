/* The server's side of one connection: bytes arrive, cut anywhere, and each whole frame is answered. */
#ifndef SERVER_H
#define SERVER_H

#include "engine.h"
#include "karramotx.h"

#include <stdio.h>

/* What a server keeps for one connection. Only the library writes the store and the session. */
struct connection {
    struct karramotx_session session;
    struct karramotx_reader reader;
    struct engine engine;
    /* whether the client has sent a padded number */
    bool pads;
    /* frames served, in this server and in the one that handed the session over */
    uint64_t served;
    uint8_t store[KARRAMOTX_STORE];
};

/* A fresh session, a reader that holds nothing, and an engine that keeps nothing; and the end of them. */
void connection_begin(struct connection *c);
void connection_end(struct connection *c);

/* Takes an arrival as far as there is room beside the bytes held, and answers how far. */
size_t connection_take(struct connection *c, const uint8_t *bytes, size_t len);

/*
 * Serves the frame that stands first, and answers 0; 1, KARRAMOTX_NOT_ALL_THERE, where its rest has not arrived; and 2,
 * KARRAMOTX_BAD_LENGTH, where nothing that follows can be read.
 */
uint64_t connection_serve(struct connection *c, FILE *out);

/*
 * Hands the session over, between two frames: `standby` goes on with it and with the bytes held, and `c` has ended.
 * Answers false where that can't be done: `c` is then as it was.
 */
bool connection_hand_over(struct connection *c, struct connection *standby, FILE *out);

/* How many bytes are held: the beginning of a frame whose rest has not arrived, or the four of a bad length. */
size_t connection_held(const struct connection *c);

/*
 * Whether the session is one that the library can have made: flags are 0 or 1, free places are all 0, no id
 * stands twice, each cursor is on a live statement, no two are on one, and none has sent more than it has. The
 * library promises it; a test asks.
 */
bool session_is_sound(const struct karramotx_session *session);

/* Whether besides that the engine keeps a result for each live cursor, and no other. */
bool connection_is_sound(const struct connection *c);

#endif
