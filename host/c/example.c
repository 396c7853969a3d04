/*
 * The server's side of one connection, over standard input, and a client to try it with. What a real server has beside
 * it is not here: sockets, handshake, authentication, TLS, and columns and rows on the wire, which are printed.
 *
 *     example [--pieces N]      serves the built-in client's conversation
 *     example [--pieces N] -    serves the bytes on standard input
 *     example --write           writes the client's frames to standard output
 *
 * Bytes arrive in pieces of odd sizes, as from a network, or of N bytes each; what is served is the same. Behind the
 * seventh frame, in the middle of a load, the session is handed over to a standby, which serves what follows.
 * It ends with 0, with 1 where the input breaks off or has a bad length, and with 2 on its own errors.
 */
#include "client.h"
#include "server.h"

#include <inttypes.h>
#include <stdlib.h>
#include <string.h>

/* The longest piece: an arrival may be longer than the store. And how many frames the first server serves. */
enum { MAX_PIECE = 2 * KARRAMOTX_STORE, HAND_OVER_AFTER = 7 };

/* The size of the next arrival: as chosen, or where that is 0 the next of some odd sizes. */
static size_t next_size(size_t chosen, size_t *turn)
{
    static const size_t odd[] = {1, 2, 3, 5, 7, 11, 13, 17, 19, 23};
    return chosen != 0 ? chosen : odd[(*turn)++ % (sizeof odd / sizeof odd[0])];
}

/* Serves every whole frame of an arrival; what is left of it is held for the next. Answers false at a bad length. `*c`
 * is the connection that serves: the standby's, once the session is handed over. */
static bool serve_arrival(struct connection **c, const uint8_t *bytes, size_t len, FILE *out)
{
    static struct connection standby;
    for (size_t at = 0; at < len;) {
        uint64_t reason;
        at += connection_take(*c, bytes + at, len - at);
        while ((reason = connection_serve(*c, out)) == KARRAMOTX_ACCEPTED) {
            if ((*c)->served == HAND_OVER_AFTER && connection_hand_over(*c, &standby, out))
                *c = &standby;
        }
        if (reason == KARRAMOTX_BAD_LENGTH)
            return false;
    }
    return true;
}

static int serve_stream(FILE *in, size_t pieces, FILE *out)
{
    static struct connection first;
    static uint8_t arrival[MAX_PIECE];
    struct connection *c = &first;
    size_t turn = 0;
    bool good = true;
    size_t got;
    connection_begin(c);
    while (good && (got = fread(arrival, 1, next_size(pieces, &turn), in)) > 0)
        good = serve_arrival(&c, arrival, got, out);

    bool cut = connection_held(c) > 0;
    struct karramotx_counts counts = karramotx_counts(&c->session);
    fprintf(out, "%s: %" PRIu64 " statements, %" PRIu64 " cursors, %" PRIu64 " rows owed%s\n",
            !good ? "bad length" : cut ? "cut" : "end", counts.stmts, counts.cursors, counts.owed,
            c->session.closed ? ", closed" : "");
    bool sound = connection_is_sound(c);
    connection_end(c);
    if (!sound)
        return 2;
    return !good || cut;
}

static int serve_conversation(uint8_t *frames, size_t len, size_t pieces)
{
    FILE *in = fmemopen(frames, len, "rb");
    if (in == NULL)
        return 2;
    int status = serve_stream(in, pieces, stdout);
    fclose(in);
    return status;
}

int main(int argc, char **argv)
{
    static uint8_t frames[4096];
    size_t len = client_conversation(frames, sizeof frames);
    unsigned long pieces = 0;
    bool chosen = argc > 2 && strcmp(argv[1], "--pieces") == 0;
    if (chosen) {
        pieces = strtoul(argv[2], NULL, 10);
        argc -= 2;
        argv += 2;
    }
    if (len == 0)
        return 2;
    if (chosen && (pieces == 0 || pieces > MAX_PIECE)) {
        fprintf(stderr, "example: pieces have 1 to %d bytes\n", MAX_PIECE);
        return 2;
    }
    if (argc == 1)
        return serve_conversation(frames, len, pieces);
    if (argc == 2 && strcmp(argv[1], "-") == 0)
        return serve_stream(stdin, pieces, stdout);
    if (argc == 2 && !chosen && strcmp(argv[1], "--write") == 0)
        return fwrite(frames, 1, len, stdout) == len ? 0 : 2;
    fprintf(stderr, "usage: example [--pieces N] [-] | --write\n");
    return 2;
}
