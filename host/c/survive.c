/*
 * Feeds a session damaged frames, wrong reports and reply buffers of every length, and asks after each step
 * whether the session is still sound and nothing else was touched, whether the cursors that live are those whose
 * results a host has kept and not freed, and whether look and step say the same of padded numbers. Frame and reply end
 * at a page that no one may read or write, so that a byte too far ends the program. Now and then the session is written
 * to an image and read back, and damaged images are read (images.c). Then as many steps on sessions of any bits, and as
 * many operations of a reader on streams cut at random (cuts.c).
 *
 *     survive [STEPS]
 */
#include "client.h"
#include "cuts.h"
#include "damage.h"
#include "images.h"
#include "inspections.h"
#include "server.h"

#include <inttypes.h>
#include <stdlib.h>
#include <string.h>

/* SPARE bytes take what a part, padding and damage add to a frame; one step in IMAGE_EVERY is followed by images. */
enum { ROOM = 8192, MAX_REPLY = 200, SPARE = 16, IMAGE_EVERY = 16 };

/* A frame of the client's conversation. */
static size_t spoken_frame(const uint8_t *talk, size_t talk_len, uint8_t *frame)
{
    size_t at = 0;
    for (uint64_t skip = below(15); skip > 0; skip--)
        at += karramotx_read(talk + at, talk_len - at).used;
    size_t len = karramotx_read(talk + at, talk_len - at).used;
    memcpy(frame, talk + at, len);
    return len;
}

/* A frame, now and then with a statement in parts or padded, more often whole than damaged. */
static size_t some_frame(const uint8_t *talk, size_t talk_len, uint8_t *frame, size_t room)
{
    size_t len = below(200) == 0 ? spoken_frame(talk, talk_len, frame) : drafted_frame(frame, room);
    if (below(8) == 0)
        len = parted(frame, len);
    if (below(8) == 0)
        len = padded(frame, len);
    for (uint64_t times = below(8); times > 5; times--)
        len = damaged(frame, len);
    return len;
}

static struct karramotx_report any_report(void)
{
    static const uint64_t edges[] = {0, 1, 2, 5, 4096, 4097, 65535, 65536, UINT32_MAX, UINT32_MAX + 1ull, UINT64_MAX};
    size_t n = sizeof edges / sizeof edges[0];
    return (struct karramotx_report){.kind = below(6),
                                     .placeholders = edges[below(n)],
                                     .columns = edges[below(n)],
                                     .rows = edges[below(n)],
                                     .code = edges[below(n)]};
}

/* The report that the work wants, with small numbers; or any. */
static struct karramotx_report some_report(struct karramotx_look look)
{
    static const uint64_t wanted[] = {0, 1, 2, 2, 3};
    if (below(4) == 0)
        return any_report();
    return (struct karramotx_report){.kind = wanted[look.work % 5], .columns = 1, .rows = below(9)};
}

static struct {
    uint8_t before[GUARD];
    struct karramotx_session session;
    uint8_t after[GUARD];
} host;

/* Frame and reply end here; the client's frames; how often each reason was met; and how many steps said padded. */
static uint8_t *frame_end, *reply_end;
static uint8_t talk[ROOM / 2];
static size_t talk_len;
static uint64_t met[KARRAMOTX_BODY_TWICE + 1], met_padded;

/* The places of results that a host keeps, as bits; it goes by what it is told alone. */
static uint64_t kept_results;

static void settle(const struct karramotx_inspection *told, struct karramotx_answer answer)
{
    if (answer.reason != KARRAMOTX_ACCEPTED)
        return;
    kept_results &= ~told->ends;
    if (told->message.kind == KARRAMOTX_CURSOR_OPEN)
        kept_results |= 1ull << told->cursor_place;
}

static void begin_fresh(void)
{
    host.session = karramotx_fresh();
    kept_results = 0;
}

/* A frame refused 1 to 6 is not said to be padded; otherwise a step says what the look says. */
static bool padding_agrees(struct karramotx_look look, struct karramotx_answer answer)
{
    bool unread = KARRAMOTX_NOT_ALL_THERE <= answer.reason && answer.reason <= KARRAMOTX_BAD_PAYLOAD;
    bool same = answer.padded == look.padded || answer.reason == KARRAMOTX_NO_ROOM;
    met_padded += answer.padded;
    return same && !(unread && answer.padded);
}

/* One step at the guarded places. Answers whether all but the session is as it must be after it. */
static bool survives(const uint8_t *bytes, size_t len)
{
    size_t room = below(8) == 0 ? below(KARRAMOTX_MIN_REPLY) : KARRAMOTX_MIN_REPLY + below(MAX_REPLY - 127);
    uint8_t *frame = frame_end - len;
    uint8_t *reply = reply_end - room;
    memcpy(frame, bytes, len);
    memset(reply - GUARD, UNTOUCHED, room + GUARD);
    struct karramotx_session before = host.session;
    struct karramotx_inspection told = karramotx_inspect(&host.session, frame, len);
    bool looked = inspection_agrees(&told, &host.session, frame, len) &&
                  memcmp(&host.session, &before, sizeof before) == 0;
    struct karramotx_answer answer = karramotx_step(&host.session, frame, len, some_report(told.look), reply, room);
    met[answer.reason]++;
    settle(&told, answer);
    bool kept = answer.reason == KARRAMOTX_ACCEPTED || memcmp(&host.session, &before, sizeof before) == 0;
    return looked && kept && padding_agrees(told.look, answer) && memcmp(frame, bytes, len) == 0 &&
           answer.used <= len && answer.reply <= room && untouched(reply - GUARD, GUARD) &&
           untouched(reply + answer.reply, room - answer.reply) && untouched(host.before, GUARD) &&
           untouched(host.after, GUARD);
}

/* Words of every kind where a session should be: small numbers, so that ids are met, and edges. */
static struct karramotx_session wild_session(void)
{
    static const uint32_t edges[] = {0, 1, 2, 256, 65536, INT32_MAX, 1u << 31, UINT32_MAX};
    uint32_t words[sizeof(struct karramotx_session) / sizeof(uint32_t)];
    struct karramotx_session session;
    for (size_t i = 0; i < sizeof words / sizeof words[0]; i++)
        words[i] = below(4) == 0 ? edges[below(sizeof edges / sizeof edges[0])] : (uint32_t)below(80);
    memcpy(&session, words, sizeof session);
    session.closed = below(8) == 0 ? session.closed : 0;
    return session;
}

/* What a session counts, by hand. */
static bool counts_agree(const struct karramotx_session *s)
{
    struct karramotx_counts found = karramotx_counts(s), counted = {0};
    for (size_t i = 0; i < KARRAMOTX_MAX_STMTS; i++)
        counted.stmts += s->stmts[i].live != 0;
    for (size_t i = 0; i < KARRAMOTX_MAX_CURSORS; i++) {
        struct karramotx_cursor x = s->cursors[i];
        counted.cursors += x.live != 0;
        counted.owed += x.live != 0 && x.rows > x.sent ? x.rows - x.sent : 0;
    }
    return found.stmts == counted.stmts && found.cursors == counted.cursors && found.owed == counted.owed;
}

/* Steps from a fresh session on, or `wild` from any words. */
static bool steps_survive(uint64_t steps, bool wild)
{
    static uint8_t bytes[ROOM / 2 + SPARE];
    memset(met, 0, sizeof met);
    met_padded = 0;
    begin_fresh();
    for (uint64_t n = 0; n < steps; n++) {
        if (wild && n % 8 == 0)
            host.session = wild_session();
        else if (host.session.closed && below(4) == 0)
            begin_fresh();
        size_t len = some_frame(talk, talk_len, bytes, sizeof bytes - SPARE);
        bool good = survives(bytes, len) && counts_agree(&host.session);
        bool sound = session_is_sound(&host.session) && kept_results == live_cursors(&host.session);
        good = good && (n % IMAGE_EVERY != 0 || images_survive(&host.session, !wild));
        if (!good || (!wild && !sound)) {
            fprintf(stderr, "survive: step %" PRIu64 " left something behind\n", n);
            return false;
        }
    }
    printf("survived %" PRIu64 " steps%s; by reason:", steps, wild ? " on sessions of any bits" : "");
    for (size_t i = 0; i < sizeof met / sizeof met[0]; i++)
        printf(" %zu:%" PRIu64, i, met[i]);
    printf("; padded: %" PRIu64 "\n", met_padded);
    images_print();
    return true;
}

int main(int argc, char **argv)
{
    uint64_t steps = argc > 1 ? strtoull(argv[1], NULL, 10) : 1000000;
    talk_len = client_conversation(talk, sizeof talk);
    frame_end = guarded_end(ROOM);
    reply_end = guarded_end(ROOM);
    memset(&host, UNTOUCHED, sizeof host);
    return steps_survive(steps, false) && steps_survive(steps, true) && cuts_survive(steps) ? 0 : 1;
}
