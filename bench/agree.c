/* The plain C side against the library on random steps: what a frame holds, its arguments, the look, the answer, the
 * reply and the session after it; each says also whether a varint was padded. Between them images are written and read,
 * of the sessions met and of any, whole and damaged. Ends at the first difference. Arguments: how many steps, and a
 * seed. */
#include <stdio.h>
#include <stdlib.h>
#include <string.h>

#include "compare.h"
#include "frames.h"
#include "random.h"
#include "random_frames.h"
#include "random_images.h"

/* Steps for one that images follow. */
enum { IMAGES = 8 };

static Session plain;
static LibrarySession library;
/* How often each reason was met, and how often with a padded frame. */
static uint64_t seed, steps, met[REASONS], padded[REASONS];
/* Images written, and read: accepted and refused. */
static uint64_t images, restored, refused;

static void fail(const char *what, const uint8_t *frame, size_t len, const Report *r, size_t reply_len)
{
    printf("seed %lu, step %lu: the plain C side and the library differ in %s\n", seed, steps, what);
    printf("report %lu %lu %lu %lu %lu, a reply of %zu bytes, a frame of %zu:", r->kind, r->placeholders, r->columns,
           r->rows, r->code, reply_len, len);
    for (size_t i = 0; i < len; i++)
        printf(" %02x", frame[i]);
    printf("\n");
    exit(1);
}

/* The frame goes into memory of its own length, so that a tool sees a read behind it. */
static Answer step_both(const Frame *f, size_t len, const Report *report, size_t reply_len)
{
    uint8_t *frame = malloc(len + !len);
    const char *what;
    Answer answer;
    if (!frame)
        exit(1);
    memcpy(frame, f->bytes, len);
    what = differ_reading(frame, len);
    if (!what)
        what = differ_stepping(&plain, &library, frame, len, report, reply_len, &answer);
    if (what)
        fail(what, frame, len, report, reply_len);
    free(frame);
    met[answer.reason]++;
    padded[answer.reason] += answer.padded;
    steps++;
    return answer;
}

/* Tables that are full or nearly so. */
static void fill_tables(void)
{
    static Frame f;
    Report prepared = {.kind = REPORT_PREPARED}, result = {.kind = REPORT_RESULT, .columns = 1, .rows = 9};
    uint32_t stmts = MAX_STMTS - pick(2), cursors = MAX_CURSORS - pick(2);
    for (uint32_t id = 0; id < stmts; id++) {
        prepare_frame(&f, id, 3, 0, NULL);
        step_both(&f, f.len, &prepared, MIN_REPLY);
    }
    for (uint32_t id = 0; id < cursors; id++) {
        open_frame(&f, id, id, 0, pick(5));
        step_both(&f, f.len, &result, MIN_REPLY);
    }
}

static void begin_session(void)
{
    static const uint32_t ranges[] = {3, 5, MAX_CURSORS + 2, MAX_STMTS + 6};
    plain_fresh(&plain);
    library_fresh(&library);
    random_ids(ranges[pick(4)]);
    if (one_in(2)) {
        random_ids(pick(2) ? MAX_CURSORS + 2 : MAX_STMTS + 16);
        fill_tables();
    }
}

static void random_step(void)
{
    static Frame f;
    Report report;
    random_frame(&f);
    size_t len = f.len, reply_len = one_in(60) ? pick(MIN_REPLY) : MIN_REPLY + pick(2);
    /* some come short, some with bytes behind them */
    if (one_in(40))
        len = pick((uint32_t)f.len);
    else if (one_in(10))
        for (uint32_t more = pick(8); more > 0; more--)
            f.bytes[len++] = (uint8_t)pick(256);
    random_report(&report, plain_look(&plain, f.bytes, len).work);
    step_both(&f, len, &report, reply_len);
}

/* ---- images */

static void fail_image(const char *what, const uint8_t *image, size_t len)
{
    printf("seed %lu, step %lu: the plain C side and the library differ in %s\n", seed, steps, what);
    printf("an image of %zu bytes:", len);
    for (size_t i = 0; i < len; i++)
        printf(" %02x", image[i]);
    printf("\n");
    exit(1);
}

/* In a buffer that any fits, one that it just fits, one byte less, and any. */
static size_t write_both(const Session *p, const LibrarySession *l, uint8_t *image)
{
    size_t len = plain_image(p, image, MAX_IMAGE);
    const size_t rooms[] = {MAX_IMAGE, len, len - 1, pick(MAX_IMAGE)};
    for (size_t i = 0; i < sizeof rooms / sizeof *rooms; i++) {
        const char *what = differ_writing(p, l, rooms[i]);
        if (what)
            fail_image(what, image, len);
    }
    images++;
    return len;
}

/* The image goes into memory of its own length, so that a tool sees a read behind it. */
static uint32_t restore_both(Session *p, LibrarySession *l, const uint8_t *bytes, size_t len)
{
    uint8_t *image = malloc(len + !len);
    uint32_t reason;
    if (!image)
        exit(1);
    memcpy(image, bytes, len);
    const char *what = differ_restoring(p, l, image, len, &reason);
    if (what)
        fail_image(what, image, len);
    free(image);
    restored += reason == ACCEPTED;
    refused += reason != ACCEPTED;
    return reason;
}

/* Of the session met, of any session, and of none; damaged more than once. Each is read over the session met. */
static void random_images(void)
{
    static uint8_t image[IMAGE_ROOM];
    Session p, any;
    LibrarySession l, any_library;
    size_t len = write_both(&plain, &library, image);
    if (restore_both(&plain, &library, image, len) != ACCEPTED)
        fail_image("nothing, but refuse the image of a session", image, len);
    random_session(&any);
    library_of(&any_library, &any);
    if (one_in(4))
        len = write_both(&any, &any_library, image);
    else if (one_in(4))
        len = random_image(image);
    for (uint32_t times = 4; times > 0; times--) {
        p = plain;
        l = library;
        restore_both(&p, &l, image, len);
        len = damage_image(image, len);
    }
}

/* All that can be answered was. */
static bool all_met(void)
{
    for (int i = 0; i < REASONS; i++) {
        if (met[i] == 0) {
            printf("but reason %d was never met\n", i);
            return false;
        }
        if (padded[i] == 0 && (i == ACCEPTED || i > BAD_PAYLOAD)) {
            printf("but reason %d was never met with a padded frame\n", i);
            return false;
        }
    }
    if (restored == 0 || refused == 0) {
        printf("but images were never accepted or never refused\n");
        return false;
    }
    return true;
}

int main(int argc, char **argv)
{
    uint64_t wanted = argc > 1 ? strtoull(argv[1], NULL, 10) : 300000;
    seed = argc > 2 ? strtoull(argv[2], NULL, 10) : 4711;
    random_seed(seed);
    begin_session();
    while (steps < wanted) {
        random_step();
        if (one_in(IMAGES))
            random_images();
        if (one_in(500) || (plain.closed && one_in(4)))
            begin_session();
    }
    printf("plain C and the library agree on %lu steps; refused 0 to %d:", steps, REASONS - 1);
    for (int i = 0; i < REASONS; i++)
        printf(" %lu", met[i]);
    printf("; of them padded:");
    for (int i = 0; i < REASONS; i++)
        printf(" %lu", padded[i]);
    printf("\nand on %lu images written, %lu read and %lu refused\n", images, restored, refused);
    return all_met() ? 0 : 1;
}
