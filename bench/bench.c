/* Nanoseconds of the library and of the same rules in plain C, and their ratio; for reading also those of
 * libprotobuf and nanopb, where they are installed. Before a line is measured, all sides run it and their
 * answers are compared. Arguments: none, or the start of the lines wanted; `perf NAME` runs one line's
 * library side for some seconds; `names` prints the lines; `count NAME SIDE` (plain, library or neither)
 * runs it some times, for a tool that counts instructions; `frames NAME` tells how many frames these runs have. */
#include <stdio.h>
#include <stdlib.h>
#include <string.h>

#include "compare.h"
#include "lines.h"
#include "measure.h"
#include "others.h"
#include "plain_image.h"

/* ---- agreement */

static void stop(const Line *line, const char *what)
{
    if (!what)
        return;
    printf("%s: the sides differ in %s\n", line->name, what);
    exit(1);
}

/* The session's image is the line's, and is read over another session. */
static const char *differ_in_image(const Line *line)
{
    const Frame *f = &line->event.frame;
    Session plain = line_at(0)->plain_session;
    LibrarySession library = line_at(0)->library_session;
    uint32_t reason;
    const char *what = differ_restoring(&plain, &library, f->bytes, f->len, &reason);
    if (!what && reason != ACCEPTED)
        what = "nothing, but refuse the image";
    if (!what)
        what = differ_writing(&line->plain_session, &line->library_session, MAX_IMAGE);
    uint8_t image[MAX_IMAGE];
    size_t len = plain_image(&line->plain_session, image, sizeof image);
    return what || (len == f->len && !memcmp(image, f->bytes, len)) ? what : "the image from the line's own";
}

static void compare(Line *line)
{
    const Frame *f = &line->event.frame;
    Session plain = line->plain_session;
    LibrarySession library = line->library_session;
    Answer a;
    stop(line, differ_reading(f->bytes, f->len));
    stop(line, differ_stepping(&plain, &library, f->bytes, f->len, &line->event.report, MIN_REPLY, &a));
    if (line->image)
        stop(line, differ_in_image(line));
    if (line->stream && !stream_agrees(line->stream))
        stop(line, "the frames handed out");
    if (line->plain == plain_night)
        stop(line, differ_by_night());
}

/* What another library's reader should answer. */
static uint64_t sum_of(const Line *line)
{
    const uint8_t *s = line->event.frame.bytes;
    Message m;
    Value v;
    plain_read(s, line->event.frame.len, &m);
    uint64_t sum = (uint64_t)m.stmt + m.cursor + m.rows;
    if (m.kind == PREPARE) {
        /* the bench's own Prepares carry their text alone: a tag, its length, the text */
        size_t head = m.body.len < 130 ? 2 : m.body.len < 16387 ? 3 : 4;
        return sum + m.body.len - head;
    }
    for (size_t at = m.args.start; at < m.args.end; at = v.next) {
        plain_next_argument(s, m.args.end, at, &v);
        if (v.reason != ACCEPTED)
            break;
        sum += 1 + v.value + v.len;
    }
    return sum;
}

/* ---- printing */

static void print_other(Reader reader, const Line *line, double library)
{
    if (!reader || !line->others || read_by(reader, line) == UINT64_MAX) {
        printf(" %12s %7s", "-", "-");
        return;
    }
    if (read_by(reader, line) != sum_of(line))
        stop(line, "what another library reads");
    double other = measure_reader(reader, line);
    printf(" %12.1f %7.2f", other, library / other);
}

static void print_line(Line *line)
{
    compare(line);
    Times t = measure(line);
    printf("%-38s %11.1f %11.1f %6.2f  %5.2f to %5.2f", line->name, t.plain, t.library, t.ratio, t.least, t.most);
#ifdef HAVE_PROTOBUF
    print_other(protobuf_read, line, t.library);
#else
    print_other(NULL, line, t.library);
#endif
#ifdef HAVE_NANOPB
    print_other(nanopb_read, line, t.library);
#else
    print_other(NULL, line, t.library);
#endif
    printf("\n");
    fflush(stdout);
}

static void print_lines(const char *start)
{
    printf("%-38s %11s %11s %6s  %14s %12s %7s %12s %7s\n", "", "plain ns", "library ns", "ratio", "range",
           "libprotobuf", "ratio", "nanopb", "ratio");
    for (size_t i = 0; i < line_count(); i++)
        if (starts_with(line_at(i)->name, start))
            print_line(line_at(i));
}

int main(int argc, char **argv)
{
    const char *what = argc > 1 ? argv[1] : "", *name = argc > 2 ? argv[2] : "";
    make_lines();
    if (argc == 3 && !strcmp(what, "perf")) {
        run_for_long(line_named(name));
    } else if (argc == 4 && !strcmp(what, "count")) {
        Line *line = line_named(name);
        if (!strcmp(argv[3], "plain"))
            run_plain(line, counted_runs(line));
        else if (!strcmp(argv[3], "library"))
            run_library(line, counted_runs(line));
    } else if (argc == 3 && !strcmp(what, "frames")) {
        printf("%zu\n", counted_runs(line_named(name)) * frames_of(line_named(name)));
    } else if (argc == 2 && !strcmp(what, "names")) {
        for (size_t i = 0; i < line_count(); i++)
            printf("%s\n", line_at(i)->name);
    } else {
        print_lines(what);
    }
    return 0;
}
