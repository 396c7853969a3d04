/* One line of the benchmark: a frame or an image, and what each side does with it once. */
#ifndef LINE_H
#define LINE_H

#include "arrivals.h"
#include "frames.h"
#include "library.h"
#include "plain.h"

/* A frame and what the engine reports of it. */
typedef struct {
    Frame frame;
    Report report;
    LibraryReport library_report;
} Event;

typedef struct Line Line;

/* What is answered is summed up, so that no compiler leaves it out. */
typedef uint64_t (*Side)(Line *line);

struct Line {
    const char *name;
    Side plain, library;
    Event event;
    Session plain_session;
    LibrarySession library_session;
    bool others;      /* whether other libraries read the frame too, arguments and all */
    bool image;       /* whether the frame is none but the image of the session */
    Stream *stream;   /* where frames arrive; the figures are then of one of its frames */
};

void set_report(Event *event, Report report);

/* What a line can do; the library's are in library.c. Every step can be repeated on the session that it leaves. */
uint64_t plain_reads(Line *line);
uint64_t plain_args(Line *line);
uint64_t plain_looks(Line *line);
uint64_t plain_inspects(Line *line);
uint64_t plain_steps(Line *line);
uint64_t plain_writes_image(Line *line);
uint64_t plain_reads_image(Line *line);
uint64_t plain_night(Line *line);
uint64_t plain_arrives(Line *line);
uint64_t library_reads(Line *line);
uint64_t library_args(Line *line);
uint64_t library_looks(Line *line);
uint64_t library_inspects(Line *line);
uint64_t library_steps(Line *line);
uint64_t library_writes_image(Line *line);
uint64_t library_reads_image(Line *line);
uint64_t library_night(Line *line);
uint64_t library_arrives(Line *line);

/* What the sides differ in during the night, or NULL. */
const char *differ_by_night(void);

/* Steps on a list of events, from a fresh session on. */
uint64_t plain_plays(const Event *const *events, size_t count);
uint64_t library_plays(const Event *const *events, size_t count);

#endif
