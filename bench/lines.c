#include "lines.h"

#include <stdio.h>
#include <stdlib.h>
#include <string.h>

#include "odd_frames.h"
#include "plain_image.h"

/* The session of every line but the images: all places are taken, and what a line asks for stands in the middle. Its
 * ids do not depend on the limits, so that the frames are the same at any; all other ids count from OTHERS on. An id
 * is one byte long in a frame, or as many as the number at the end of its name says. */
enum { CURSOR = 8, OPENED = 32, EXECUTED, REPLACED, NOT_LIVE = 99, OTHERS = 1000 };
enum { CURSOR_2 = 208, OPENED_2 = 232, REPLACED_2 = 234, NOT_LIVE_2 = 299, CURSOR_5 = 0x10000008 };
enum { NULLS = 8190, OBJECTS = 16377, EMPTY_STRINGS = 5460, EMPTY_PARTS = 20000, SCALARS_AGAIN = 4000 };
enum { TYPE_PARTS = 16000, SCALARS_IN_PARTS = 5000 };

static const Report none = {.kind = REPORT_NONE}, done = {.kind = REPORT_DONE}, prepared = {.kind = REPORT_PREPARED},
                    result = {.kind = REPORT_RESULT, .columns = 7, .rows = 60000};

static Line lines[96];
static size_t count;

static Line *add(const char *name, Side plain, Side library, Report report)
{
    Line *l = &lines[count++];
    l->name = name;
    l->plain = plain;
    l->library = library;
    set_report(&l->event, report);
    return l;
}

static Frame *reading(const char *name, bool others)
{
    Line *l = add(name, plain_reads, library_reads, none);
    l->others = others;
    return &l->event.frame;
}

static Frame *arguments(const char *name)
{
    Line *l = add(name, plain_args, library_args, none);
    l->others = true;
    return &l->event.frame;
}

static Frame *looking(const char *name)
{
    return &add(name, plain_looks, library_looks, none)->event.frame;
}

static Frame *inspecting(const char *name)
{
    return &add(name, plain_inspects, library_inspects, none)->event.frame;
}

static Frame *stepping(const char *name, Report report)
{
    return &add(name, plain_steps, library_steps, report)->event.frame;
}

static void no_session(const Line *line)
{
    printf("%s: its session cannot be made\n", line->name);
    exit(1);
}

/* ---- the list */

static void add_reading(void)
{
    fetch_frame(reading("read Fetch", true), 1, 300);
    prepare_frame(reading("read Prepare, 120 bytes of SQL", true), 1, 120, 0, NULL);
    execute_frame(reading("read Execute, 4 arguments", false), 2, 4);
    execute_frame(arguments("args Execute, 4 arguments"), 2, 4);
    open_frame(reading("read Open", true), 1, 1, 0, 300);
    execute_frame(reading("read Execute, 2000 arguments", false), 2, 2000);
    execute_frame(arguments("args Execute, 2000 arguments"), 2, 2000);
    repeat_frame(reading("read Execute, 8190 nulls", false), 2, NULLS, put_null);
    repeat_frame(arguments("args Execute, 8190 nulls"), 2, NULLS, put_null);
    repeat_frame(reading("read Execute, 5460 empty strings", false), 2, EMPTY_STRINGS, put_empty_string);
    repeat_frame(arguments("args Execute, 5460 empty strings"), 2, EMPTY_STRINGS, put_empty_string);
    prepare_frame(reading("read Prepare, 60 KB of SQL", true), 1, 60000, 0, NULL);
    prepare_frame(reading("read Prepare, 16377 objects", false), 1, 1, OBJECTS, put_object);
    find_frame(reading("read Prepare, find of 60 KB", false), 1, 60000);
    prepare_again(reading("read Prepare, 20000 empty statements first", false), 1, EMPTY_PARTS);
    repeat_frame(reading("read Execute, 4000 scalars that come twice", false), 2, SCALARS_AGAIN, put_scalar_again);
    prepare_in_parts(reading("read Prepare, statement in 16000 parts", false), 1, TYPE_PARTS);
    repeat_frame(reading("read Execute, 5000 scalars in two parts", false), 2, SCALARS_IN_PARTS, put_scalar_in_parts);
    repeat_frame(arguments("args Execute, 5000 scalars in two parts"), 2, SCALARS_IN_PARTS, put_scalar_in_parts);
    open_in_parts(reading("read Open, type and Execute apart", true), 1, 1, 0, 300);
    reset_with(reading("read Reset, groups 32 deep, 60 KB", true), unknown_groups, 60000);
    reset_with(reading("read Reset, groups 32 deep, 64 bytes", true), unknown_groups, 60);
    reset_with(reading("read Reset, fields of 2 bytes, 65 KB", false), tiny_fields, MAX_FRAME);
    reset_with(reading("read Reset, padded varints, 65 KB", false), padded_numbers, MAX_FRAME);
    reset_with(reading("read Reset, padded tags, 65 KB", false), padded_tags, MAX_FRAME);
}

static void add_looking(void)
{
    fetch_frame(looking("look Fetch"), CURSOR, 300);
    prepare_frame(looking("look Prepare, 120 bytes of SQL"), REPLACED, 120, 0, NULL);
    execute_frame(looking("look Execute, 4 arguments"), EXECUTED, 4);
    open_frame(looking("look Open, 1 argument"), CURSOR, OPENED, 1, 300);
    open_in_parts(looking("look Open, type and Execute apart"), CURSOR, OPENED, 1, 300);
    fetch_frame(inspecting("inspect Fetch"), CURSOR, 300);
    open_frame(inspecting("inspect Open, 1 argument"), CURSOR, OPENED, 1, 300);
}

static void add_small_steps(void)
{
    fetch_frame(stepping("step Fetch", done), CURSOR, 1);
    prepare_frame(stepping("step Prepare, 120 bytes of SQL", prepared), REPLACED, 120, 0, NULL);
    execute_frame(stepping("step Execute, 4 arguments", result), EXECUTED, 4);
    open_frame(stepping("step Open, 1 argument", result), CURSOR, OPENED, 1, 300);
    open_in_parts(stepping("step Open, type and Execute apart", result), CURSOR, OPENED, 1, 300);
    fetch_frame(stepping("step Fetch, refused 10", done), NOT_LIVE, 1);
    id_frame(stepping("step Deallocate, refused 7", none), DEALLOCATE, NOT_LIVE);
    fetch_with(stepping("step Fetch, groups 32 deep", done), CURSOR, unknown_groups, 20);
    fetch_padded_numbers(stepping("step Fetch, padded varints", done), CURSOR);
    fetch_padded_tags(stepping("step Fetch, padded tags", done), CURSOR);
}

/* The same frames with longer ids, as a server has them that counts its ids up. */
static void add_longer_ids(void)
{
    fetch_frame(reading("read Fetch, id of 2 bytes", true), CURSOR_2, 300);
    fetch_frame(looking("look Fetch, id of 2 bytes"), CURSOR_2, 300);
    open_frame(looking("look Open, ids of 2 bytes"), CURSOR_2, OPENED_2, 1, 300);
    fetch_frame(inspecting("inspect Fetch, id of 2 bytes"), CURSOR_2, 300);
    open_frame(inspecting("inspect Open, ids of 2 bytes"), CURSOR_2, OPENED_2, 1, 300);
    fetch_frame(stepping("step Fetch, id of 2 bytes", done), CURSOR_2, 1);
    fetch_frame(stepping("step Fetch, id of 5 bytes", done), CURSOR_5, 1);
    fetch_frame(stepping("step Fetch, refused 10, id of 2 bytes", done), NOT_LIVE_2, 1);
    prepare_frame(stepping("step Prepare, id of 2 bytes", prepared), REPLACED_2, 120, 0, NULL);
    open_frame(stepping("step Open, ids of 2 bytes", result), CURSOR_2, OPENED_2, 1, 300);
}

static void add_long_steps(void)
{
    execute_frame(stepping("step Execute, 2000 arguments", result), EXECUTED, 2000);
    repeat_frame(stepping("step Execute, 8190 nulls", result), EXECUTED, NULLS, put_null);
    repeat_frame(stepping("step Execute, 5460 empty strings", result), EXECUTED, EMPTY_STRINGS, put_empty_string);
    prepare_frame(stepping("step Prepare, 60 KB of SQL", prepared), REPLACED, 60000, 0, NULL);
    prepare_frame(stepping("step Prepare, 16377 objects", prepared), REPLACED, 1, OBJECTS, put_object);
    find_frame(stepping("step Prepare, find of 60 KB", prepared), REPLACED, 60000);
    fetch_with(stepping("step Fetch, fields of 2 bytes, 65 KB", done), CURSOR, tiny_fields, MAX_FRAME);
    fetch_with(stepping("step Fetch, padded varints, 65 KB", done), CURSOR, padded_numbers, MAX_FRAME);
    fetch_with(stepping("step Fetch, padded tags, 65 KB", done), CURSOR, padded_tags, MAX_FRAME);
    fetch_frame(&add("step changeover night, 40 x 204 steps", plain_night, library_night, done)->event.frame, CURSOR,
                300);
}

/* ---- frames as they arrive */

static void add_to_stream(Line *line, size_t len)
{
    if (line->event.frame.len != len) {
        printf("%s: a frame has another length\n", line->name);
        exit(1);
    }
    stream_add(line->stream, line->event.frame.bytes, len);
}

/* Fetches. There are as many as an arrival has bytes, so that they end with an arrival. */
static void small_frames(Line *line)
{
    /* a cursor id and rows of two bytes each make a frame so long */
    enum { SMALL = 11, FIRST_CURSOR = 128, ROWS = 300 };
    static Stream stream;
    line->stream = &stream;
    for (unsigned i = 0; i < ARRIVAL; i++) {
        fetch_frame(&line->event.frame, FIRST_CURSOR + i, ROWS);
        add_to_stream(line, SMALL);
    }
    stream_finish(&stream);
}

/* One Prepare, over and over. */
static void long_frames(Line *line)
{
    enum { LONG = 61440, AROUND_SQL = 21 };
    static Stream stream;
    line->stream = &stream;
    prepare_frame(&line->event.frame, 1, LONG - AROUND_SQL, 0, NULL);
    add_to_stream(line, LONG);
    stream_finish(&stream);
}

/* ---- images */

/* A table's places from 0 on; of each the numbers behind its place. */
typedef struct {
    uint32_t stmts, cursors;
    uint32_t (*id)(uint32_t place);
    uint32_t placeholders, rows, sent;
} Shape;

static uint32_t counted_up(uint32_t place)
{
    return 1 + place;
}

/* Ids of five bytes that neither rise nor fall. */
static uint32_t scattered(uint32_t place)
{
    return 1u << 31 | place * 0x85ebca6bu;
}

/* The line's frame is the image, and its session, which both sides read from it, is of its own. */
static void image_line(const char *name, Side plain, Side library, const Shape *shape)
{
    Line *l = add(name, plain, library, none);
    Frame *f = &l->event.frame;
    l->image = true;
    put_number(f, 1);
    put_number(f, 0);
    put_number(f, shape->stmts);
    for (uint32_t place = 0; place < shape->stmts; place++) {
        put_number(f, place);
        put_number(f, shape->id(place));
        put_number(f, shape->placeholders);
    }
    put_number(f, shape->cursors);
    for (uint32_t place = 0; place < shape->cursors; place++) {
        put_number(f, place);
        put_number(f, shape->id(place));
        put_number(f, shape->id(place * (shape->stmts / shape->cursors)));
        put_number(f, shape->rows);
        put_number(f, shape->sent);
    }
    plain_fresh(&l->plain_session);
    library_fresh(&l->library_session);
    if (plain_restore(&l->plain_session, f->bytes, f->len) != ACCEPTED ||
        library_restore(&l->library_session, f->bytes, f->len) != ACCEPTED)
        no_session(l);
}

static void add_images(void)
{
    static const Shape full = {MAX_STMTS, MAX_CURSORS, scattered, MAX_PLACEHOLDERS, UINT32_MAX, UINT32_MAX / 2};
    static const Shape usual = {6, 2, counted_up, 2, 60000, 900};
    image_line("image write, full", plain_writes_image, library_writes_image, &full);
    image_line("image write, usual", plain_writes_image, library_writes_image, &usual);
    image_line("image read, full", plain_reads_image, library_reads_image, &full);
    image_line("image read, usual", plain_reads_image, library_reads_image, &usual);
}

/* ---- their session */

static void fill_step(Line *line, const Frame *f, Report report)
{
    LibraryReport form = library_report(&report);
    uint8_t reply[MIN_REPLY];
    Answer a;
    plain_step(&line->plain_session, f->bytes, f->len, &report, reply, sizeof reply, &a);
    Answer b = library_step(&line->library_session, f->bytes, f->len, &form, reply, sizeof reply);
    if (a.reason != ACCEPTED || b.reason != ACCEPTED)
        no_session(line);
}

static unsigned stmt_id(unsigned place)
{
    static const unsigned middle[] = {OPENED, EXECUTED, REPLACED, REPLACED_2, OPENED_2};
    unsigned i = place - (MAX_STMTS / 2 - 1);
    return i < sizeof middle / sizeof *middle ? middle[i] : OTHERS + place;
}

/* There is a cursor on every fourth statement, OPENED and OPENED_2 among them. */
static unsigned cursor_id(unsigned place)
{
    static const unsigned middle[] = {CURSOR, CURSOR_2, CURSOR_5};
    unsigned i = place - (MAX_CURSORS / 2 - 1);
    return i < sizeof middle / sizeof *middle ? middle[i] : OTHERS + place;
}

static void fill_session(Line *line)
{
    static Frame f;
    Report many = {.kind = REPORT_RESULT, .columns = 7, .rows = UINT32_MAX}, holes = prepared;
    plain_fresh(&line->plain_session);
    library_fresh(&line->library_session);
    for (unsigned place = 0; place < MAX_STMTS; place++) {
        unsigned id = stmt_id(place);
        prepare_frame(&f, id, 20, 0, NULL);
        holes.placeholders = id == OPENED || id == OPENED_2 ? 1 : id == EXECUTED ? 4 : 0;
        fill_step(line, &f, holes);
    }
    for (unsigned place = 0; place < MAX_CURSORS; place++) {
        open_frame(&f, cursor_id(place), stmt_id(4 * place + 3), 1, 0);
        fill_step(line, &f, many);
    }
}

void make_lines(void)
{
    add_reading();
    add_looking();
    add_small_steps();
    add_longer_ids();
    add_long_steps();
    small_frames(add("arrive frames of 11 bytes, per frame", plain_arrives, library_arrives, done));
    long_frames(add("arrive frames of 60 KB, per frame", plain_arrives, library_arrives, prepared));
    fill_session(&lines[0]);
    for (size_t i = 1; i < count; i++) {
        lines[i].plain_session = lines[0].plain_session;
        lines[i].library_session = lines[0].library_session;
    }
    add_images();
}

/* ---- for others */

size_t line_count(void)
{
    return count;
}

Line *line_at(size_t i)
{
    return &lines[i];
}

bool starts_with(const char *name, const char *start)
{
    return !strncmp(name, start, strlen(start));
}

Line *line_named(const char *name)
{
    for (size_t i = 0; i < count; i++)
        if (starts_with(lines[i].name, name))
            return &lines[i];
    printf("no line is named %s\n", name);
    exit(1);
}

size_t frames_of(const Line *line)
{
    return line->stream ? line->stream->frames : 1;
}

size_t counted_runs(const Line *line)
{
    enum { SHORT = 1024 };
    bool many_steps = line->plain == plain_night || line->stream;
    return many_steps || line->event.frame.len > SHORT ? 10 : 1000;
}
