/* The changeover night: 40 sessions; each prepares, opens, fetches 200 times 300 rows, closes and deallocates. */
#include "compare.h"
#include "line.h"

enum { SESSIONS = 40, FETCHES = 200, STEPS = SESSIONS * (FETCHES + 4) };

static const Event *night[STEPS];

static void make_night(void)
{
    static Event prepare, open, fetch, close, deallocate;
    size_t count = 0;
    prepare_frame(&prepare.frame, 1, 120, 0, NULL);
    open_frame(&open.frame, 1, 1, 0, 0);
    fetch_frame(&fetch.frame, 1, 300);
    id_frame(&close.frame, CLOSE, 1);
    id_frame(&deallocate.frame, DEALLOCATE, 1);
    set_report(&prepare, (Report){.kind = REPORT_PREPARED});
    set_report(&open, (Report){.kind = REPORT_RESULT, .columns = 7, .rows = 300 * FETCHES});
    set_report(&fetch, (Report){.kind = REPORT_DONE});
    for (int i = 0; i < SESSIONS; i++) {
        night[count++] = &prepare;
        night[count++] = &open;
        for (int k = 0; k < FETCHES; k++)
            night[count++] = &fetch;
        night[count++] = &close;
        night[count++] = &deallocate;
    }
}

static const Event *const *events(void)
{
    if (!night[0])
        make_night();
    return night;
}

uint64_t plain_night(Line *line)
{
    (void)line;
    return plain_plays(events(), STEPS);
}

uint64_t library_night(Line *line)
{
    (void)line;
    return library_plays(events(), STEPS);
}

const char *differ_by_night(void)
{
    Session plain;
    LibrarySession library;
    Answer answer;
    const char *what = NULL;
    plain_fresh(&plain);
    library_fresh(&library);
    for (size_t i = 0; i < STEPS && !what; i++) {
        const Event *e = events()[i];
        what = differ_stepping(&plain, &library, e->frame.bytes, e->frame.len, &e->report, MIN_REPLY, &answer);
    }
    return what;
}
