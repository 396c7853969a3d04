/* The copies that the library makes, for bench/copies, which links this so that memcpy and memmove come here. */
#include <stdio.h>
#include <stdlib.h>

#include "frames.h"
#include "library.h"

enum { MOST = 32 };

typedef struct {
    unsigned calls;
    size_t lengths[MOST];
} Copies;

/* What has been counted, while `counting`: the program's own copies are left out. */
static Copies copies;
static bool counting;

void *__real_memcpy(void *to, const void *from, size_t len);
void *__real_memmove(void *to, const void *from, size_t len);
void *__wrap_memcpy(void *to, const void *from, size_t len);
void *__wrap_memmove(void *to, const void *from, size_t len);

static void count(size_t len)
{
    if (!counting)
        return;
    if (copies.calls == MOST) {
        printf("more than %d copies\n", MOST);
        exit(1);
    }
    copies.lengths[copies.calls++] = len;
}

void *__wrap_memcpy(void *to, const void *from, size_t len)
{
    count(len);
    return __real_memcpy(to, from, len);
}

void *__wrap_memmove(void *to, const void *from, size_t len)
{
    count(len);
    return __real_memmove(to, from, len);
}

/* ---- what is counted */

static LibrarySession session;

static Copies copies_of_look(const Frame *f)
{
    copies.calls = 0;
    counting = true;
    library_look(&session, f->bytes, f->len);
    counting = false;
    return copies;
}

static Copies copies_of_step(const Frame *f, const Report *report, uint32_t reason)
{
    LibraryReport form = library_report(report);
    uint8_t reply[MIN_REPLY];
    copies.calls = 0;
    counting = true;
    Answer a = library_step(&session, f->bytes, f->len, &form, reply, sizeof reply);
    counting = false;
    if (a.reason != reason) {
        printf("a step was answered %u instead of %u\n", a.reason, reason);
        exit(1);
    }
    return copies;
}

static void print_copies(const char *name, const char *what, const Copies *c)
{
    size_t bytes = 0;
    for (unsigned i = 0; i < c->calls; i++)
        bytes += c->lengths[i];
    printf("%-24s %4s %6u %7zu   ", name, what, c->calls, bytes);
    for (unsigned i = 0; i < c->calls; i++)
        printf(" %zu", c->lengths[i]);
    printf("\n");
}

static void try(const char *name, const Frame *f, const Report *report, uint32_t reason)
{
    Copies look = copies_of_look(f), step = copies_of_step(f, report, reason);
    print_copies(name, "step", &step);
    print_copies("", "look", &look);
}

int main(void)
{
    static Frame f;
    const Report none = {.kind = REPORT_NONE}, prepared = {.kind = REPORT_PREPARED}, done = {.kind = REPORT_DONE},
                 result = {.kind = REPORT_RESULT, .columns = 7, .rows = 60000},
                 failed = {.kind = REPORT_FAILED, .code = 1};
    library_fresh(&session);
    printf("a session has %zu bytes\n%-24s %4s %6s %7s    %s\n", sizeof session, "", "", "copies", "bytes", "each");
    prepare_frame(&f, 1, 120, 0, NULL);
    try("Prepare, a new id", &f, &prepared, ACCEPTED);
    try("Prepare, an id in use", &f, &prepared, ACCEPTED);
    open_frame(&f, 1, 1, 1, 300);
    try("Open, a new id", &f, &result, ACCEPTED);
    try("Open, an id in use", &f, &result, ACCEPTED);
    try("Open, refused 16", &f, &failed, ENGINE_FAILED);
    fetch_frame(&f, 1, 300);
    try("Fetch", &f, &done, ACCEPTED);
    fetch_frame(&f, 99, 300);
    try("Fetch, refused 10", &f, &done, NO_CURSOR);
    execute_frame(&f, 1, 4);
    try("Execute, 4 arguments", &f, &result, ACCEPTED);
    open_frame(&f, 1, 1, 1, 300);
    copies_of_step(&f, &result, ACCEPTED);
    id_frame(&f, CLOSE, 1);
    try("Close", &f, &none, ACCEPTED);
    id_frame(&f, DEALLOCATE, 1);
    try("Deallocate", &f, &none, ACCEPTED);
    try("Deallocate, refused 7", &f, &none, NO_STMT);
    start(&f, RESET);
    finish(&f);
    try("Reset", &f, &none, ACCEPTED);
    start(&f, SESS_CLOSE);
    finish(&f);
    try("Session close", &f, &none, ACCEPTED);
    try("Session close, refused 4", &f, &none, CLOSED);
    return 0;
}
