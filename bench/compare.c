#include "compare.h"

#include <string.h>

#include "plain_image.h"

/* What is left alone must show. */
enum { BEFORE = 0xa5 };

static bool same_part(Part a, Part b)
{
    return a.start == b.start && a.len == b.len;
}

static bool same_args(const Arguments *a, const Arguments *b)
{
    return a->count == b->count && a->kind == b->kind && a->index == b->index && a->start == b->start &&
           a->end == b->end;
}

static bool same_message(const Message *a, const Message *b)
{
    return a->reason == b->reason && a->used == b->used && a->kind == b->kind && a->stmt == b->stmt &&
           a->cursor == b->cursor && a->has_rows == b->has_rows && a->rows == b->rows &&
           a->has_compact == b->has_compact && a->compact == b->compact && a->operation == b->operation &&
           same_part(a->body, b->body) && same_args(&a->args, &b->args) && a->padded == b->padded;
}

static bool same_value(const Value *a, const Value *b)
{
    return a->reason == b->reason && a->kind == b->kind && a->value == b->value && a->start == b->start &&
           a->len == b->len && a->next == b->next;
}

static bool same_look(Look a, Look b)
{
    return a.reason == b.reason && a.work == b.work && a.padded == b.padded && a.first == b.first && a.count == b.count;
}

static bool same_inspection(const Inspection *a, const Inspection *b)
{
    return same_look(a->look, b->look) && same_message(&a->message, &b->message) && a->stmt_place == b->stmt_place &&
           a->cursor_place == b->cursor_place && a->ends == b->ends;
}

static bool same_answer(const Answer *a, const Answer *b)
{
    return a->reason == b->reason && a->used == b->used && a->reply == b->reply && a->columns == b->columns &&
           a->padded == b->padded && a->first == b->first && a->count == b->count;
}

const char *differ_reading(const uint8_t *frame, size_t len)
{
    Message a, b;
    Value v, w;
    plain_read(frame, len, &a);
    library_read(frame, len, &b);
    if (!same_message(&a, &b))
        return "the message";
    if (a.reason != ACCEPTED && !library_refuses(frame, len, a.reason))
        return "the body or the arguments of a refused frame";
    for (size_t at = a.args.start; at < a.args.end; at = v.next) {
        plain_next_argument(frame, a.args.end, at, &v);
        library_next_argument(frame, a.args.end, at, &w);
        if (!same_value(&v, &w))
            return "an argument";
        if (v.reason == FEW_ARGUMENTS)
            break;
    }
    return NULL;
}

const char *differ_stepping(Session *plain, LibrarySession *library, const uint8_t *frame, size_t len,
                            const Report *report, size_t reply_len, Answer *answer)
{
    uint8_t x[MIN_REPLY + 1], y[MIN_REPLY + 1];
    LibraryReport library_form = library_report(report);
    Inspection a, b;
    if (!same_look(plain_look(plain, frame, len), library_look(library, frame, len)))
        return "the look";
    plain_inspect(plain, frame, len, &a);
    library_inspect(library, frame, len, &b);
    if (!same_inspection(&a, &b))
        return "the inspection";
    memset(x, BEFORE, sizeof x);
    memset(y, BEFORE, sizeof y);
    plain_step(plain, frame, len, report, x, reply_len, answer);
    Answer other = library_step(library, frame, len, &library_form, y, reply_len);
    if (!same_answer(answer, &other))
        return "the answer";
    if (memcmp(x, y, sizeof x))
        return "the reply";
    if (!library_holds(library, plain))
        return "the session";
    return NULL;
}

const char *differ_writing(const Session *plain, const LibrarySession *library, size_t buf_len)
{
    uint8_t x[MAX_IMAGE], y[MAX_IMAGE];
    memset(x, BEFORE, sizeof x);
    memset(y, BEFORE, sizeof y);
    if (plain_image(plain, x, buf_len) != library_image(library, y, buf_len))
        return "the length of the image";
    return memcmp(x, y, sizeof x) ? "the image" : NULL;
}

const char *differ_restoring(Session *plain, LibrarySession *library, const uint8_t *image, size_t len,
                             uint32_t *reason)
{
    LibrarySession expected = *library;
    *reason = plain_restore(plain, image, len);
    if (library_restore(library, image, len) != *reason)
        return "whether the image is accepted";
    if (*reason == ACCEPTED)
        library_of(&expected, plain);
    if (memcmp(library, &expected, sizeof expected) || !library_holds(library, plain))
        return "the session restored";
    return NULL;
}
