#include "engine.h"

#include <inttypes.h>
#include <stdlib.h>
#include <string.h>

static bool holds(const uint8_t *bytes, size_t len, const char *text)
{
    size_t n = strlen(text);
    for (size_t i = 0; i + n <= len; i++) {
        if (memcmp(bytes + i, text, n) == 0)
            return true;
    }
    return false;
}

/* A statement has a placeholder for each question mark in it. */
static struct karramotx_report prepare(struct karramotx_part body, const uint8_t *frame)
{
    uint64_t placeholders = 0;
    if (holds(frame + body.start, body.len, "oops"))
        return (struct karramotx_report){.kind = KARRAMOTX_REPORT_FAILED, .code = 1064};
    for (size_t i = 0; i < body.len; i++)
        placeholders += frame[body.start + i] == '?';
    return (struct karramotx_report){.kind = KARRAMOTX_REPORT_PREPARED, .placeholders = placeholders};
}

/* NULL where there is no memory for it. */
static struct engine_result *new_result(void)
{
    struct engine_result *result = malloc(sizeof *result);
    if (result != NULL)
        *result = (struct engine_result){.columns = ENGINE_COLUMNS, .rows = ENGINE_ROWS};
    return result;
}

static struct karramotx_report run(struct engine *e)
{
    e->made = new_result();
    if (e->made == NULL)
        return (struct karramotx_report){.kind = KARRAMOTX_REPORT_FAILED, .code = 1037};
    return (struct karramotx_report){
        .kind = KARRAMOTX_REPORT_RESULT, .columns = e->made->columns, .rows = e->made->rows};
}

struct karramotx_report engine_work(struct engine *e, const struct karramotx_inspection *told, const uint8_t *frame)
{
    switch (told->look.work) {
    case KARRAMOTX_WORK_PREPARE:
        return prepare(told->message.body, frame);
    case KARRAMOTX_WORK_EXECUTE:
    case KARRAMOTX_WORK_OPEN:
        return run(e);
    case KARRAMOTX_WORK_FETCH:
        return (struct karramotx_report){.kind = KARRAMOTX_REPORT_DONE};
    default:
        return (struct karramotx_report){.kind = KARRAMOTX_REPORT_NONE};
    }
}

bool engine_take_over(struct engine *e, const struct karramotx_session *session)
{
    for (size_t i = 0; i < KARRAMOTX_MAX_CURSORS; i++) {
        if (!session->cursors[i].live)
            continue;
        e->results[i] = new_result();
        if (e->results[i] == NULL)
            return false;
    }
    return true;
}

void engine_send(const struct engine *e, const struct karramotx_inspection *told, struct karramotx_answer answer,
                 FILE *out)
{
    bool fetch = told->look.work == KARRAMOTX_WORK_FETCH;
    const struct engine_result *result = fetch ? e->results[told->cursor_place] : e->made;
    if (answer.columns)
        fprintf(out, "    %" PRIu64 " columns\n", result->columns);
    for (uint64_t i = answer.first; i < answer.first + answer.count && i < result->rows; i++)
        fprintf(out, "    row %" PRIu64 "\n", i);
}

static void drop(struct engine_result **result)
{
    free(*result);
    *result = NULL;
}

void engine_settle(struct engine *e, const struct karramotx_inspection *told, struct karramotx_answer answer)
{
    if (answer.reason == KARRAMOTX_ACCEPTED) {
        for (size_t i = 0; i < KARRAMOTX_MAX_CURSORS; i++) {
            if (told->ends >> i & 1)
                drop(&e->results[i]);
        }
        if (told->look.work == KARRAMOTX_WORK_OPEN) {
            e->results[told->cursor_place] = e->made;
            e->made = NULL;
        }
    }
    drop(&e->made);
}

void engine_end(struct engine *e)
{
    for (size_t i = 0; i < KARRAMOTX_MAX_CURSORS; i++)
        drop(&e->results[i]);
    drop(&e->made);
}
