#include "line.h"

#include "plain_image.h"

void set_report(Event *event, Report report)
{
    event->report = report;
    event->library_report = library_report(&report);
}

uint64_t plain_reads(Line *line)
{
    Message m;
    plain_read(line->event.frame.bytes, line->event.frame.len, &m);
    return m.reason + m.stmt;
}

uint64_t plain_args(Line *line)
{
    const uint8_t *frame = line->event.frame.bytes;
    Message m;
    Value v;
    uint64_t sum = 0;
    plain_read(frame, line->event.frame.len, &m);
    for (size_t at = m.args.start; at < m.args.end; at = v.next) {
        plain_next_argument(frame, m.args.end, at, &v);
        if (v.reason == FEW_ARGUMENTS)
            break;
        sum += v.value;
    }
    return sum;
}

uint64_t plain_looks(Line *line)
{
    Look l = plain_look(&line->plain_session, line->event.frame.bytes, line->event.frame.len);
    return l.reason + l.count;
}

uint64_t plain_inspects(Line *line)
{
    Inspection told;
    plain_inspect(&line->plain_session, line->event.frame.bytes, line->event.frame.len, &told);
    return told.look.reason + told.message.stmt + told.stmt_place + told.cursor_place + told.ends;
}

static inline uint64_t step(Session *session, const Event *e)
{
    uint8_t reply[MIN_REPLY];
    Answer a;
    plain_step(session, e->frame.bytes, e->frame.len, &e->report, reply, sizeof reply, &a);
    return a.reason + a.count;
}

uint64_t plain_steps(Line *line)
{
    return step(&line->plain_session, &line->event);
}

uint64_t plain_writes_image(Line *line)
{
    uint8_t image[MAX_IMAGE];
    return plain_image(&line->plain_session, image, sizeof image);
}

uint64_t plain_reads_image(Line *line)
{
    return plain_restore(&line->plain_session, line->event.frame.bytes, line->event.frame.len);
}

uint64_t plain_plays(const Event *const *events, size_t count)
{
    Session session;
    uint64_t sum = 0;
    plain_fresh(&session);
    for (size_t i = 0; i < count; i++)
        sum += step(&session, events[i]);
    return sum;
}

uint64_t plain_arrives(Line *line)
{
    return plain_run(line->stream);
}

uint64_t library_arrives(Line *line)
{
    return library_run(line->stream);
}
