#include "server.h"

#include <inttypes.h>

static const char *kind_name(uint64_t kind)
{
    switch (kind) {
    case KARRAMOTX_SESS_RESET: return "Reset";
    case KARRAMOTX_SESS_CLOSE: return "Session close";
    case KARRAMOTX_PREPARE: return "Prepare";
    case KARRAMOTX_EXECUTE: return "Execute";
    case KARRAMOTX_DEALLOCATE: return "Deallocate";
    case KARRAMOTX_CURSOR_OPEN: return "Open";
    case KARRAMOTX_CURSOR_CLOSE: return "Close";
    case KARRAMOTX_CURSOR_FETCH: return "Fetch";
    default: return "?";
    }
}

static void print_bytes(const uint8_t *bytes, size_t len, FILE *out)
{
    for (size_t i = 0; i < len; i++)
        fprintf(out, "%02x", bytes[i]);
}

static void print_value(struct karramotx_value v, const uint8_t *frame, FILE *out)
{
    switch (v.kind) {
    case KARRAMOTX_SINT:
        fprintf(out, "sint %" PRId64, (int64_t)v.value);
        break;
    case KARRAMOTX_UINT:
        fprintf(out, "uint %" PRIu64, v.value);
        break;
    case KARRAMOTX_NULL:
        fprintf(out, "null");
        break;
    case KARRAMOTX_DOUBLE:
    case KARRAMOTX_FLOAT:
        fprintf(out, "%s of bits %" PRIx64, v.kind == KARRAMOTX_FLOAT ? "float" : "double", v.value);
        break;
    case KARRAMOTX_BOOL:
        fprintf(out, "%s", v.value ? "true" : "false");
        break;
    case KARRAMOTX_OCTETS:
    case KARRAMOTX_STRING:
        fprintf(out, "%zu bytes ", v.len);
        print_bytes(frame + v.start, v.len, out);
        break;
    default:
        fprintf(out, "refused %" PRIu64, v.reason);
    }
}

/* All arguments, in one pass. */
static void print_arguments(const uint8_t *frame, struct karramotx_arguments args, FILE *out)
{
    struct karramotx_value v;
    for (size_t at = args.start; at < args.end; at = v.next) {
        v = karramotx_next_argument(frame, args.end, at);
        if (v.reason == KARRAMOTX_FEW_ARGUMENTS)
            break;
        fprintf(out, "    argument: ");
        print_value(v, frame, out);
        fprintf(out, "\n");
    }
}

/* Notes a client at its first padded frame, and not again. */
static void note_padding(struct connection *c, struct karramotx_answer answer, FILE *out)
{
    if (answer.padded && !c->pads)
        fprintf(out, "    note: this client pads its numbers\n");
    c->pads = c->pads || answer.padded;
}

/* One frame: inspect, let the engine work, step, send, free what ended. */
static void serve_frame(struct connection *c, const uint8_t *frame, size_t len, uint64_t kind, FILE *out)
{
    uint8_t reply[KARRAMOTX_MIN_REPLY];
    struct karramotx_inspection told = karramotx_inspect(&c->session, frame, len);
    struct karramotx_report report = engine_work(&c->engine, &told, frame);
    struct karramotx_answer answer = karramotx_step(&c->session, frame, len, report, reply, sizeof reply);

    fprintf(out, "%s", kind_name(kind));
    if (answer.reason != KARRAMOTX_ACCEPTED)
        fprintf(out, ": refused %" PRIu64, answer.reason);
    fprintf(out, "\n");
    if (kind == KARRAMOTX_EXECUTE || kind == KARRAMOTX_CURSOR_OPEN)
        print_arguments(frame, told.message.args, out);
    engine_send(&c->engine, &told, answer, out);
    engine_settle(&c->engine, &told, answer);
    fprintf(out, "    reply ");
    print_bytes(reply, answer.reply, out);
    fprintf(out, "\n");
    note_padding(c, answer, out);
    c->served++;
}

void connection_begin(struct connection *c)
{
    c->session = karramotx_fresh();
    c->reader = karramotx_start_over();
    c->engine = (struct engine){0};
    c->pads = false;
    c->served = 0;
}

void connection_end(struct connection *c)
{
    engine_end(&c->engine);
}

size_t connection_take(struct connection *c, const uint8_t *bytes, size_t len)
{
    struct karramotx_pushed pushed = karramotx_push(c->reader, bytes, len, c->store);
    c->reader = pushed.reader;
    return pushed.count;
}

uint64_t connection_serve(struct connection *c, FILE *out)
{
    struct karramotx_next_frame next = karramotx_next_frame(c->reader, c->store);
    c->reader = next.reader;
    if (next.reason == KARRAMOTX_ACCEPTED)
        serve_frame(c, c->store + next.start, next.len, next.kind, out);
    return next.reason;
}

size_t connection_held(const struct connection *c)
{
    return c->reader.end - c->reader.start;
}

/* The standby's part. Image and held bytes may have come over a network. */
static bool take_over(struct connection *c, const uint8_t *image, size_t image_len, const uint8_t *held,
                      size_t held_len)
{
    connection_begin(c);
    return karramotx_restore(&c->session, image, image_len) == KARRAMOTX_ACCEPTED &&
           connection_take(c, held, held_len) == held_len && engine_take_over(&c->engine, &c->session);
}

bool connection_hand_over(struct connection *c, struct connection *standby, FILE *out)
{
    uint8_t image[KARRAMOTX_MAX_IMAGE];
    struct karramotx_sent sent = karramotx_image(&c->session, image, sizeof image);
    if (!take_over(standby, image, sent.len, c->store + c->reader.start, connection_held(c))) {
        connection_end(standby);
        return false;
    }
    standby->pads = c->pads;
    standby->served = c->served;
    connection_end(c);
    fprintf(out, "Handed over to the standby\n    image ");
    print_bytes(image, sent.len, out);
    fprintf(out, "\n");
    return true;
}

static bool stmts_are_sound(const struct karramotx_session *s)
{
    for (size_t i = 0; i < KARRAMOTX_MAX_STMTS; i++) {
        struct karramotx_stmt x = s->stmts[i];
        if (x.live > 1 || (!x.live && (s->stmt_ids[i] != 0 || x.placeholders != 0)))
            return false;
        for (size_t j = 0; j < i; j++) {
            if (x.live && s->stmts[j].live && s->stmt_ids[j] == s->stmt_ids[i])
                return false;
        }
    }
    return true;
}

static bool has_stmt(const struct karramotx_session *s, uint32_t id)
{
    for (size_t i = 0; i < KARRAMOTX_MAX_STMTS; i++) {
        if (s->stmts[i].live && s->stmt_ids[i] == id)
            return true;
    }
    return false;
}

static bool cursors_are_sound(const struct karramotx_session *s)
{
    for (size_t i = 0; i < KARRAMOTX_MAX_CURSORS; i++) {
        struct karramotx_cursor x = s->cursors[i];
        if (x.live > 1 || (!x.live && (x.id != 0 || x.stmt != 0 || x.rows != 0 || x.sent != 0)))
            return false;
        if (x.live && (!has_stmt(s, x.stmt) || x.sent > x.rows))
            return false;
        for (size_t j = 0; j < i; j++) {
            struct karramotx_cursor y = s->cursors[j];
            if (x.live && y.live && (x.id == y.id || x.stmt == y.stmt))
                return false;
        }
    }
    return true;
}

bool session_is_sound(const struct karramotx_session *session)
{
    return stmts_are_sound(session) && cursors_are_sound(session) && session->closed <= 1;
}

bool connection_is_sound(const struct connection *c)
{
    for (size_t i = 0; i < KARRAMOTX_MAX_CURSORS; i++) {
        if ((c->engine.results[i] != NULL) != (c->session.cursors[i].live != 0))
            return false;
    }
    return session_is_sound(&c->session);
}
