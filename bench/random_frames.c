#include "random_frames.h"

#include <string.h>

#include "random.h"
#include "random_fields.h"

/* ---- arguments */

static void put_some_string(Frame *f, uint32_t number)
{
    static Frame string, text;
    string.len = text.len = 0;
    put_random_bytes(&text, one_in(10) ? pick(300) : pick(6));
    maybe_noise(&string);
    if (!one_in(30))
        put_some_bytes(&string, 1, &text);
    if (one_in(12))
        put_some_bytes(&string, 1, &text);
    maybe_noise(&string);
    put_some_parts(f, number, &string);
}

/* The value of a scalar's type. */
static void put_some_value(Frame *f, uint32_t type)
{
    switch (type) {
    case SINT:
    case UINT:
        put_some_field(f, type + 1, random_number());
        break;
    case OCTETS:
        put_some_string(f, 5);
        break;
    case DOUBLE:
        put_some_number(f, TAG(6, FIXED64));
        put_random_bytes(f, 8);
        break;
    case FLOAT:
        put_some_number(f, TAG(7, FIXED32));
        put_random_bytes(f, 4);
        break;
    case BOOL:
        put_some_field(f, 8, random_number());
        break;
    case STRING:
        put_some_string(f, 9);
    }
}

static void some_scalar(Frame *f)
{
    uint32_t type = 1 + pick(STRING);
    f->len = 0;
    maybe_noise(f);
    if (one_in(6))
        put_some_value(f, one_in(2) ? type : 1 + pick(STRING));
    if (!one_in(30))
        put_some_field(f, 1, one_in(20) ? random_number() : type);
    maybe_noise(f);
    if (!one_in(30))
        put_some_value(f, type);
    if (one_in(12))
        put_some_value(f, 1 + pick(STRING));
    maybe_noise(f);
}

static void put_some_type(Frame *any)
{
    put_some_field(any, 1, one_in(40) ? random_number() : one_in(12) ? ANY_OBJECT + pick(2) : ANY_SCALAR);
}

/* The scalar may come again, and the type behind it. */
static void put_some_argument(Frame *f)
{
    static Frame any, scalar;
    bool behind = one_in(6);
    any.len = 0;
    maybe_noise(&any);
    if (!behind)
        put_some_type(&any);
    do {
        some_scalar(&scalar);
        if (!one_in(30))
            put_some_parts(&any, 2, &scalar);
    } while (one_in(15));
    if (behind && !one_in(10))
        put_some_type(&any);
    if (one_in(30))
        put_some_field(&any, 1, pick(5));
    maybe_noise(&any);
    put_some_bytes(f, 2, &any);
}

static void put_some_arguments(Frame *f)
{
    for (uint32_t left = one_in(3) ? pick(5) : pick(2); left > 0; left--) {
        put_some_argument(f);
        maybe_noise(f);
    }
}

/* ---- messages */

static uint32_t id_range = 4;

void random_ids(uint32_t range)
{
    id_range = range;
}

static uint64_t some_id(void)
{
    return one_in(60) ? random_number() : pick(id_range);
}

/* A required id; sometimes none, sometimes two. */
static void put_id(Frame *f, uint32_t number)
{
    maybe_noise(f);
    if (!one_in(60))
        put_some_field(f, number, some_id());
    if (one_in(30))
        put_some_field(f, number, some_id());
    maybe_noise(f);
}

static void put_rows(Frame *f, uint32_t number)
{
    if (!one_in(3))
        put_some_field(f, number, random_number());
    maybe_noise(f);
}

static void some_execute(Frame *f)
{
    put_id(f, 1);
    put_some_arguments(f);
    if (one_in(4))
        put_some_field(f, 3, random_number());
    maybe_noise(f);
}

static void some_body(Frame *f, uint32_t type)
{
    f->len = 0;
    maybe_noise(f);
    if (type == STMT_EXECUTE && !one_in(60)) {
        static Frame text;
        text.len = 0;
        put_random_bytes(&text, pick(150));
        put_some_bytes(f, 1, &text);
    }
    if (type == STMT_EXECUTE)
        put_some_arguments(f);
    else
        put_noise(f);
}

/* A Prepare's statement. One in twelve has its body again, and some of these bodies are good only together. */
static void some_operation(Frame *f)
{
    static const uint8_t types[] = {0, 1, 2, 4, 5, 5, 5, 5}, fields[] = {2, 3, 4, 7, 5, 6};
    static Frame body;
    uint32_t type = one_in(60) ? 3 : types[pick(8)];
    bool behind = one_in(6);
    f->len = 0;
    maybe_noise(f);
    if (!behind && !one_in(60))
        put_some_field(f, 1, type);
    do {
        some_body(&body, type);
        if (one_in(20))
            put_some_parts(f, fields[type], &body);
        else if (!one_in(60))
            put_some_bytes(f, fields[type], &body);
        if (one_in(12))
            put_some_bytes(f, 2 + pick(5), &body);
    } while (one_in(12));
    if (behind)
        put_some_field(f, 1, type);
    if (one_in(30))
        put_some_field(f, 1, random_number());
    maybe_noise(f);
}

/* An Open's statement. */
static void some_open(Frame *f)
{
    static Frame execute;
    bool behind = one_in(6);
    f->len = 0;
    maybe_noise(f);
    if (!behind && !one_in(60))
        put_some_field(f, 1, one_in(30) ? random_number() : 0);
    do {
        execute.len = 0;
        some_execute(&execute);
        if (one_in(20))
            put_some_parts(f, 2, &execute);
        else if (!one_in(60))
            put_some_bytes(f, 2, &execute);
    } while (one_in(20));
    if (behind)
        put_some_field(f, 1, 0);
    maybe_noise(f);
}

/* An embedded statement; what comes again is merged. */
static void put_stmt(Frame *f, uint32_t number, void (*make)(Frame *f))
{
    static Frame stmt;
    do {
        make(&stmt);
        if (!one_in(60))
            put_some_parts(f, number, &stmt);
        maybe_noise(f);
    } while (one_in(20));
}

static void put_payload(Frame *f, uint8_t type)
{
    switch (type) {
    case PREPARE:
        put_id(f, 1);
        put_stmt(f, 2, some_operation);
        break;
    case EXECUTE:
        some_execute(f);
        break;
    case OPEN:
        put_id(f, 1);
        put_stmt(f, 4, some_open);
        put_rows(f, 5);
        break;
    case FETCH:
        put_id(f, 1);
        put_rows(f, 2);
        break;
    case DEALLOCATE:
    case CLOSE:
        put_id(f, 1);
        break;
    default:
        maybe_noise(f);
    }
    /* some long ones, far from the longest that fits */
    if (one_in(3000))
        while (f->len < 50000)
            put_noise(f);
}

/* Bytes changed, taken out or put in behind the frame's length. */
static void change_bytes(Frame *f)
{
    for (uint32_t left = 1 + pick(3); left > 0 && f->len > HEAD; left--) {
        size_t at = HEAD + pick((uint32_t)(f->len - HEAD));
        switch (pick(4)) {
        case 0:
            memmove(f->bytes + at, f->bytes + at + 1, f->len - at - 1);
            f->len--;
            break;
        case 1:
            memmove(f->bytes + at + 1, f->bytes + at, f->len - at);
            f->bytes[at] = (uint8_t)pick(256);
            f->len++;
            break;
        case 2:
            f->bytes[at] ^= (uint8_t)(1u << pick(8));
            break;
        default:
            f->bytes[at] = (uint8_t)pick(256);
        }
    }
}

void random_frame(Frame *f)
{
    static const uint8_t types[] = {PREPARE, PREPARE, PREPARE, EXECUTE, EXECUTE, DEALLOCATE, OPEN, OPEN,
                                    OPEN,    OPEN,    FETCH,   FETCH,   FETCH,   FETCH,      FETCH, CLOSE};
    uint8_t type = types[pick(sizeof types)];
    if (one_in(100))
        type = (uint8_t)(one_in(2) ? RESET + pick(2) : pick(256));
    start(f, type);
    random_padding();
    put_payload(f, type);
    if (one_in(6))
        change_bytes(f);
    finish(f);
    if (one_in(50))
        f->bytes[pick(HEAD)] ^= (uint8_t)(1u << pick(8));
    if (one_in(50))
        put_length(f, one_in(2) ? 0 : MAX_LENGTH - 1 + pick(4));
}
