#include "plain_args.h"

/* A scalar's type, and what the field of the value that it names holds. */
typedef struct {
    uint32_t type;
    uint64_t value;
    const uint8_t *bytes;
} Scalar;

/* The number of the field that holds a type's value. Null has none. */
static const uint8_t value_field[] = {[SINT] = 2,   [UINT] = 3,  [NULL_VALUE] = 0, [OCTETS] = 5,
                                      [DOUBLE] = 6, [FLOAT] = 7, [BOOL] = 8,       [STRING] = 9};
/* They are below this. */
enum { SCALAR_FIELDS = 10 };

/* ---- in several parts */

/* What the fields of a scalar hold, the last of each, over all its parts. */
typedef struct {
    uint64_t values[SCALAR_FIELDS];
    unsigned seen;
    uint32_t type;
} Slots;

/* One part of a scalar. */
static bool add_scalar(const uint8_t *at, const uint8_t *end, Slots *x, bool *padded)
{
    while (at < end) {
        Field f;
        at = read_field(at, end, &f, padded);
        if (!at)
            return false;
        switch (f.tag) {
        case TAG(1, NUMBER):
            if ((uint32_t)f.value >= SINT && (uint32_t)f.value <= STRING)
                x->type = (uint32_t)f.value;
            break;
        case TAG(2, NUMBER):
        case TAG(3, NUMBER):
        case TAG(5, BYTES):
        case TAG(6, FIXED64):
        case TAG(7, FIXED32):
        case TAG(8, NUMBER):
        case TAG(9, BYTES):
            x->values[f.tag >> 3] = f.value;
            x->seen |= 1u << (f.tag >> 3);
        }
    }
    return true;
}

/* The parts of octets or of a string in one part of the scalar, whose fields are good; what is padded in these has been
 * noted. */
static bool add_bytes(const Field *scalar, uint32_t tag, Scalar *s, bool *has, bool *padded)
{
    bool noted = false;
    for (const uint8_t *at = scalar->bytes, *end = at + scalar->value; at < end;) {
        Field part;
        at = read_field(at, end, &part, &noted);
        if (part.tag != tag)
            continue;
        for (const uint8_t *in = part.bytes, *stop = in + part.value; in < stop;) {
            Field f;
            in = read_field(in, stop, &f, padded);
            if (!in)
                return false;
            if (f.tag == TAG(1, BYTES)) {
                *has = true;
                s->bytes = f.bytes;
                s->value = f.value;
            }
        }
    }
    return true;
}

/* Those in all parts of the scalar; the fields of the Any are good, and what is padded there has been noted. */
static bool add_all_bytes(const Field *any, uint32_t tag, Scalar *s, bool *padded)
{
    bool has = false, noted = false;
    for (const uint8_t *at = any->bytes, *end = at + any->value; at < end;) {
        Field f;
        at = read_field(at, end, &f, &noted);
        if (f.tag == TAG(2, BYTES) && !add_bytes(&f, tag, s, &has, padded))
            return false;
    }
    return has;
}

/* What a scalar's type chooses of its fields. */
static bool choose_value(const Field *any, const Slots *x, Scalar *s, bool *padded)
{
    unsigned field = value_field[x->type];
    s->type = x->type;
    if (x->type == NULL_VALUE)
        return true;
    if (x->type == 0 || !(x->seen & 1u << field))
        return false;
    s->value = x->values[field];
    return (x->type != OCTETS && x->type != STRING) || add_all_bytes(any, TAG(field, BYTES), s, padded);
}

/* As read_any, whatever has been noted as padded so far. Each part of the scalar is read where it is met; if the type
 * does not choose it, nothing comes of that. */
static __attribute__((noinline)) unsigned read_parts(const Field *any, Scalar *s, bool *padded)
{
    const uint8_t *at = any->bytes, *end = at + any->value;
    Slots x;
    bool good = true, inside = false;
    unsigned type = 0;
    x.seen = x.type = 0;
    while (at < end) {
        Field f;
        at = read_field(at, end, &f, padded);
        if (!at)
            return 0;
        if (f.tag == TAG(1, NUMBER)) {
            if ((uint32_t)f.value >= ANY_SCALAR && (uint32_t)f.value <= ANY_ARRAY)
                type = (uint32_t)f.value;
        } else if (f.tag == TAG(2, BYTES)) {
            good = good && add_scalar(f.bytes, f.bytes + f.value, &x, &inside);
        }
    }
    if (type != ANY_SCALAR)
        return type;
    *padded = *padded || inside;
    return good && choose_value(any, &x, s, padded) ? type : 0;
}

/* ---- in one part, which is common */

/* Octets or a string come in several. */
enum { IN_PARTS = 2 };

/* The required bytes in field 1 of an octets or string message, instead of the message. */
static bool read_bytes(Scalar *s, bool *padded)
{
    const uint8_t *at = s->bytes, *end = at + s->value;
    bool has = false;
    while (at < end) {
        Field f;
        at = read_field(at, end, &f, padded);
        if (!at)
            return false;
        if (f.tag == TAG(1, BYTES)) {
            has = true;
            s->bytes = f.bytes;
            s->value = f.value;
        }
    }
    return has;
}

/* The last of each field counts. Which one is wanted is known at the end, so each is kept until then. Answers whether
 * it is good, or IN_PARTS. */
static inline int read_scalar(const uint8_t *at, const uint8_t *end, Scalar *s, bool *padded)
{
    uint64_t values[SCALAR_FIELDS];
    const uint8_t *bytes[SCALAR_FIELDS];
    unsigned seen = 0;
    uint32_t type = 0;
    while (at < end) {
        Field f;
        at = read_field(at, end, &f, padded);
        if (!at)
            return false;
        switch (f.tag) {
        case TAG(1, NUMBER):
            if ((uint32_t)f.value >= SINT && (uint32_t)f.value <= STRING)
                type = (uint32_t)f.value;
            break;
        case TAG(5, BYTES):
        case TAG(9, BYTES):
            if (seen & 1u << (f.tag >> 3))
                return IN_PARTS;
            bytes[f.tag >> 3] = f.bytes;
            /* fall through */
        case TAG(2, NUMBER):
        case TAG(3, NUMBER):
        case TAG(6, FIXED64):
        case TAG(7, FIXED32):
        case TAG(8, NUMBER):
            values[f.tag >> 3] = f.value;
            seen |= 1u << (f.tag >> 3);
        }
    }
    s->type = type;
    if (type == NULL_VALUE)
        return true;
    if (type == 0 || !(seen & 1u << value_field[type]))
        return false;
    s->value = values[value_field[type]];
    if (type != OCTETS && type != STRING)
        return true;
    s->bytes = bytes[value_field[type]];
    return read_bytes(s, padded);
}

/* The type of an Any, and its scalar where it is one; 0 for a bad Any. */
static unsigned read_any(const Field *any, Scalar *s, bool *padded)
{
    const uint8_t *at = any->bytes, *end = at + any->value;
    const uint8_t *scalar = NULL;
    uint64_t scalar_len = 0;
    unsigned type = 0;
    while (at < end) {
        Field f;
        at = read_field(at, end, &f, padded);
        if (!at)
            return 0;
        if (f.tag == TAG(1, NUMBER)) {
            if ((uint32_t)f.value >= ANY_SCALAR && (uint32_t)f.value <= ANY_ARRAY)
                type = (uint32_t)f.value;
        } else if (f.tag == TAG(2, BYTES)) {
            if (scalar)
                return read_parts(any, s, padded);
            scalar = f.bytes;
            scalar_len = f.value;
        }
    }
    if (type != ANY_SCALAR)
        return type;
    if (!scalar)
        return 0;
    int good = read_scalar(scalar, scalar + scalar_len, s, padded);
    if (good == IN_PARTS)
        return read_parts(any, s, padded);
    return good ? type : 0;
}

bool count_argument(const Field *field, Arguments *args, bool *padded)
{
    Scalar s;
    unsigned type = read_any(field, &s, padded);
    if (type == 0)
        return false;
    if (type != ANY_SCALAR && args->kind == 0) {
        args->kind = type;
        args->index = args->count;
    }
    args->count++;
    return true;
}

static void set_value(Value *v, const Scalar *s, const uint8_t *frame)
{
    v->kind = s->type;
    switch (s->type) {
    case SINT:
        /* zigzag */
        v->value = (s->value >> 1) ^ (0 - (s->value & 1));
        break;
    case BOOL:
        v->value = s->value != 0;
        break;
    case UINT:
    case DOUBLE:
    case FLOAT:
        v->value = s->value;
        break;
    case OCTETS:
    case STRING:
        v->start = (uint32_t)(s->bytes - frame);
        v->len = (uint32_t)s->value;
    }
}

void plain_next_argument(const uint8_t *frame, size_t end, size_t at, Value *v)
{
    const uint8_t *from = frame + at, *to = frame + end;
    bool ignored = false;
    *v = (Value){.reason = FEW_ARGUMENTS};
    while (from < to) {
        Field f;
        Scalar s;
        from = read_field(from, to, &f, &ignored);
        if (!from) {
            *v = (Value){.reason = BAD_PAYLOAD, .next = (uint32_t)end};
            return;
        }
        if (f.tag != TAG(2, BYTES))
            continue;
        unsigned type = read_any(&f, &s, &ignored);
        v->next = (uint32_t)(from - frame);
        v->reason = type == 0 ? BAD_PAYLOAD : type == ANY_SCALAR ? ACCEPTED : NOT_SCALAR;
        if (type == ANY_SCALAR)
            set_value(v, &s, frame);
        return;
    }
}
