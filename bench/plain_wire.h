/* Fields on the wire. A reader goes from `at` towards `end` and answers where the next field begins, or NULL for
 * bytes that are no field. It sets `*padded` if the field's tag, number or length is padded, which is written in other
 * bytes than the shortest, and else leaves it: one flag serves a whole message. */
#ifndef PLAIN_WIRE_H
#define PLAIN_WIRE_H

#include <stdbool.h>
#include <stddef.h>
#include <stdint.h>

#include "rules.h"

typedef struct {
    uint32_t tag;
    uint64_t value;         /* a number, or how many bytes */
    const uint8_t *bytes;   /* where bytes begin */
} Field;

/* Any field, of any length of tag and number; a group is passed over, and only its start tag can be padded. */
const uint8_t *read_long_field(const uint8_t *at, const uint8_t *end, Field *f, bool *padded);

/* Here, so that it is inlined: most fields are a one-byte tag and a one-byte number or length, which are not padded. */
static inline const uint8_t *read_field(const uint8_t *at, const uint8_t *end, Field *f, bool *padded)
{
    if (end - at >= 2 && at[0] >= TAG(1, 0) && (at[0] | at[1]) < 0x80) {
        const uint8_t *behind = at + 2;
        unsigned wire = at[0] & 7;
        f->tag = at[0];
        f->value = at[1];
        f->bytes = behind;
        if (wire == NUMBER)
            return behind;
        if (wire == BYTES && at[1] <= end - behind)
            return behind + at[1];
    }
    /* a field of its own, so that the caller's stays in registers above */
    Field any = {0};
    at = read_long_field(at, end, &any, padded);
    *f = any;
    return at;
}

/* Whether some bytes are fields, of whatever number. */
bool are_fields(const uint8_t *at, const uint8_t *end, bool *padded);

#endif
