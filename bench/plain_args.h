/* Arguments: an Any with a Scalar in it. */
#ifndef PLAIN_ARGS_H
#define PLAIN_ARGS_H

#include "plain.h"
#include "plain_wire.h"

/* One args field: counts it in `args`, notes the first object or array, and sets `*padded` as read_field does. False
 * for a bad one. */
bool count_argument(const Field *field, Arguments *args, bool *padded);

#endif
