/* The same messages read by libprotobuf and by nanopb. */
#ifndef OTHERS_H
#define OTHERS_H

#include <stddef.h>
#include <stdint.h>

#ifdef __cplusplus
extern "C" {
#endif

/*
 * Reads the payload of a message of this type and answers the sum of what it holds: ids, fetch_rows, the
 * length of a StmtExecute's text, and for each argument 1 and its value (a number, the bits of a double or a
 * float, the length of bytes). UINT64_MAX where it can't be read.
 */
uint64_t protobuf_read(uint8_t kind, const uint8_t *payload, size_t len);
uint64_t nanopb_read(uint8_t kind, const uint8_t *payload, size_t len);

typedef uint64_t (*Reader)(uint8_t kind, const uint8_t *payload, size_t len);

#ifdef __cplusplus
}
#endif

#endif
