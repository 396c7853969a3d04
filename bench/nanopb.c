/* nanopb's side: static structs, with callbacks that count bytes and sum up arguments as they come. */
#include "others.h"

#include "mysqlx.pb.h"
#include <pb_decode.h>
#include <string.h>

/* The length of some bytes, which are passed over. */
static bool count_bytes(pb_istream_t *in, const pb_field_t *field, void **arg)
{
    (void)field;
    *(uint64_t *)*arg += in->bytes_left;
    return pb_read(in, NULL, in->bytes_left);
}

static uint64_t value(const karramotx_test_Scalar *s, uint64_t len)
{
    uint64_t wide = 0;
    uint32_t narrow = 0;
    switch (s->type) {
    case karramotx_test_Scalar_Type_V_SINT: return (uint64_t)s->v_signed_int;
    case karramotx_test_Scalar_Type_V_UINT: return s->v_unsigned_int;
    case karramotx_test_Scalar_Type_V_DOUBLE: memcpy(&wide, &s->v_double, sizeof wide); return wide;
    case karramotx_test_Scalar_Type_V_FLOAT: memcpy(&narrow, &s->v_float, sizeof narrow); return narrow;
    case karramotx_test_Scalar_Type_V_BOOL: return s->v_bool;
    case karramotx_test_Scalar_Type_V_OCTETS:
    case karramotx_test_Scalar_Type_V_STRING: return len;
    default: return 0;
    }
}

/* One argument, summed up. */
static bool sum_argument(pb_istream_t *in, const pb_field_t *field, void **arg)
{
    (void)field;
    uint64_t len = 0;
    karramotx_test_Any any = karramotx_test_Any_init_zero;
    any.scalar.v_octets.value = (pb_callback_t){.funcs.decode = count_bytes, .arg = &len};
    any.scalar.v_string.value = (pb_callback_t){.funcs.decode = count_bytes, .arg = &len};
    if (!pb_decode(in, karramotx_test_Any_fields, &any))
        return false;
    *(uint64_t *)*arg += 1 + value(&any.scalar, len);
    return true;
}

static uint64_t read_prepare(pb_istream_t *in)
{
    uint64_t sum = 0;
    karramotx_test_Prepare m = karramotx_test_Prepare_init_zero;
    m.stmt.stmt_execute.stmt = (pb_callback_t){.funcs.decode = count_bytes, .arg = &sum};
    m.stmt.stmt_execute.args = (pb_callback_t){.funcs.decode = sum_argument, .arg = &sum};
    return pb_decode(in, karramotx_test_Prepare_fields, &m) ? m.stmt_id + sum : UINT64_MAX;
}

static uint64_t read_execute(pb_istream_t *in)
{
    uint64_t sum = 0;
    karramotx_test_Execute m = karramotx_test_Execute_init_zero;
    m.args = (pb_callback_t){.funcs.decode = sum_argument, .arg = &sum};
    return pb_decode(in, karramotx_test_Execute_fields, &m) ? m.stmt_id + sum : UINT64_MAX;
}

static uint64_t read_open(pb_istream_t *in)
{
    uint64_t sum = 0;
    karramotx_test_Open m = karramotx_test_Open_init_zero;
    m.stmt.prepare_execute.args = (pb_callback_t){.funcs.decode = sum_argument, .arg = &sum};
    if (!pb_decode(in, karramotx_test_Open_fields, &m))
        return UINT64_MAX;
    return m.cursor_id + m.stmt.prepare_execute.stmt_id + m.fetch_rows + sum;
}

uint64_t nanopb_read(uint8_t kind, const uint8_t *payload, size_t len)
{
    pb_istream_t in = pb_istream_from_buffer(payload, len);
    karramotx_test_Reset reset = karramotx_test_Reset_init_zero;
    karramotx_test_Fetch fetch = karramotx_test_Fetch_init_zero;
    karramotx_test_Deallocate deallocate = karramotx_test_Deallocate_init_zero;
    karramotx_test_Close close = karramotx_test_Close_init_zero;
    switch (kind) {
    case 6: return pb_decode(&in, karramotx_test_Reset_fields, &reset) ? 0 : UINT64_MAX;
    case 40: return read_prepare(&in);
    case 41: return read_execute(&in);
    case 42: return pb_decode(&in, karramotx_test_Deallocate_fields, &deallocate) ? deallocate.stmt_id : UINT64_MAX;
    case 43: return read_open(&in);
    case 44: return pb_decode(&in, karramotx_test_Close_fields, &close) ? close.cursor_id : UINT64_MAX;
    case 45:
        return pb_decode(&in, karramotx_test_Fetch_fields, &fetch) ? fetch.cursor_id + fetch.fetch_rows : UINT64_MAX;
    default: return UINT64_MAX;
    }
}
