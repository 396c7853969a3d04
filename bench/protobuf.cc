// libprotobuf's side: the classes that protoc writes, one object of each kept and filled anew.
#include "others.h"

#include "mysqlx.pb.h"

#include <cstring>

using namespace karramotx::test;

namespace {

uint64_t bits(double v)
{
    uint64_t b;
    std::memcpy(&b, &v, sizeof b);
    return b;
}

uint64_t bits(float v)
{
    uint32_t b;
    std::memcpy(&b, &v, sizeof b);
    return b;
}

uint64_t value(const Scalar &s)
{
    switch (s.type()) {
    case Scalar::V_SINT: return static_cast<uint64_t>(s.v_signed_int());
    case Scalar::V_UINT: return s.v_unsigned_int();
    case Scalar::V_OCTETS: return s.v_octets().value().size();
    case Scalar::V_DOUBLE: return bits(s.v_double());
    case Scalar::V_FLOAT: return bits(s.v_float());
    case Scalar::V_BOOL: return s.v_bool();
    case Scalar::V_STRING: return s.v_string().value().size();
    default: return 0;
    }
}

template <class Args> uint64_t sum(const Args &args)
{
    uint64_t total = 0;
    for (const Any &a : args)
        total += 1 + value(a.scalar());
    return total;
}

template <class M> bool read(M &m, const uint8_t *payload, size_t len)
{
    return m.ParseFromArray(payload, static_cast<int>(len));
}

uint64_t of(const Execute &m) { return m.stmt_id() + sum(m.args()); }

uint64_t of(const Prepare &m)
{
    const StmtExecute &body = m.stmt().stmt_execute();
    return m.stmt_id() + body.stmt().size() + sum(body.args());
}

}  // namespace

uint64_t protobuf_read(uint8_t kind, const uint8_t *payload, size_t len)
{
    static Reset reset;
    static Prepare prepare;
    static Execute execute;
    static Deallocate deallocate;
    static Open open;
    static Close close;
    static Fetch fetch;
    switch (kind) {
    case 6: return read(reset, payload, len) ? 0 : UINT64_MAX;
    case 40: return read(prepare, payload, len) ? of(prepare) : UINT64_MAX;
    case 41: return read(execute, payload, len) ? of(execute) : UINT64_MAX;
    case 42: return read(deallocate, payload, len) ? deallocate.stmt_id() : UINT64_MAX;
    case 43:
        return read(open, payload, len) ? open.cursor_id() + of(open.stmt().prepare_execute()) + open.fetch_rows()
                                        : UINT64_MAX;
    case 44: return read(close, payload, len) ? close.cursor_id() : UINT64_MAX;
    case 45: return read(fetch, payload, len) ? fetch.cursor_id() + fetch.fetch_rows() : UINT64_MAX;
    default: return UINT64_MAX;
    }
}
