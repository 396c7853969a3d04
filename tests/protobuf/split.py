#!/usr/bin/python3
"""Frames whose embedded messages come in parts, with what Google's protobuf reads in them.

    tests/protobuf/split.py > tests/protobuf/split.txt

It needs what make.py needs, and the same lines come out in every run. The fields of a message that protobuf wrote
are shared out over several occurrences of it, at one layer or at all: a Prepare's and an Open's statement, an Any's
scalar, a scalar's octets and string. Some fields come again with another value. The frame is then parsed by protobuf's
own ParseFromString, and the line says what came out, as key=value in the words of vectors.txt.

Three things are not protobuf's. `body` is the chosen body as it stands in the frame; protobuf reads it as the message
that came out. `reason=17`: the chosen body, or an Open's Execute, occurs more than once; protobuf merges it and the
rules refuse it. `reason=6`: protobuf rejects the frame, or says that a required field is missing; so do the rules.
"""
import struct

from google.protobuf.message import DecodeError

import make
from make import frame, pb, rng

NUMBER, BYTES = 0, 2
PREPARE, EXECUTE, OPEN = 40, 41, 43
BODY_FIELD = {0: 2, 1: 3, 2: 4, 4: 5, 5: 6}
STMT_FIELD = {PREPARE: 2, OPEN: 4}
CLASS = {PREPARE: pb.Prepare, EXECUTE: pb.Execute, OPEN: pb.Open}

# The messages inside each message: those that are shared out over parts, and others that are gone into.
PARTED = {"prepare": {2: "prepare stmt"}, "open": {4: "open stmt"}, "any": {2: "scalar"},
          "scalar": {5: "flat", 9: "flat"}}
WHOLE = {"prepare stmt": {6: "stmt execute"}, "open stmt": {2: "execute"}, "stmt execute": {2: "any"},
         "execute": {2: "any"}}
NAME = {PREPARE: "prepare", EXECUTE: "execute", OPEN: "open"}


# --- bytes -----------------------------------------------------------------------------------------------------------
def varint(v):
    out = b""
    while v > 127:
        out += bytes([v & 127 | 128])
        v >>= 7
    return out + bytes([v])


def num(number, v):
    return varint(number << 3 | NUMBER) + varint(v)


def sub(number, *fields):
    inside = b"".join(fields)
    return varint(number << 3 | BYTES) + varint(len(inside)) + inside


def take_varint(s, at):
    value = shift = 0
    while True:
        value |= (s[at] & 127) << shift
        shift += 7
        at += 1
        if s[at - 1] < 128:
            return value, at


def end_of(s, at, wire):
    """Where the content of a value begins, and where the value ends; only for what protobuf or this script wrote."""
    if wire == NUMBER:
        return at, take_varint(s, at)[1]
    if wire == BYTES:
        size, at = take_varint(s, at)
        return at, at + size
    if wire == 3:
        begin = at
        while True:
            tag, at = take_varint(s, at)
            if tag & 7 == 4:
                return begin, at
            at = end_of(s, at, tag & 7)[1]
    return at, at + {1: 8, 5: 4}[wire]


def fields(s):
    """Number, wire type, content and all the bytes of each field."""
    found, at = [], 0
    while at < len(s):
        tag, value = take_varint(s, at)
        begin, end = end_of(s, value, tag & 7)
        found.append((tag >> 3, tag & 7, s[begin:end], s[at:end]))
        at = end
    return found


# --- sharing out -----------------------------------------------------------------------------------------------------
class Way:
    """How messages come apart: into how many parts, inside which messages (None is all), whether with an empty part,
    whether fields come again, and whether plain fields stand behind the others."""

    def __init__(self, parts, inside=None, empty=False, again=False, behind=False):
        self.parts, self.inside, self.empty, self.again, self.behind = parts, inside, empty, again, behind

    def cut(self, items):
        """The fields of a message, in as many lists as it has parts; with no number given, each by itself."""
        cuts = list(range(1, len(items)))
        if self.parts:
            cuts = sorted(rng.randrange(len(items) + 1) for _ in range(self.parts - 1))
        groups = [items[a:b] for a, b in zip([0] + cuts, cuts + [len(items)])]
        if self.empty:
            groups.insert(rng.randrange(len(groups) + 1), [])
        return groups


def mixed(lists):
    """All of them, each in its own order."""
    lists, out = [list(one) for one in lists if one], []
    while lists:
        one = rng.choice(lists)
        out.append(one.pop(0))
        lists = [left for left in lists if left]
    return out


SQL = sub(1, b"SELECT 1")


def others(name):
    """Some fields with other values, listed and not, to come ahead of the message's own or behind them."""
    types = [num(1, rng.choice(list(BODY_FIELD))), num(1, 3)]
    all_ = {
        "prepare": [num(1, 99)],
        "open": [num(1, 99), num(5, 98)],
        "prepare stmt": types + [sub(rng.randrange(2, 6)), sub(rng.randrange(2, 6), num(9, 1)), sub(6, SQL)],
        "open stmt": [num(1, 0), num(1, rng.choice([1, 5])), sub(7)],
        "any": [num(1, rng.choice([1, 2, 3])), num(1, 9)],
        "scalar": [num(1, rng.randrange(1, 9)), num(1, 9), num(2, 7), num(3, 8), num(8, 1)],
        "flat": [sub(1, b"again"), num(2, 5)],
    }.get(name, [])
    return rng.sample(all_, rng.randrange(len(all_) + 1))


def shared_out(name, s, way):
    """The fields of a message, those with a message in parts as several."""
    plain, kept, parted = [], [], []
    for number, wire, content, whole in fields(s):
        inside = {**PARTED, **WHOLE}.get(name, {}).get(number) if wire == BYTES else None
        if not inside:
            plain.append(whole)
            continue
        items = shared_out(inside, content, way)
        if name in PARTED and (way.inside is None or name in way.inside):
            parted.append([sub(number, *group) for group in way.cut(items)])
        else:
            kept.append(sub(number, *items))
    out = mixed([kept] + parted + ([] if way.behind else [plain]))
    if way.again:
        out = mixed([others(name), out])
    return out + (plain if way.behind else [])


# --- what protobuf makes of it ---------------------------------------------------------------------------------------
def scalar_text(s):
    """A Scalar in the words of vectors.txt; None where the value that its type names is not there."""
    kind = s.type
    name = {1: "v_signed_int", 2: "v_unsigned_int", 4: "v_octets", 5: "v_double", 6: "v_float", 7: "v_bool",
            8: "v_string"}
    if kind == 3:
        return "3:"
    if not s.HasField(name[kind]):
        return None
    value = getattr(s, name[kind])
    if kind in (4, 8):
        return f"{kind}:{value.value.hex()}"
    if kind == 5:
        return f"5:{struct.unpack('<Q', struct.pack('<d', value))[0]:x}"
    if kind == 6:
        return f"6:{struct.unpack('<I', struct.pack('<f', value))[0]:x}"
    return f"{kind}:{int(value)}"


def any_text(a):
    if a.type == pb.Any.SCALAR:
        return scalar_text(a.scalar) if a.HasField("scalar") else None
    return "object" if a.type == pb.Any.OBJECT else "array"


def bodies(kind, payload, number):
    """Each occurrence of a field of the statement, in all its parts."""
    parts = [f[2] for f in fields(payload) if f[:2] == (STMT_FIELD[kind], BYTES)]
    return [f[2] for part in parts for f in fields(part) if f[:2] == (number, BYTES)]


def body_of(kind, payload, m):
    """The chosen body's occurrences, and what protobuf made of them."""
    if kind == OPEN:
        return bodies(kind, payload, 2), m.stmt.prepare_execute
    names = {0: "find", 1: "insert", 2: "update", 4: "delete", 5: "stmt_execute"}
    return bodies(kind, payload, BODY_FIELD[m.stmt.type]), getattr(m.stmt, names[m.stmt.type])


def values_of(kind, payload, m):
    """What a line says of a message that protobuf parsed; None where it lacks what a type names."""
    found, inner = ([], m) if kind == EXECUTE else body_of(kind, payload, m)
    args = [] if isinstance(inner, pb.Crud) else [any_text(a) for a in inner.args]
    if None in args or kind != EXECUTE and not found:
        return None
    if len(found) > 1:
        return {"reason": 17}
    # compared as bytes, since a NaN equals nothing
    for body in found:
        assert type(inner).FromString(body).SerializeToString() == inner.SerializeToString(), payload.hex()
    has_compact = kind != PREPARE and inner.HasField("compact_metadata")
    return {
        "stmt": m.stmt_id if kind == PREPARE else inner.stmt_id,
        "cursor": m.cursor_id if kind == OPEN else None,
        "rows": m.fetch_rows if kind == OPEN and m.HasField("fetch_rows") else None,
        "compact": int(inner.compact_metadata) if has_compact else None,
        "operation": m.stmt.type if kind == PREPARE else None,
        "body": found[0].hex() if found else None,
        "args": ",".join(args),
    }


def parsed(kind, payload):
    """The message, or None where protobuf rejects it."""
    m = CLASS[kind]()
    try:
        m.ParseFromString(payload)
    except DecodeError:
        return None
    return m if m.IsInitialized() else None


def values_or_reason(kind, payload):
    m = parsed(kind, payload)
    return {"reason": 6} if m is None else values_of(kind, payload, m)


def show(kind, payload, values):
    line = [frame(kind, payload).hex(), f"kind={kind}"]
    print(" ".join(line + [f"{key}={value}" for key, value in values.items() if value is not None]))


def show_as(reason, kind, *payload):
    """A line that must have this reason, 0 if it is accepted."""
    payload = b"".join(payload)
    values = values_or_reason(kind, payload)
    assert values is not None and values.get("reason", 0) == reason, payload.hex()
    show(kind, payload, values)


# --- the lines -------------------------------------------------------------------------------------------------------
def prepare():
    m = pb.Prepare(stmt_id=rng.choice(make.IDS))
    m.stmt.type = rng.choice([0, 1, 2, 4, 5, 5, 5])
    if m.stmt.type == 5:
        m.stmt.stmt_execute.stmt = make.some_bytes()
        make.set_args(m.stmt.stmt_execute.args, False)
    else:
        getattr(m.stmt, {0: "find", 1: "insert", 2: "update", 4: "delete"}[m.stmt.type]).schema = "cycles"
    return PREPARE, m


def execute():
    """With arguments: there is nothing else in it to come apart."""
    m = pb.Execute()
    while not m.args:
        m = pb.Execute()
        make.set_execute(m)
    return EXECUTE, m


def open_():
    m = pb.Open(cursor_id=rng.choice(make.IDS))
    m.stmt.type = 0
    make.set_execute(m.stmt.prepare_execute)
    if rng.random() < 0.7:
        m.fetch_rows = rng.choice(make.ROWS)
    return OPEN, m


def show_split(message, way):
    """A message that comes apart in this way. What lacks a value that a type names is made anew."""
    values = None
    while values is None:
        kind, m = message()
        payload = b"".join(shared_out(NAME[kind], m.SerializeToString(deterministic=True), way))
        values = values_or_reason(kind, payload)
    assert values.get("reason") != 6, payload.hex()
    show(kind, payload, values)


STMT, ANY, SCALAR = ["prepare", "open"], ["any"], ["scalar"]


def split_messages():
    """At one layer, at two, and at all; into two parts, some, and one for each field."""
    for inside in (STMT, ANY, SCALAR, STMT + ANY, ANY + SCALAR, STMT + SCALAR, None):
        for message in (prepare, open_, execute):
            for way in (Way(2, inside), Way(2, inside, behind=True), Way(3, inside, empty=True), Way(None, inside)):
                show_split(message, way)
            for parts in (2, 4):
                show_split(message, Way(parts, inside, empty=True, again=True))
                show_split(message, Way(parts, inside, again=True, behind=True))
    for _ in range(60):
        for message in (prepare, open_, execute):
            show_split(message, Way(rng.randrange(6), None, *(rng.random() < chance for chance in (0.5, 0.7, 0.3))))


SINT = [num(1, 1), num(2, 9)]


def arg(*inside):
    return sub(2, *inside)


def octets(*parts):
    """An args field whose octets come in these parts."""
    return arg(num(1, 1), sub(2, num(1, 4), *(sub(5, *part) for part in parts)))


def many_parts():
    """Hundreds of parts, most of them empty or with the same plain field."""
    empty, types = [sub(2)] * 300, [sub(2, num(1, t % 6)) for t in range(299)]
    show_as(0, PREPARE, num(1, 1), *empty, sub(2, num(1, 5)), sub(2, sub(6, SQL)), *empty)
    show_as(0, PREPARE, *types, sub(2, num(1, 5), sub(6, SQL)), num(1, 1))
    show_as(0, EXECUTE, num(1, 1), arg(*(sub(2, num(2, v)) for v in range(200)), num(1, 1), sub(2, num(1, 1))))
    show_as(0, EXECUTE, num(1, 1), octets(*([sub(1, bytes([v]))] for v in range(200))))
    show_as(0, OPEN, *[sub(4)] * 200, sub(4, sub(2, num(1, 7))), num(1, 3), num(5, 2), sub(4, num(1, 0)))


def doubled_bodies():
    """The chosen body more than once: in one part, in two, with others between. Others may come again."""
    for t, number in BODY_FIELD.items():
        body, other = sub(number, SQL if t == 5 else b""), sub(2 if number == 3 else 3)
        show_as(17, PREPARE, num(1, 1), sub(2, num(1, t), body, body))
        show_as(17, PREPARE, num(1, 1), sub(2, num(1, t), body), sub(2, body))
        show_as(17, PREPARE, sub(2, body), sub(2, other, other), sub(2, body), sub(2, num(1, t)), num(1, 1))
        show_as(0, PREPARE, num(1, 1), sub(2, num(1, t), body), sub(2, other), sub(2, other))
    text, rest = sub(6, SQL), sub(6, arg(num(1, 1), sub(2, *SINT)), num(4, 1))
    for first, second in ((text, rest), (rest, text), (text, sub(6)), (sub(6), text), (rest, sub(6))):
        reason = 17 if text in (first, second) else 6
        show_as(reason, PREPARE, num(1, 1), sub(2, num(1, 5), first), sub(2, second))


def doubled_executes():
    """An Open's Execute more than once."""
    for first, second in ((num(1, 7), b""), (b"", num(1, 7)), (num(1, 7), num(1, 8)), (num(3, 1), num(1, 7))):
        show_as(17, OPEN, num(1, 1), sub(4, num(1, 0), sub(2, first), sub(2, second)))
        show_as(17, OPEN, sub(4, sub(2, first)), num(5, 3), sub(4, sub(2, second)), num(1, 1), sub(4, num(1, 0)))
    show_as(6, OPEN, num(1, 1), sub(4, num(1, 0), sub(2), sub(2)))


def bad_parts():
    """Parts that are no field lists by themselves, though all together would be, or would be in another order."""
    start, end = bytes([9 << 3 | 3]), bytes([9 << 3 | 4])
    number, content, fixed = num(1, 300), sub(9, b"ab"), b"\x4d\1\2\3\4"
    cuts = [(start, end), (end, start), (number[:2], number[2:]), (number[:1], number[1:]), (content[:3], content[3:]),
            (content[:1], content[1:]), (fixed[:3], fixed[3:]), (b"\x88", b"\1\0")]
    for a, b in cuts:
        show_as(6, PREPARE, num(1, 1), sub(2, num(1, 5), sub(6, SQL), a), sub(2, b))
        show_as(6, OPEN, num(1, 1), sub(4, num(1, 0), a), sub(4, b, sub(2, num(1, 7))))
        show_as(6, EXECUTE, num(1, 1), arg(num(1, 1), sub(2, *SINT, a), sub(2, b)))
        show_as(6, EXECUTE, num(1, 1), octets([sub(1, b"x"), a], [b]))


def missing_fields():
    """What is required and stands in none of the parts."""
    show_as(6, PREPARE, num(1, 1), sub(2), sub(2, sub(6, SQL)))
    show_as(6, PREPARE, num(1, 1), sub(2, num(1, 5)), sub(2, sub(6)))
    show_as(6, PREPARE, sub(2, num(1, 5)), sub(2, sub(6, SQL)))
    show_as(6, OPEN, num(1, 1), sub(4), sub(4, sub(2, num(1, 7))))
    show_as(6, OPEN, num(1, 1), sub(4, num(1, 0)), sub(4, sub(2)))
    show_as(6, EXECUTE, num(1, 1), arg(num(1, 1), sub(2, num(2, 9)), sub(2)))
    show_as(6, EXECUTE, num(1, 1), arg(sub(2, num(1, 1)), sub(2, num(2, 9))))
    show_as(6, EXECUTE, num(1, 1), octets([], [num(2, 1)]))


def main():
    split_messages()
    many_parts()
    doubled_bodies()
    doubled_executes()
    bad_parts()
    missing_fields()


if __name__ == "__main__":
    main()
