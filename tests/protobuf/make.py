#!/usr/bin/python3
"""Frames of the eight client messages as Google's protobuf writes them, with what was put into them.

    tests/protobuf/make.py > tests/protobuf/vectors.txt

It needs protoc and Google's protobuf for Python (Debian: protobuf-compiler, python3-protobuf). The same
numbers come out in every run. Each line is a frame in hex and what it holds, as key=value: kind, stmt,
cursor, rows, compact, operation where the message has them, body in hex, args. An argument is its Scalar type
and its value: a decimal, the bits of a double or float in hex, bytes in hex; `object` and `array` stand for
themselves. `plain=1` says that every field in the frame is one that the library's writer knows. No number is
padded: protobuf writes the shortest form. host/rust/tests/padded_vectors.rs pads copies of the frames.
"""
import importlib
import os
import random
import struct
import subprocess
import sys
import tempfile

HERE = os.path.dirname(os.path.abspath(__file__))


def generated():
    """The module that protoc writes for mysqlx.proto."""
    out = tempfile.mkdtemp()
    subprocess.run(["protoc", f"--python_out={out}", f"-I{HERE}", "mysqlx.proto"], check=True)
    sys.path.insert(0, out)
    return importlib.import_module("mysqlx_pb2")


pb = generated()
rng = random.Random(9270)

IDS = [0, 1, 7, 127, 128, 300, 16383, 16384, 2**31, 2**32 - 1]
ROWS = [0, 1, 300, 2**32 - 1, 2**32, 2**63, 2**64 - 1]
SIGNED = [0, -1, 1, -2, 63, 64, -64, -65, 2**31, -(2**31), 2**63 - 1, -(2**63)]
UNSIGNED = [0, 1, 127, 128, 2**32, 2**63, 2**64 - 1]
# zeros, infinities, quiet NaNs with and without bits of their own, the smallest and the largest
DOUBLES = [0, 1 << 63, 0x3FF0000000000000, 0x7FF0000000000000, 0xFFF0000000000000, 0x7FF8000000000000,
           0xFFF8000000C0FFEE, 1, 0x7FEFFFFFFFFFFFFF]
FLOATS = [0, 1 << 31, 0x3F800000, 0x7F800000, 0xFF800000, 0x7FC00000, 0xFFC0BEEF, 1, 0x7F7FFFFF]


def some_bytes():
    return bytes(rng.randrange(256) for _ in range(rng.choice([0, 1, 3, 17, 127, 128, 200])))


def set_scalar(any_, kind):
    """Fills an Any with a scalar; answers its text and whether the writer knows all its fields."""
    any_.type = pb.Any.SCALAR
    s = any_.scalar
    s.type = kind
    if kind == 1:
        s.v_signed_int = rng.choice(SIGNED)
        return f"1:{s.v_signed_int}", True
    if kind == 2:
        s.v_unsigned_int = rng.choice(UNSIGNED)
        return f"2:{s.v_unsigned_int}", True
    if kind == 3:
        return "3:", True
    if kind == 5:
        bits = rng.choice(DOUBLES)
        s.v_double = struct.unpack("<d", struct.pack("<Q", bits))[0]
        return f"5:{bits:x}", True
    if kind == 6:
        bits = rng.choice(FLOATS)
        s.v_float = struct.unpack("<f", struct.pack("<I", bits))[0]
        return f"6:{bits:x}", True
    if kind == 7:
        s.v_bool = rng.random() < 0.5
        return f"7:{int(s.v_bool)}", True
    part = s.v_octets if kind == 4 else s.v_string
    part.value = some_bytes()
    plain = rng.random() < 0.7
    if not plain and kind == 4:
        part.content_type = 1
    if not plain and kind == 8:
        part.collation = 255
    return f"{kind}:{part.value.hex()}", plain


def set_object(any_):
    any_.type = pb.Any.OBJECT
    field = any_.obj.fld.add()
    field.key = "cycle"
    set_scalar(field.value, 2)


def set_array(any_):
    any_.type = pb.Any.ARRAY
    set_scalar(any_.array.value.add(), 1)


def set_args(args, scalars_only):
    texts, plain = [], True
    for _ in range(rng.choice([0, 0, 1, 2, 4, 9])):
        any_ = args.add()
        pick = rng.randrange(1, 9) if scalars_only else rng.randrange(1, 11)
        if pick == 9:
            set_object(any_)
            texts.append("object")
        elif pick == 10:
            set_array(any_)
            texts.append("array")
        else:
            text, known = set_scalar(any_, pick)
            texts.append(text)
            plain = plain and known
        plain = plain and pick < 9
    return ",".join(texts), plain


def frame(kind, payload):
    return struct.pack("<IB", len(payload) + 1, kind) + payload


def show(kind, message, plain=True, **values):
    line = [frame(kind, message.SerializeToString(deterministic=True)).hex(), f"kind={kind}"]
    line += [f"{key}={value}" for key, value in values.items() if value is not None]
    print(" ".join(line + [f"plain={int(plain)}"]))


def prepare():
    m = pb.Prepare()
    m.stmt_id = rng.choice(IDS)
    operation = rng.choice([0, 1, 2, 4, 5])
    m.stmt.type = operation
    args = ""
    if operation == 5:
        body = m.stmt.stmt_execute
        body.stmt = some_bytes()
        args, _ = set_args(body.args, False)
        if rng.random() < 0.5:
            body.namespace = "sql"
        if rng.random() < 0.5:
            body.compact_metadata = rng.random() < 0.5
    else:
        body = getattr(m.stmt, {0: "find", 1: "insert", 2: "update", 4: "delete"}[operation])
        body.schema = "cycles"
        set_args(body.values, False)
        body.mark = 0xDEADBEEF
        body.order.by = -3
    encoded = body.SerializeToString(deterministic=True).hex()
    show(40, m, stmt=m.stmt_id, operation=operation, body=encoded, args=args)


def set_execute(m):
    m.stmt_id = rng.choice(IDS)
    args, plain = set_args(m.args, rng.random() < 0.7)
    compact = rng.choice([None, 0, 1])
    if compact is not None:
        m.compact_metadata = bool(compact)
    return args, plain, compact


def execute():
    m = pb.Execute()
    args, plain, compact = set_execute(m)
    show(41, m, plain, stmt=m.stmt_id, compact=compact, args=args)


def open_():
    m = pb.Open()
    m.cursor_id = rng.choice(IDS)
    m.stmt.type = 0
    inner = m.stmt.prepare_execute
    args, plain, compact = set_execute(inner)
    rows = rng.choice([None] + ROWS)
    if rows is not None:
        m.fetch_rows = rows
    body = inner.SerializeToString(deterministic=True).hex()
    show(43, m, plain, stmt=inner.stmt_id, cursor=m.cursor_id, rows=rows, compact=compact, body=body, args=args)


def fetch():
    m = pb.Fetch()
    m.cursor_id = rng.choice(IDS)
    rows = rng.choice([None] + ROWS)
    if rows is not None:
        m.fetch_rows = rows
    show(45, m, cursor=m.cursor_id, rows=rows)


def main():
    print(frame(6, b"").hex(), "kind=6 plain=1")
    print(frame(7, b"").hex(), "kind=7 plain=1")
    for number in IDS:
        show(42, pb.Deallocate(stmt_id=number), stmt=number)
        show(44, pb.Close(cursor_id=number), cursor=number)
    for _ in range(60):
        prepare()
        execute()
        open_()
        fetch()


if __name__ == "__main__":
    main()
