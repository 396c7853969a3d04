#!/usr/bin/env python3
"""Writes the input and the expected output of the program samples.

The input: the published examples of the Protocol Buffers encoding guide, the rules' samples of
frames, varints, groups and scalars, and frames on both sides of each rule of reading. The expected
output comes from the reader below, which shares no code with the library (its authors wrote both, so a
misreading that both share would not show), and from the values that the guide publishes, which are asserted here.

Before them come the replies, steps, messages and arguments of by_hand.txt, whose lines were worked out by hand and
stand there beside what is asked. Here they are only written as the program reads them.

    python3 tests/reading/vectors.py        writes crates/samples/stdin and stdout
"""
import os
import re
import struct
import sys

HERE = os.path.dirname(os.path.abspath(__file__))
CRATE = os.path.join(HERE, "..", "..", "crates", "samples")


class Bad(Exception):
    pass


class Twice(Exception):
    """The chosen body, or an Open's Execute, comes more than once."""


# --- the wire format -------------------------------------------------------------------------------
def varint(s, at, end):
    value = 0
    for k in range(10):
        if at + k >= end:
            raise Bad()
        b = s[at + k]
        value |= (b & 127) << (7 * k)
        if b < 128:
            return value % 2**64, at + k + 1
    raise Bad()


def tag(s, at, end):
    v, q = varint(s, at, end)
    if v >= 2**32 or v >> 3 == 0 or v & 7 in (6, 7):
        raise Bad()
    return v >> 3, v & 7, q


def value(s, wire, at, end):
    """number, start, length, next"""
    if wire == 0:
        v, q = varint(s, at, end)
        return v, at, q - at, q
    if wire in (1, 5):
        n = 8 if wire == 1 else 4
        if at + n > end:
            raise Bad()
        return int.from_bytes(s[at:at + n], "little"), at, n, at + n
    if wire == 2:
        n, q = varint(s, at, end)
        if q + n > end:
            raise Bad()
        return n, q, n, q + n
    raise Bad()


def skip_group(s, at, end, number, depth):
    if depth > 32:
        raise Bad()
    while True:
        n, w, at = tag(s, at, end)
        if w == 4:
            if n != number:
                raise Bad()
            return at
        at = skip_group(s, at, end, n, depth + 1) if w == 3 else value(s, w, at, end)[3]


def field(s, at, end):
    n, w, q = tag(s, at, end)
    if w == 3:
        r = skip_group(s, q, end, n, 1)
        return n, w, 0, q, r - q, r
    v, start, length, r = value(s, w, q, end)
    return n, w, v, start, length, r


def fields(s, at, end):
    out = []
    while at < end:
        f = field(s, at, end)
        out.append(f)
        at = f[5]
    return out


# --- messages: number -> (wire type, required, repeated, listed values) -----------------------------
NUM, F64, LEN, F32 = 0, 1, 2, 5
LAYOUT = {
    "plain": {},
    "prepare": {1: (NUM, True), 2: (LEN, True)},
    "prepare stmt": {1: (NUM, True, [0, 1, 2, 4, 5]), **{k: (LEN, False) for k in range(2, 7)}},
    "stmt execute": {1: (LEN, True), 2: (LEN, False), 3: (LEN, False), 4: (NUM, False)},
    "execute": {1: (NUM, True), 2: (LEN, False), 3: (NUM, False)},
    "deallocate": {1: (NUM, True)},
    "open": {1: (NUM, True), 4: (LEN, True), 5: (NUM, False)},
    "open stmt": {1: (NUM, True, [0]), 2: (LEN, False)},
    "fetch": {1: (NUM, True), 2: (NUM, False)},
    "close": {1: (NUM, True)},
    "any": {1: (NUM, True, [1, 2, 3]), 2: (LEN, False)},
    "scalar": {1: (NUM, True, [1, 2, 3, 4, 5, 6, 7, 8]), 2: (NUM, False), 3: (NUM, False), 5: (LEN, False),
               6: (F64, False), 7: (F32, False), 8: (NUM, False), 9: (LEN, False)},
    "bytes": {1: (LEN, True)},
}


def read(name, s, parts):
    """the fields of a message in parts: number -> (value, start, length) of each occurrence that is known"""
    rows, got = LAYOUT[name], {}
    for at, end in parts:
        for n, w, v, start, length, _ in fields(s, at, end):
            if n not in rows or rows[n][0] != w:
                continue
            if len(rows[n]) == 3 and v % 2**32 not in rows[n][2]:
                continue
            got.setdefault(n, []).append((v, start, length))
    for n, row in rows.items():
        if row[1] and n not in got:
            raise Bad()
    return got


def number(x, n):
    """the last one counts"""
    return x[n][-1][0]


def parts_of(x, n):
    """all occurrences of an embedded message"""
    if n not in x:
        raise Bad()
    return [(start, start + length) for _, start, length in x[n]]


def scalar(s, parts):
    x = read("scalar", s, parts)
    t = number(x, 1) % 2**32
    if t == 3:
        return "null"
    k = {1: 2, 2: 3, 4: 5, 5: 6, 6: 7, 7: 8, 8: 9}[t]
    if k not in x:
        raise Bad()
    v = number(x, k)
    if t == 1:
        return "sint %d" % (v >> 1 if v % 2 == 0 else -(v >> 1) - 1)
    if t == 2:
        return "uint %d" % v
    if t == 5:
        return "double nan %d" % v if v % 2**63 > 0x7FF << 52 else "double %r" % struct.unpack("<d", struct.pack("<Q", v))
    if t == 6:
        return "float nan %d" % v if v % 2**31 > 0xFF << 23 else "float %r" % struct.unpack("<f", struct.pack("<I", v))
    if t == 7:
        return "bool true" if v else "bool false"
    y = read("bytes", s, parts_of(x, k))
    return "%s %d+%d" % ("octets" if t == 4 else "string", y[1][-1][1], y[1][-1][2])


def any_value(s, at, n):
    x = read("any", s, [(at, at + n)])
    t = number(x, 1) % 2**32
    if t == 2:
        return "object"
    if t == 3:
        return "array"
    return scalar(s, parts_of(x, 2))


def arguments(s, parts):
    """each is one of its own, in whatever part"""
    return [any_value(s, f[3], f[4]) for at, end in parts for f in fields(s, at, end) if f[0] == 2 and f[1] == LEN]


def message(s):
    """(reason, used, line, arguments)"""
    if len(s) < 4:
        return 1, 0, "", []
    n = int.from_bytes(s[:4], "little")
    if n == 0 or n > 65532:
        return 2, 0, "", []
    if len(s) < 4 + n:
        return 1, 0, "", []
    used, kind = 4 + n, s[4]
    if kind not in (6, 7, 40, 41, 42, 43, 44, 45):
        return 5, used, "", []
    try:
        line, args = accepted(s[:used], kind, used)
    except Bad:
        return 6, used, "", []
    except Twice:
        return 17, used, "", []
    return 0, used, line, args


def once(parts):
    """the place and length of a body that comes once; it has been read before, all of it"""
    if len(parts) > 1:
        raise Twice()
    return parts[0][0], parts[0][1] - parts[0][0]


def accepted(s, kind, end):
    stmt = cursor = operation = 0
    rows = compact = None
    body, args = (0, 0), []
    whole = [(5, end)]
    if kind in (6, 7):
        read("plain", s, whole)
    elif kind == 40:
        x = read("prepare", s, whole)
        stmt = number(x, 1) % 2**32
        y = read("prepare stmt", s, parts_of(x, 2))
        operation = number(y, 1) % 2**32
        bodies = parts_of(y, {0: 2, 1: 3, 2: 4, 4: 5, 5: 6}[operation])
        read("stmt execute" if operation == 5 else "plain", s, bodies)
        if operation == 5:
            args = arguments(s, bodies)
        body = once(bodies)
    elif kind == 42:
        stmt = number(read("deallocate", s, whole), 1) % 2**32
    elif kind in (44, 45):
        x = read("close" if kind == 44 else "fetch", s, whole)
        cursor = number(x, 1) % 2**32
        rows = number(x, 2) if kind == 45 and 2 in x else None
    else:
        executes = whole
        if kind == 43:
            x = read("open", s, whole)
            cursor = number(x, 1) % 2**32
            rows = number(x, 5) if 5 in x else None
            executes = parts_of(read("open stmt", s, parts_of(x, 4)), 2)
        e = read("execute", s, executes)
        stmt = number(e, 1) % 2**32
        compact = (1 if number(e, 3) else 0) if 3 in e else None
        args = arguments(s, executes)
        if kind == 43:
            body = once(executes)
    first = [k for k, a in enumerate(args) if a in ("object", "array")][:1]
    line = " kind %d stmt %d cursor %d" % (kind, stmt, cursor)
    line += "" if rows is None else " rows %d" % rows
    line += "" if compact is None else " compact %d" % compact
    line += " operation %d body %d+%d args %d" % (operation, body[0], body[1], len(args))
    line += " first %d@%d" % (({"object": 2, "array": 3}[args[first[0]]], first[0]) if first else (0, 0))
    return line, args


# --- what the program prints ---------------------------------------------------------------------
def handed(a):
    return "refused 8" if a in ("object", "array") else a


def expected(letter, s):
    if letter in "VZ":
        try:
            v, q = varint(s, 0, len(s))
        except Bad:
            return letter + " bad\n"
        if letter == "V":
            return "V %d next %d\n" % (v, q)
        return "Z %d\n" % (v >> 1 if v % 2 == 0 else -(v >> 1) - 1)
    if letter == "F":
        out, at = "F", 0
        while at < len(s):
            try:
                n, w, v, start, length, at = field(s, at, len(s))
            except Bad:
                return out + " bad\n"
            out += " %d:%d=%d@%d+%d" % (n, w, v, start, length)
        return out + "\n"
    reason, used, line, args = message(s)
    out = "M %d used %d" % (reason, used)
    if reason:
        return out + "\n  0 / refused %d\n" % reason
    out += line + "\n"
    for a in args:
        out += "  %s / %s\n" % (a, handed(a))
    return out + "  end / refused 9\n"


# --- building frames ---------------------------------------------------------------------------
def vi(v):
    out = b""
    while v > 127:
        out += bytes([128 | v & 127])
        v >>= 7
    return out + bytes([v])


def num(n, v):
    return vi(n << 3) + vi(v)


def sub(n, b):
    return vi(n << 3 | 2) + vi(len(b)) + b


def fix(n, b):
    return vi(n << 3 | (1 if len(b) == 8 else 5)) + b


def frame(kind, payload=b""):
    return (len(payload) + 1).to_bytes(4, "little") + bytes([kind]) + payload


def zz(v):
    return v * 2 if v >= 0 else -v * 2 - 1


def sc(t, *more):
    return sub(2, num(1, 1) + sub(2, num(1, t) + b"".join(more)))


def nested(d, last=None):
    start, stop = vi(9 << 3 | 3), vi(9 << 3 | 4)
    return start * d + stop * (d - 1) + (stop if last is None else last)


H = bytes.fromhex
OBJECT, ARRAY = sub(2, num(1, 2)), sub(2, num(1, 3))
SCALARS = [
    sc(1, num(2, zz(0))), sc(1, num(2, zz(-1))), sc(1, num(2, zz(1))), sc(1, num(2, zz(-2**63))), sc(1, num(2, zz(2**63 - 1))),
    sc(2, num(3, 0)), sc(2, num(3, 2**64 - 1)), sc(3), sc(4, sub(5, sub(1, b"abc"))), sc(4, sub(5, sub(1, b"") + num(2, 7))),
    sc(5, fix(6, struct.pack("<d", 25.4))), sc(5, fix(6, struct.pack("<d", -2.5))),
    sc(5, fix(6, H("010000000000f07f"))), sc(5, fix(6, H("efbeadde0000f8ff"))),
    sc(6, fix(7, struct.pack("<f", 1.0))), sc(6, fix(7, H("0100807f"))), sc(6, fix(7, H("ffffffff"))),
    sc(7, num(8, 0)), sc(7, num(8, 2**63)), sc(8, sub(9, sub(1, "naïf".encode()))),
]
SQL = sub(1, b"SELECT 1")
PREPARED = num(1, 1) + sub(2, num(1, 5) + sub(6, SQL))
EXEC = num(1, 7)


def prepare(t, k, body, i=1):
    return frame(40, num(1, i) + sub(2, num(1, t) + sub(k, body)))


def opened(execute, more=b"", cursor=3):
    return frame(43, num(1, cursor) + sub(4, num(1, 0) + sub(2, execute)) + more)


def parted(*parts):
    """a Prepare whose statement comes in parts"""
    return frame(40, num(1, 1) + b"".join(sub(2, p) for p in parts))


def opens(*parts, more=b""):
    """an Open whose statement comes in parts"""
    return frame(43, num(1, 3) + b"".join(sub(4, p) for p in parts) + more)


def arg(*fields_of_any):
    """an Execute with one argument, a scalar if no other type comes"""
    return frame(41, EXEC + sub(2, num(1, 1) + b"".join(fields_of_any)))


VECTORS = [
    # the encoding guide's published examples
    ("V", H("01")), ("V", H("9601")), ("V", H("feffffffffffffffff01")), ("F", H("089601")), ("F", H("120774657374696e67")),
    ("F", H("1a03089601")), ("F", H("3206038e029ea705")), ("F", H("220568656c6c6f280128022803")),
] + [("Z", vi(z)) for z in (0, 1, 2, 3, 0xFFFFFFFE, 0xFFFFFFFF, 2**64 - 2, 2**64 - 1)] + [
    # varints: V7 to V9, bits past 64, an eleventh byte, cut ones, padded ones
    ("V", H("8001")), ("V", b"\xff" * 10), ("V", b"\xff" * 9 + b"\x01"), ("V", b"\xff" * 9 + b"\x7f"), ("V", b"\x80" * 9 + b"\x02"),
    ("V", b"\x80" * 10 + b"\x00"), ("V", b"\x80" * 9 + b"\x00"), ("V", b""), ("V", b"\x80"), ("V", H("8180808000")),
    # tags: number 0, wire types 6 and 7, 2^32, a padded one; lengths and fixed values past the end
    ("F", H("0000")), ("F", H("0e00")), ("F", H("0f00")), ("F", vi(2**32) + b"\x00"), ("F", vi(2**32 - 8) + b"\x05"), ("F", H("8880808000 2a")),
    ("F", H("0a02ff")), ("F", H("0a00")), ("F", H("09 0102030405060708")), ("F", H("09 01020304050607")), ("F", H("0d 01020304")), ("F", H("0d 010203")),
    ("F", H("0aff ffffffffffffffff01")),
    # groups: depth 32 and 33, a wrong end, a lone end, an unended one, fields inside
    ("F", nested(1)), ("F", nested(32)), ("F", nested(33)), ("F", nested(2, vi(8 << 3 | 4))), ("F", H("0c")), ("F", H("0b")), ("F", H("0b0801")),
    ("F", H("0b 0801 120161 1d01020304 13 14 0c 1005")), ("F", H("0b 0e 0c")),
    # heads: P1 to P4 and their other sides
    ("M", b""), ("M", H("000000")), ("M", H("00000000")), ("M", H("fdff0000")), ("M", H("fcff0000")), ("M", H("0100000006")), ("M", H("02000000 06")),
    ("M", H("0100000006") + b"\xff\xff"), ("M", frame(5)), ("M", frame(0)), ("M", frame(255)),
    # Reset and Session close, with unknown fields good and bad
    ("M", frame(6)), ("M", frame(7)), ("M", frame(6, num(1, 2) + sub(3, b"x"))), ("M", frame(7, H("08"))), ("M", frame(6, nested(32))), ("M", frame(6, nested(33))),
    # P5, ids of 32 bits, the last occurrence, another wire type, a missing field
    ("M", H("030000002a0801")), ("M", frame(42, num(1, 2**32 + 5))), ("M", frame(42, num(1, 1) + num(1, 9))), ("M", frame(42, num(1, 1) + sub(1, b"zz"))),
    ("M", frame(42, sub(1, b"zz"))), ("M", frame(42)), ("M", frame(44, num(1, 22))), ("M", frame(44, num(1, 22) + num(2, 9))), ("M", frame(44, num(2, 9))),
    ("M", frame(45, num(1, 1))), ("M", frame(45, num(1, 1) + num(2, 0))), ("M", frame(45, num(1, 1) + num(2, 2**64 - 1))), ("M", frame(45, num(2, 1))),
    ("M", frame(45, H("8880808000 8180808000"))),
    # Prepare: each type, P10, unlisted types, no body, the wrong body, the last listed type, bodies not chosen
    ("M", frame(40, PREPARED)), ("M", prepare(0, 2, num(1, 2))), ("M", prepare(1, 3, b"")), ("M", prepare(2, 4, num(9, 9))), ("M", prepare(4, 5, sub(4, b"q"))),
    ("M", prepare(3, 4, b"")), ("M", prepare(3, 5, b"")), ("M", prepare(6, 6, SQL)), ("M", prepare(2**32 + 5, 6, SQL)), ("M", prepare(0, 3, b"")),
    ("M", prepare(0, 2, H("08"))), ("M", prepare(5, 6, b"")), ("M", prepare(5, 6, num(1, 1))), ("M", frame(40, num(1, 1))), ("M", frame(40, sub(2, b""))),
    ("M", frame(40, num(1, 1) + sub(2, num(1, 5) + sub(6, SQL) + num(1, 3)))), ("M", frame(40, num(1, 1) + sub(2, num(1, 5) + sub(6, SQL) + num(1, 0) + sub(2, b"")))),
    ("M", frame(40, num(1, 1) + sub(2, num(1, 5) + sub(2, H("ff")) + sub(6, SQL)))),
    # an earlier embedded message is read, at each layer; a bad one spoils the frame
    ("M", frame(40, num(1, 1) + sub(2, H("ff")) + sub(2, num(1, 5) + sub(6, H("08")) + sub(6, SQL)))),
    ("M", frame(40, num(1, 1) + sub(2, num(1, 5) + sub(6, SQL)) + sub(2, H("ff")))),
    # StmtExecute's arguments inside a Prepare
    ("M", prepare(5, 6, SQL + SCALARS[0] + OBJECT + ARRAY)), ("M", prepare(5, 6, SQL + sub(2, b""))), ("M", prepare(5, 6, SQL + num(2, 5) + sub(3, b"ns") + num(4, 1))),
    # Execute: each scalar, objects and arrays, bad Anys and Scalars, compact_metadata
    ("M", frame(41, EXEC)), ("M", frame(41, EXEC + b"".join(SCALARS))), ("M", frame(41, EXEC + SCALARS[0] + ARRAY + OBJECT + SCALARS[1])),
    ("M", frame(41, num(3, 0) + SCALARS[7] + EXEC)), ("M", frame(41, EXEC + num(3, 300))), ("M", frame(41, SCALARS[0])),
    ("M", frame(41, EXEC + sub(2, num(1, 1)))), ("M", frame(41, EXEC + sub(2, num(1, 4)))), ("M", frame(41, EXEC + sub(2, num(1, 2) + sub(2, H("ff"))))),
    ("M", frame(41, EXEC + sub(2, num(1, 1) + sub(2, H("ff")) + sub(2, num(1, 3))))), ("M", frame(41, EXEC + sc(0))), ("M", frame(41, EXEC + sc(9))),
    ("M", frame(41, EXEC + sc(1))), ("M", frame(41, EXEC + sc(1, num(3, 4)))), ("M", frame(41, EXEC + sc(4, sub(5, b"")))), ("M", frame(41, EXEC + sc(8, sub(9, num(1, 1))))),
    ("M", frame(41, EXEC + sc(3, sub(5, H("ff")), sub(9, H("ff"))))), ("M", frame(41, EXEC + sc(2, num(3, 1), num(3, 2), sub(3, b"x")))), ("M", frame(41, EXEC + sc(5, fix(6, b"\0" * 4)))),
    ("M", frame(41, EXEC + sub(2, num(1, 1) + sub(2, num(1, 2) + num(3, 8) + num(1, 77))))),
    # Open: with and without fetch_rows, its Execute missing, another type, arguments, unknown fields
    ("M", opened(EXEC)), ("M", opened(EXEC, num(5, 1))), ("M", opened(EXEC + num(3, 1) + SCALARS[8] + ARRAY, num(5, 2**40))), ("M", opened(b"")), ("M", opened(EXEC, num(2, 4) + nested(3))),
    ("M", frame(43, num(1, 3) + sub(4, num(1, 0)))), ("M", frame(43, num(1, 3) + sub(4, num(1, 1) + sub(2, EXEC)))), ("M", frame(43, num(1, 3))), ("M", frame(43, sub(4, num(1, 0) + sub(2, EXEC)))),
    ("M", frame(43, num(1, 3) + sub(4, H("ff")) + sub(4, num(1, 0) + sub(2, H("ff")) + sub(2, EXEC)))),
    # a statement in parts: its type and body apart, either first; empty parts; the last type; type or body in no part
    ("M", parted(num(1, 5), sub(6, SQL))), ("M", parted(sub(6, SQL), num(1, 5))),
    ("M", parted(b"", num(1, 0), b"", sub(2, num(1, 2)), b"")), ("M", parted(num(1, 0), sub(6, SQL), num(1, 5))),
    ("M", parted(num(1, 5), sub(2, b""), num(1, 0) + num(1, 3))), ("M", parted(b"", sub(6, SQL))),
    ("M", parted(num(1, 5), b"")), ("M", parted(num(1, 5), sub(2, b""))),
    ("M", parted(num(1, 5) + H("4b"), H("4c") + sub(6, SQL))), ("M", parted(num(1, 5), sub(6, SQL), H("ff"))),
    ("M", parted(num(1, 5) + sub(2, H("ff")), sub(6, SQL) + sub(2, H("08")))),
    ("M", parted(num(1, 0) + sub(6, H("ff")), sub(6, H("08")), sub(2, b""))), ("M", opens(num(1, 0), sub(2, EXEC))),
    ("M", opens(sub(2, EXEC + SCALARS[8]), b"", num(1, 0), more=num(5, 9))), ("M", opens(num(1, 1), sub(2, EXEC))),
    ("M", opens(num(1, 0), H("08"))),
    # an argument's scalar in parts, and its octets or string; an argument is no part of another
    ("M", arg(sub(2, num(1, 2)), sub(2, num(3, 7)))),
    ("M", arg(sub(2, num(3, 7)), b"", sub(2, b""), sub(2, num(1, 2)))),
    ("M", arg(sub(2, num(1, 2) + num(3, 7)), sub(2, num(1, 3)))), ("M", arg(sub(2, num(1, 2)), sub(2, num(2, 7)))),
    ("M", arg(sub(2, num(3, 7)), sub(2, b""))), ("M", arg(sub(2, H("ff")), sub(2, num(1, 3)))),
    ("M", arg(sub(2, H("ff")), num(1, 2), sub(2, H("08")))),
    ("M", arg(sub(2, num(1, 4) + sub(5, b"")), sub(2, sub(5, sub(1, b"abc"))))),
    ("M", arg(sub(2, num(1, 8) + sub(9, sub(1, b"a")) + sub(9, sub(1, b"bc") + num(2, 1)) + sub(9, num(2, 2))))),
    ("M", arg(sub(2, num(1, 4) + sub(5, H("ff")) + sub(5, sub(1, b"a"))))),
    ("M", arg(sub(2, num(1, 4) + sub(5, b"")), sub(2, sub(5, num(2, 1))))),
    ("M", arg(sub(2, num(1, 4) + sub(5, sub(1, b"a")) + sub(9, H("ff"))), sub(2, sub(9, H("08"))))),
    ("M", frame(41, EXEC + sub(2, num(1, 1)) + sub(2, sub(2, num(1, 3))))),
    # a chosen body that comes twice: read first, then refused 17; what is not chosen may come again
    ("M", parted(num(1, 0) + sub(2, b"") + sub(2, b""))), ("M", parted(num(1, 0), sub(2, num(1, 2)), sub(2, b""))),
    ("M", parted(num(1, 0) + sub(2, b"") + sub(2, H("08")))), ("M", parted(num(1, 5) + sub(6, SQL), sub(6, SQL))),
    ("M", parted(num(1, 5) + sub(6, SCALARS[0]), sub(6, SQL))),
    ("M", parted(num(1, 5) + sub(6, SCALARS[0]), sub(6, OBJECT))),
    ("M", parted(num(1, 5) + sub(6, SQL), sub(6, sub(2, num(1, 1))))),
    ("M", parted(num(1, 5) + sub(6, SQL), sub(6, H("ff")))),
    ("M", parted(num(1, 0) + sub(2, b""), sub(3, H("ff")), sub(3, b""))),
    ("M", parted(num(1, 0) + sub(2, b""), sub(3, b""), sub(3, b"") + num(1, 1))),
    ("M", opens(num(1, 0) + sub(2, EXEC) + sub(2, EXEC))),
    ("M", opens(num(1, 0) + sub(2, b""), sub(2, EXEC + OBJECT))),
    ("M", opens(num(1, 0) + sub(2, b""), sub(2, num(3, 1)))),
    ("M", opens(num(1, 0) + sub(2, EXEC), sub(2, sub(2, num(1, 4))))),
]

GUIDE = {  # what the encoding guide publishes
    ("V", "9601"): "V 150 next 2\n", ("F", "089601"): "F 1:0=150@1+2\n", ("F", "120774657374696e67"): "F 2:2=7@2+7\n",
    ("F", "1a03089601"): "F 3:2=3@2+3\n", ("F", "3206038e029ea705"): "F 6:2=6@2+6\n",
    ("V", "feffffffffffffffff01"): "V %d next 10\n" % (2**64 - 2),
    ("Z", "00"): "Z 0\n", ("Z", "01"): "Z -1\n", ("Z", "02"): "Z 1\n", ("Z", "03"): "Z -2\n",
    ("Z", vi(0xFFFFFFFE).hex()): "Z %d\n" % 0x7FFFFFFF, ("Z", vi(0xFFFFFFFF).hex()): "Z %d\n" % -0x80000000,
}


# --- the samples worked out by hand ----------------------------------------------------------------
# A record is a letter and fields: a number or bytes, under the number that src/given.rt of the crate has for its name.
LETTERS = {word: word[0].encode() for word in ("heading", "step", "look", "reply", "message", "argument", "pair")}
LETTERS["session"] = b"n"
MESSAGES = {"Reset": 6, "SessionClose": 7, "Unknown": 8, "Prepare": 40, "Execute": 41, "Deallocate": 42, "Open": 43,
            "Close": 44, "Fetch": 45}
CASES = {
    "reply": {"Ok": 0, "Error": 1, "Done": 14, "Suspended": 15, "Executed": 17, "Nothing": 255},
    "step": {"None": 0, "Prepared": 1, "Result": 2, "Done": 3, "Failed": 4},
    "message": MESSAGES, "pair": MESSAGES,
    "argument": {"Refused": 0, "Sint": 1, "Uint": 2, "Null": 3, "Octets": 4, "Double": 5, "Float": 6, "Bool": 7,
                 "String": 8, "Object": 9, "Array": 10, "Nan": 11, "DoubleNan": 12, "FloatNan": 13},
}
# The buffer has this many bytes, and this many of what was written are shown, where the record does not say.
ROOMS = {"reply": 128, "step": 128, "message": 65540, "argument": 32, "pair": 32}
SHOWN = 64


def bytes_of(text):
    out = b""
    for part in text.split("."):
        if "*" in part:
            one, times = part.split("*")
            out += H(one) * int(times)
        else:
            out += H(part)
    return out


def fields_of(word, case, values, numbers):
    """The record's fields; a Sint's number goes as zigzag, and a body without the zeros at its end."""
    got = {"case": CASES[word][case]} if case else {}
    for name, text in values:
        if name in ("first", "second"):
            got[name] = record_of("argument " + text[1:-1], numbers)
        elif name in ("frame", "args", "source", "body"):
            got[name] = bytes_of(text)
        else:
            got[name] = zz(int(text)) if case == "Sint" and name == "value" else int(text, 0)
    if "body" in got:
        got["size"] = len(got["body"])
        got["body"] = got["body"].rstrip(b"\0")
    if word in ROOMS:
        got.setdefault("room", ROOMS[word])
        got.setdefault("shown", SHOWN)
    return b"".join((sub if isinstance(v, bytes) else num)(numbers[name], v) for name, v in got.items())


def record_of(line, numbers):
    word, _, rest = line.partition(" ")
    if word == "heading":
        return sub(numbers["text"], (rest + "\n").encode())
    case, values = re.match(r"(\w+(?![\w=]))?(.*)", rest).groups()
    return fields_of(word, case, re.findall(r"(\w+)=(\([^)]*\)|\S+)", values), numbers)


def repeated(line):
    """The records that a line stands for."""
    many = re.match(r"ID (\d+) to (\d+): (.*)", line)
    if not many:
        return [line]
    first, last, text = many.groups()
    return [text.replace("ID", "%02x" % k) for k in range(int(first), int(last) + 1)]


def by_hand():
    """(the records, the lines that they print)"""
    with open(os.path.join(CRATE, "src", "given.rt")) as f:
        numbers = {name.lower(): int(n) for name, n in re.findall(r"pub const (\w+): u64 = (\d+);", f.read())}
    with open(os.path.join(HERE, "by_hand.txt")) as f:
        lines = [line for line in f.read().split("\n") if line and line[0] != "#"]
    records, printed = [], []
    for k, line in enumerate(lines):
        if line.startswith("= "):
            continue
        expect = []
        while k + 1 < len(lines) and lines[k + 1].startswith("= "):
            k += 1
            expect.append(lines[k][2:] + "\n")
        for one in repeated(line):
            records.append((LETTERS[one.split(" ")[0]], record_of(one, numbers)))
            printed += expect
    return records, printed


def record(letter, s):
    return letter + struct.pack("<H", len(s)) + s


def main():
    for (letter, text), line in GUIDE.items():
        if expected(letter, H(text)) != line:
            sys.exit("the guide's %s %s: %r" % (letter, text, expected(letter, H(text))))
    records, printed = by_hand()
    data = b"".join(record(letter, s) for letter, s in records)
    data += b"".join(record(letter.encode(), s) for letter, s in VECTORS)
    lines = "".join(printed) + "".join(expected(letter, s) for letter, s in VECTORS)
    with open(os.path.join(CRATE, "stdin"), "wb") as f:
        f.write(data)
    with open(os.path.join(CRATE, "stdout"), "w") as f:
        f.write(lines)
    print("%d records by hand, %d vectors, %d bytes" % (len(records), len(VECTORS), len(data)))


if __name__ == "__main__":
    main()
