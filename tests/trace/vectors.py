#!/usr/bin/env python3
"""Writes the runs that the program trace is run on, and what it must print of them.

runs.bin is a list of runs, each four bytes of length, least first, and the bytes of a trace. The
expected output comes from the keeper below, which is written from the rules alone and shares no code
with the library. The runs reach each refusal that a record can reach (all but 3: the reply buffer has
128 bytes) and each mark; they cut a record at each place, and stand on both sides of each limit.

tests/differential/tests/trace_program.rs runs them.

    python3 tests/trace/vectors.py        writes tests/trace/runs.bin and runs.out
"""
import os
from collections import namedtuple

HERE = os.path.dirname(os.path.abspath(__file__))
HEADER = "n reason first rows mark stmts cursors owed"

# A report, and the numbers that each kind has in a record.
Report = namedtuple("Report", "kind placeholders columns rows code", defaults=(0, 0, 0, 0))
PARTS = [[], ["placeholders"], ["columns", "rows"], [], ["code"]]


class Bad(Exception):
    pass


class Twice(Exception):
    """the chosen body, or an Open's Execute, comes more than once"""


class Cut(Exception):
    pass


# --- reading -----------------------------------------------------------------------------------------
def varint(s, at):
    value = 0
    for k in range(10):
        if at + k >= len(s):
            raise Bad()
        value |= (s[at + k] & 127) << (7 * k)
        if s[at + k] < 128:
            return value % 2**64, at + k + 1
    raise Bad()


def skip_value(s, wire, at, depth, number):
    """value, bytes, next"""
    if wire == 0:
        v, q = varint(s, at)
        return v, b"", q
    if wire in (1, 5):
        n = 8 if wire == 1 else 4
        if at + n > len(s):
            raise Bad()
        return 0, s[at:at + n], at + n
    if wire == 2:
        n, q = varint(s, at)
        if q + n > len(s):
            raise Bad()
        return n, s[q:q + n], q + n
    if wire == 3:
        if depth == 32:
            raise Bad()
        while True:
            num, w, at = tag(s, at)
            if w == 4:
                if num != number:
                    raise Bad()
                return 0, b"", at
            _, _, at = skip_value(s, w, at, depth + 1, num)
    raise Bad()


def tag(s, at):
    v, q = varint(s, at)
    if v >= 2**32 or v < 8 or v % 8 > 5:
        raise Bad()
    return v // 8, v % 8, q


def fields(s):
    """the fields of a message: number, wire type, value, bytes"""
    found, at = [], 0
    while at < len(s):
        number, wire, at = tag(s, at)
        value, part, at = skip_value(s, wire, at, 0, number)
        found.append((number, wire, value, part))
    return found


def last(fs, number, wire, listed=None):
    """the last occurrence of a known field: its value, or its bytes for wire types 1, 2 and 5"""
    good = [f for f in fs if f[0] == number and f[1] == wire and (listed is None or f[2] % 2**32 in listed)]
    if not good:
        return None
    return good[-1][2] if wire == 0 else good[-1][3]


def need(x):
    if x is None:
        raise Bad()
    return x


def inside(fs, number):
    """the fields of a message that is embedded in one part or several, and how often it comes; each part is read"""
    parts = [f[3] for f in fs if f[0] == number and f[1] == 2]
    if not parts:
        raise Bad()
    return [f for part in parts for f in fields(part)], len(parts)


def scalar(fs):
    kind = need(last(fs, 1, 0, range(1, 9))) % 2**32
    number, wire = {1: (2, 0), 2: (3, 0), 3: (0, 0), 4: (5, 2), 5: (6, 1), 6: (7, 5), 7: (8, 0), 8: (9, 2)}[kind]
    if kind in (4, 8):
        need(last(inside(fs, number)[0], 1, 2))
    elif kind != 3:
        need(last(fs, number, wire))


def argument(s):
    """1 scalar, 2 object, 3 array"""
    fs = fields(s)
    kind = need(last(fs, 1, 0, (1, 2, 3))) % 2**32
    if kind == 1:
        scalar(inside(fs, 2)[0])
    return kind


def arguments(fs):
    return [argument(f[3]) for f in fs if f[0] == 2 and f[1] == 2]


def execute_of(fs):
    args = arguments(fs)
    return need(last(fs, 1, 0)) % 2**32, args


def body_of(fs):
    """a Prepare's stmt; how often its body comes"""
    kind = need(last(fs, 1, 0, (0, 1, 2, 4, 5))) % 2**32
    body, times = inside(fs, {0: 2, 1: 3, 2: 4, 4: 5, 5: 6}[kind])
    if kind == 5:
        arguments(body)
        need(last(body, 1, 2))
    return times


def read(kind, s):
    """a message: statement id, cursor id, fetch_rows or None, arguments"""
    fs = fields(s)
    stmt = cursor = rows = None
    args, bodies = [], 1
    if kind == 40:
        stmt = need(last(fs, 1, 0)) % 2**32
        bodies = body_of(inside(fs, 2)[0])
    elif kind == 41:
        stmt, args = execute_of(fs)
    elif kind == 42:
        stmt = need(last(fs, 1, 0)) % 2**32
    elif kind == 43:
        cursor = need(last(fs, 1, 0)) % 2**32
        rows = last(fs, 5, 0)
        inner = inside(fs, 4)[0]
        need(last(inner, 1, 0, (0,)))
        execute, bodies = inside(inner, 2)
        stmt, args = execute_of(execute)
    elif kind in (44, 45):
        cursor = need(last(fs, 1, 0)) % 2**32
        rows = last(fs, 2, 0) if kind == 45 else None
    if bodies > 1:
        raise Twice()
    return stmt, cursor, rows, args


# --- the keeper --------------------------------------------------------------------------------------
class Session:
    def __init__(self):
        self.stmts = {}      # id: placeholders
        self.cursors = {}    # id: [statement, rows, sent]
        self.closed = False

    def on(self, stmt):
        return [c for c, v in self.cursors.items() if v[0] == stmt]

    def end_on(self, stmt):
        for c in self.on(stmt):
            del self.cursors[c]

    def owed(self):
        return sum(rows - sent for _, rows, sent in self.cursors.values())


def refusal(session, frame, report):
    """the refusal or 0, the type, the message"""
    if len(frame) < 4:
        return 1, None, None
    size = int.from_bytes(frame[:4], "little")
    if size == 0 or size > 65532:
        return 2, None, None
    if len(frame) < 4 + size:
        return 1, None, None
    if session.closed:
        return 4, None, None
    kind = frame[4]
    if kind not in (6, 7, 40, 41, 42, 43, 44, 45):
        return 5, None, None
    try:
        m = read(kind, frame[5:4 + size])
    except Bad:
        return 6, None, None
    except Twice:
        return 17, None, None
    stmt, cursor, rows, args = m
    return table_refusal(session, kind, m) or report_refusal(kind, report), kind, m


def table_refusal(session, kind, m):
    stmt, cursor, rows, args = m
    live = session.stmts
    if kind in (41, 42, 43) and stmt not in live:
        return 7
    if kind in (41, 43) and any(a != 1 for a in args):
        return 8
    if kind in (41, 43) and len(args) < live[stmt]:
        return 9
    if kind in (44, 45) and cursor not in session.cursors:
        return 10
    if kind == 45 and session.cursors[cursor][1] == session.cursors[cursor][2]:
        return 11
    if kind == 43 and any(c != cursor for c in session.on(stmt)):
        return 12
    if kind == 40 and len(live) == 64 and stmt not in live:
        return 13
    if kind == 43 and len(session.cursors) == 16 and cursor not in session.cursors:
        return 14
    return 0


def report_refusal(kind, report):
    columns, rows = report.columns, report.rows
    if kind not in (40, 41, 43, 45):
        return 0
    if report.kind == 4 and 1 <= report.code < 2**32:
        return 16
    if kind == 40 and report.kind == 1 and report.placeholders <= 65535:
        return 0
    if kind in (41, 43) and report.kind == 2 and columns <= 4096 and rows < 2**32 and (columns > 0 or rows == 0):
        return 0
    if kind == 45 and report.kind == 3:
        return 0
    return 15


def step(session, frame, report):
    """reason, first row, rows, mark"""
    reason, kind, m = refusal(session, frame, report)
    if reason:
        return reason, 0, 0, "N" if reason < 4 else "E"
    stmt, cursor, asked, args = m
    columns, rows = report.columns, report.rows
    if kind == 40:
        session.end_on(stmt)
        session.stmts[stmt] = report.placeholders
    elif kind == 41:
        session.end_on(stmt)
        return 0, 0, rows, "D" if columns else "X"
    elif kind == 42:
        session.end_on(stmt)
        del session.stmts[stmt]
    elif kind == 43:
        sent = min(asked or 0, rows)
        session.cursors[cursor] = [stmt, rows, sent]
        return 0, 0, sent, "D" if sent == rows else "S"
    elif kind == 45:
        entry = session.cursors[cursor]
        first, left = entry[2], entry[1] - entry[2]
        sent = left if asked is None else min(asked, left)
        entry[2] += sent
        return 0, first, sent, "D" if sent == left else "S"
    elif kind == 44:
        del session.cursors[cursor]
    else:
        session.stmts, session.cursors = {}, {}
        session.closed = kind == 7
    return 0, 0, 0, "O"


# --- the trace ---------------------------------------------------------------------------------------
def number(s, at):
    try:
        return varint(s, at)
    except Bad:
        raise Cut()


def record(s, at):
    size, at = number(s, at)
    if size > 65536 or at + size > len(s):
        raise Cut()
    frame = s[at:at + size]
    kind, at = number(s, at + size)
    if kind > 4:
        raise Cut()
    report = Report(kind)
    for part_name in PARTS[kind]:
        n, at = number(s, at)
        report = report._replace(**{part_name: n})
    return frame, report, at


def trace(s):
    lines, session, at, n = [HEADER], Session(), 0, 1
    while at < len(s):
        try:
            frame, report, at = record(s, at)
        except Cut:
            lines.append("cut")
            break
        reason, first, rows, mark = step(session, frame, report)
        lines.append("%d %d %d %d %s %d %d %d" % (
            n, reason, first, rows, mark, len(session.stmts), len(session.cursors), session.owed()))
        n += 1
    return lines


# --- writing the samples -----------------------------------------------------------------------------
def v(n, pad=0):
    out = b""
    while n > 127:
        out, n = out + bytes([n % 128 + 128]), n // 128
    return out + (bytes([n]) if not pad else bytes([n + 128]) + b"\x80" * (pad - 1) + b"\0")


def num(n, x):
    return v(n * 8) + v(x)


def part(n, b):
    return v(n * 8 + 2) + v(len(b)) + b


def frame(kind, payload=b""):
    return (len(payload) + 1).to_bytes(4, "little") + bytes([kind]) + payload


def rec(f, *report):
    return v(len(f)) + f + b"".join(v(x) for x in report)


NULL = part(2, num(1, 1) + part(2, num(1, 3)))
OBJECT = part(2, num(1, 2))
ARRAY = part(2, num(1, 3))


def prepare(stmt, kind=5, body=part(1, b"S")):
    return frame(40, num(1, stmt) + part(2, num(1, kind) + part(6, body)))


def execute(stmt, args=b""):
    return frame(41, num(1, stmt) + args)


def open_(cursor, stmt, rows=None, args=b""):
    inner = num(1, 0) + part(2, num(1, stmt) + args)
    return frame(43, num(1, cursor) + part(4, inner) + (num(5, rows) if rows is not None else b""))


def fetch(cursor, rows=None):
    return frame(45, num(1, cursor) + (num(2, rows) if rows is not None else b""))


deallocate = lambda stmt: frame(42, num(1, stmt))
close = lambda cursor: frame(44, num(1, cursor))
RESET, CLOSE = frame(6), frame(7)

EXAMPLE = bytes.fromhex("100C0000002808011207080532030A01530100"
                        "110D0000002B080122060800120208012801020203"
                        "09050000002D0801100203" "09050000002D0801100203")
EXAMPLE_OUT = [HEADER, "1 0 0 0 O 1 0 0", "2 0 0 1 S 1 1 2", "3 0 1 2 D 1 1 0", "4 11 0 0 E 1 1 0"]

PREPARED = rec(prepare(1), 1, 0)
# the power cut: the statement is prepared anew, and its cursor is gone
POWER_CUT = [PREPARED, rec(open_(1, 1, 200), 2, 3, 1000), rec(fetch(1, 300), 3), PREPARED, rec(fetch(1, 300), 3),
             rec(open_(1, 1, 200), 2, 3, 1000), rec(fetch(1), 3), rec(fetch(1), 3)]
# each refusal but 3, 4, 13, 14 and 17, on the session of one statement with one placeholder
REFUSALS = [rec(b"", 0), rec(b"\1\0\0", 0), rec(RESET[:4], 0), rec(b"\0\0\0\0", 0), rec(b"\xfd\xff\0\0", 0),
            rec(frame(99), 0), rec(frame(42), 0), rec(prepare(1, 3), 1, 0), rec(deallocate(1), 0), rec(execute(1), 2, 1, 1),
            rec(prepare(1), 1, 1), rec(prepare(1), 1, 65536), rec(prepare(1), 3), rec(prepare(1), 4, 77), rec(prepare(2), 4, 0),
            rec(prepare(2), 4, 2**32), rec(execute(1), 2, 0, 0), rec(execute(1, OBJECT), 2, 0, 0), rec(execute(1, NULL + ARRAY), 2, 0, 0),
            rec(execute(1, NULL), 2, 0, 0), rec(execute(1, NULL), 2, 1, 7), rec(execute(1, NULL), 2, 0, 1), rec(execute(1, NULL), 2, 4097, 1),
            rec(execute(1, NULL), 2, 4096, 2**32 - 1), rec(execute(1, NULL), 2, 1, 2**32), rec(execute(1, NULL), 0),
            rec(execute(1, NULL), 4, 2**32 - 1), rec(open_(1, 1, 5, NULL), 3), rec(open_(1, 1, 5, NULL), 2, 1, 2**32 - 1),
            rec(open_(2, 1, 5, NULL), 2, 1, 9), rec(fetch(2), 3), rec(close(2), 0), rec(fetch(1, 0), 3), rec(fetch(1, 2**64 - 1), 3),
            rec(fetch(1), 3), rec(open_(1, 1, None, NULL), 2, 1, 3), rec(fetch(1), 1, 0), rec(close(1), 4, 1), rec(close(1), 0)]
# 64 statements and 16 cursors; at the limits an id in use is replaced
FULL = ([rec(prepare(i), 1, 0) for i in range(65)] + [rec(prepare(63), 1, 0)]
        + [rec(open_(i, i, 1), 2, 1, 3) for i in range(17)] + [rec(open_(15, 15, 2), 2, 1, 3), rec(open_(15, 20, 2), 2, 1, 3)]
        + [rec(deallocate(3), 0), rec(prepare(64), 1, 0), rec(open_(99, 64, 1), 2, 2, 1), rec(execute(2), 2, 2, 2)])
# everything ends; a closed session refuses 4, but 1 and 2 come first
ENDS = POWER_CUT + [rec(RESET, 0), rec(fetch(1), 3), PREPARED, rec(open_(7, 1, 1), 2, 1, 3), rec(CLOSE, 2, 1, 1), rec(RESET, 0),
                    PREPARED, rec(frame(99), 0), rec(b"\0\0\0\0", 0), rec(RESET[:3], 0)]
# messages in parts are merged; a body that comes twice is refused 17, or 6 where all of it together is bad
BODY, TYPE, EXECUTE, NO_BODY = part(6, part(1, b"S")), num(1, 5), part(2, num(1, 1)), part(6, b"")


def in_parts(kind, *parts, report=(1, 0)):
    """a Prepare of statement 1, or an Open of cursor 9, whose stmt comes in parts"""
    own, number = (num(1, 1), 2) if kind == 40 else (num(1, 9), 4)
    return rec(frame(kind, own + b"".join(part(number, p) for p in parts)), *report)


def argument_in_parts(*parts):
    """an Execute with an argument whose scalar comes in parts"""
    return rec(execute(1, part(2, num(1, 1) + b"".join(part(2, p) for p in parts))), 2, 0, 0)


OPENED = (2, 1, 5)
IN_PARTS = [in_parts(40, TYPE, BODY, report=(1, 1)), in_parts(40, TYPE, b""), in_parts(40, b"", BODY),
            in_parts(40, TYPE, BODY, b"\xff"),
            argument_in_parts(num(1, 4) + part(5, b""), part(5, part(1, b"x"))),
            argument_in_parts(num(1, 4) + part(5, b"\xff"), part(5, part(1, b"x"))),
            argument_in_parts(num(1, 1), num(2, 5)), argument_in_parts(b"\xff", num(1, 3)),
            rec(execute(1, part(2, num(1, 1)) + part(2, part(2, num(1, 3)))), 2, 0, 0),
            in_parts(40, num(1, 0) + BODY, TYPE), in_parts(43, EXECUTE, b"", num(1, 0), report=OPENED),
            in_parts(40, TYPE + BODY, BODY), in_parts(40, TYPE + BODY + BODY, report=(4, 77)),
            in_parts(40, TYPE + NO_BODY + BODY), in_parts(40, TYPE + NO_BODY, NO_BODY),
            in_parts(40, num(1, 0) + part(2, b""), part(2, b"")),
            in_parts(40, TYPE + BODY, part(6, b"\xff")), in_parts(43, num(1, 0) + EXECUTE + EXECUTE, report=OPENED),
            in_parts(43, num(1, 0) + EXECUTE, part(2, OBJECT), report=OPENED),
            in_parts(43, num(1, 0) + part(2, num(1, 7)), part(2, b""), report=OPENED),
            in_parts(43, num(1, 0) + part(2, b""), part(2, b""), report=OPENED), rec(fetch(9, 2), 3), rec(CLOSE, 0),
            in_parts(40, TYPE + BODY + BODY)]
LARGE = frame(6, part(15, b"\0" * 65527))
NUMBERS = [v(len(RESET), 8) + RESET + v(0, 9), b"\x90\x80\x80\x80\x80\x80\x80\x80\x80\x02" + prepare(1) + b"\1\xff\xff\xff\xff\xff\xff\xff\xff\xff\1",
           rec(prepare(1), 4, 2**64 - 1), rec(prepare(1), 4, 2**32 - 1)]
LONG = b"\x80" * 10
RESULT = rec(open_(1, 1, 130), 2, 300, 70000)

RUNS = [b"", EXAMPLE, b"".join(POWER_CUT), b"".join(REFUSALS), b"".join(FULL), b"".join(ENDS), b"".join(NUMBERS)]
RUNS += [b"".join(IN_PARTS)]
RUNS += [PREPARED + RESULT[:k] for k in range(len(RESULT) + 1)]
RUNS += [rec(LARGE, 0) + PREPARED, v(65537) + LARGE + b"\0\0", v(65536) + LARGE[:9]]
RUNS += [rec(RESET, 5), rec(RESET, 4), LONG + b"\0", v(5) + RESET + LONG, v(5) + RESET + b"\1" + LONG, v(5) + RESET + b"\2\1" + LONG,
         LONG[:9], v(5) + RESET + LONG[:9] + b"\0" + PREPARED]


def main():
    assert len(LARGE) == 65536 and trace(EXAMPLE) == EXAMPLE_OUT
    out = [line for run in RUNS for line in trace(run)]
    told = {line.split()[1] for line in out if line[0].isdigit()}
    assert told == {str(k) for k in range(18) if k != 3}, told
    assert {line.split()[4] for line in out if line[0].isdigit()} == set("OSDXEN")
    with open(os.path.join(HERE, "runs.bin"), "wb") as f:
        for run in RUNS:
            f.write(len(run).to_bytes(4, "little") + run)
    with open(os.path.join(HERE, "runs.out"), "w") as f:
        f.write("".join(line + "\n" for line in out))


if __name__ == "__main__":
    main()
