/*
 * Karramotx: a keeper of MySQL X Protocol sessions.
 *
 * The library reads the frames of one session, keeps its prepared statements and cursors, and writes
 * the replies. An engine of yours runs the statements and sends columns and rows; the library says
 * which rows. Every function here is proved to meet its contract for all inputs: it has no state of its
 * own, allocates nothing, calls nothing outside but memcpy and memset, and reads and writes only what it is handed.
 *
 * A server's loop:
 *
 *     struct karramotx_session session = karramotx_fresh();
 *     for each frame (section "Frames as they arrive" cuts them out of the bytes of a connection):
 *         told = karramotx_inspect(&session, frame, len);      what the frame asks, and what work it wants
 *         report = your engine does told.look.work;
 *         answer = karramotx_step(&session, frame, len, report, reply, sizeof reply);
 *         send columns if answer.columns, rows answer.first .. answer.first + answer.count - 1,
 *         then answer.reply bytes of reply
 *         if answer.reason is 0, free what ended (section "All of a frame before its step")
 *
 * Bytes go in as a pointer and a length. The pointer may be null where the length is 0. What is written
 * to (a session, a reply, a buffer, a store) must not overlap anything else that is handed in.
 *
 * A session is memory of yours, which a step changes in place. Every bit pattern is a session: no function
 * trusts what it finds there. But what FetchDone stands for, and that the cursors which an inspection tells as
 * ended are gone after the step, is promised only of a session that came from karramotx_fresh or, accepted, from
 * karramotx_restore, and was changed by karramotx_step alone.
 *
 * Scope:
 *
 *     inside      the eight messages of enum karramotx_kind: their frames, the tables that they change, the replies
 *     outside     sockets, handshake, authentication and TLS; messages of other types, which you route by their type
 *                 byte ahead of the step, as it refuses them 5; SQL; columns and rows on the wire
 *     fetch_rows  field 5 of an Open, field 2 of a Fetch. A Fetch that has its rows in another field asks for all that
 *                 remain: that field is unknown, and skipped.
 *     machine     x86-64, ELF, the System V calling convention; the sizes below are those. The code is position
 *                 independent.
 *     linking     memcpy and memset are the archive's only undefined names
 *     stack       less than 10,000 bytes below the caller, in every call (docs/SECURITY.md says how that was counted)
 *     threads     the archive has no data that can be written. Calls may run at once unless one writes what another
 *                 reads or writes: a step and a restore write the session, a push the store, and `reply` and `buf` are
 *                 written. So looks, inspections, counts and images of one session may run at once, and a step on it
 *                 runs alone. What a call reads must stay as it is until the call ends.
 *
 * docs/SECURITY.md has what holds whatever a peer sends, and what a host must see to.
 */
#ifndef KARRAMOTX_H
#define KARRAMOTX_H

#include <stdbool.h>
#include <stddef.h>
#include <stdint.h>

#ifdef __cplusplus
extern "C" {
#define KARRAMOTX_CHECK(what) static_assert(what, #what)
#else
#define KARRAMOTX_CHECK(what) _Static_assert(what, #what)
#endif

/* The size of a struct and the place of each of its fields, as the archive has them. */
#define KARRAMOTX_SIZE(type, size) KARRAMOTX_CHECK(sizeof(struct type) == (size))
#define KARRAMOTX_FIELD(type, field, place) KARRAMOTX_CHECK(offsetof(struct type, field) == (place))

/* ---- Limits ---- */

enum {
    KARRAMOTX_MAX_STMTS = 64,      /* statements of a session */
    KARRAMOTX_MAX_CURSORS = 16,    /* cursors of a session */
    KARRAMOTX_MIN_REPLY = 128,     /* the shortest reply buffer that a step takes; every reply fits it */
    KARRAMOTX_MAX_FRAME = 65536,   /* the longest frame, its four bytes of length included */
    KARRAMOTX_STORE = 65536,       /* bytes of a reader's store; the longest frame fills it */
    KARRAMOTX_MAX_IMAGE = 1044     /* bytes that the image of any session fits */
};

/* ---- Message types ---- */

enum karramotx_kind {
    KARRAMOTX_SESS_RESET = 6,
    KARRAMOTX_SESS_CLOSE = 7,
    KARRAMOTX_PREPARE = 40,
    KARRAMOTX_EXECUTE = 41,
    KARRAMOTX_DEALLOCATE = 42,
    KARRAMOTX_CURSOR_OPEN = 43,
    KARRAMOTX_CURSOR_CLOSE = 44,
    KARRAMOTX_CURSOR_FETCH = 45
};

/* The type of a Prepare's statement, which chooses its body. There is no 3. */
enum karramotx_operation {
    KARRAMOTX_FIND = 0,
    KARRAMOTX_INSERT = 1,
    KARRAMOTX_UPDATE = 2,
    KARRAMOTX_DELETE = 4,
    KARRAMOTX_STMT_EXECUTE = 5
};

/* The type of an argument's value. */
enum karramotx_scalar_kind {
    KARRAMOTX_SINT = 1,
    KARRAMOTX_UINT = 2,
    KARRAMOTX_NULL = 3,
    KARRAMOTX_OCTETS = 4,
    KARRAMOTX_DOUBLE = 5,
    KARRAMOTX_FLOAT = 6,
    KARRAMOTX_BOOL = 7,
    KARRAMOTX_STRING = 8
};

/* ---- Reasons: why something is refused. 0 is accepted. ---- */

/*
 * The code in the Error frame of a refused step. The codes 6004 to 6017 are this library's own.
 *
 *     reason     4     5     6     7     8     9    10    11    12    13    14    15    16              17
 *     code    6004  6005  5000  5110  6008  6009  5111  6011  6012  6013  6014  6015    your engine's   6017
 *
 * 1, 2, 3 and 18 have no Error frame.
 */
enum karramotx_reason {
    KARRAMOTX_ACCEPTED = 0,
    KARRAMOTX_NOT_ALL_THERE = 1,   /* the frame is not all there: read more */
    KARRAMOTX_BAD_LENGTH = 2,      /* its length is 0 or above 65,532 */
    KARRAMOTX_NO_ROOM = 3,         /* the reply buffer is below 128 bytes; a buffer is too small */
    KARRAMOTX_CLOSED = 4,          /* the session is closed */
    KARRAMOTX_UNKNOWN_TYPE = 5,
    KARRAMOTX_BAD_PAYLOAD = 6,
    KARRAMOTX_NO_STMT = 7,         /* the statement id is not live */
    KARRAMOTX_NOT_SCALAR = 8,      /* an argument is an object or an array */
    KARRAMOTX_FEW_ARGUMENTS = 9,   /* fewer arguments than placeholders; past the last argument */
    KARRAMOTX_NO_CURSOR = 10,      /* the cursor id is not live */
    KARRAMOTX_ALL_SENT = 11,       /* all rows are already sent */
    KARRAMOTX_OTHER_CURSOR = 12,   /* the statement carries a cursor of another id */
    KARRAMOTX_STMTS_FULL = 13,     /* 64 statements are live, the id not among them */
    KARRAMOTX_CURSORS_FULL = 14,   /* 16 cursors are live, the id not among them */
    KARRAMOTX_BAD_REPORT = 15,     /* the report is of the wrong kind or outside its limits */
    KARRAMOTX_ENGINE_FAILED = 16,
    KARRAMOTX_BODY_TWICE = 17,     /* the body that a Prepare's type chooses, or an Open's Execute, comes more than
                                      once; judged after 6 and before 7 */
    KARRAMOTX_BAD_IMAGE = 18       /* an image is not acceptable; no frame is refused so, and no Error frame says it */
};

/* ---- The session ---- */

/* A flag of a session is a number: 0 is no, anything else yes. The library writes 0 and 1. */

/* A statement. Its id stands in the session's stmt_ids, at the same place. */
struct karramotx_stmt {
    uint32_t placeholders;
    uint32_t live;                 /* a flag */
};
KARRAMOTX_SIZE(karramotx_stmt, 8);
KARRAMOTX_FIELD(karramotx_stmt, placeholders, 0);
KARRAMOTX_FIELD(karramotx_stmt, live, 4);

/*
 * A cursor is live from its accepted Open to the first accepted message that is a Prepare, Execute or Deallocate of
 * its statement, an Open or Close of its own id, a Reset or a Session close. Nothing else ends it: no Fetch, not its
 * last row, no refused message. Rows that were not sent by then are given up.
 */
struct karramotx_cursor {
    uint32_t id;
    uint32_t stmt;                 /* the id of its statement */
    uint32_t rows;                 /* rows that the engine reported */
    uint32_t sent;                 /* rows sent so far */
    uint32_t live;                 /* a flag */
};
KARRAMOTX_SIZE(karramotx_cursor, 20);
KARRAMOTX_FIELD(karramotx_cursor, id, 0);
KARRAMOTX_FIELD(karramotx_cursor, stmt, 4);
KARRAMOTX_FIELD(karramotx_cursor, rows, 8);
KARRAMOTX_FIELD(karramotx_cursor, sent, 12);
KARRAMOTX_FIELD(karramotx_cursor, live, 16);

/* 273 words without gaps. A free place of a table is not live and all 0. You may read it all; write none of it. */
struct karramotx_session {
    uint32_t stmt_ids[KARRAMOTX_MAX_STMTS];
    struct karramotx_stmt stmts[KARRAMOTX_MAX_STMTS];
    struct karramotx_cursor cursors[KARRAMOTX_MAX_CURSORS];
    uint32_t closed;               /* a flag */
};
KARRAMOTX_SIZE(karramotx_session, 1092);
KARRAMOTX_FIELD(karramotx_session, stmt_ids, 0);
KARRAMOTX_FIELD(karramotx_session, stmts, 256);
KARRAMOTX_FIELD(karramotx_session, cursors, 768);
KARRAMOTX_FIELD(karramotx_session, closed, 1088);

/* A session with no statement and no cursor. */
struct karramotx_session karramotx_fresh(void);

/* How many statements and cursors are live, and how many rows the cursors have still to send. */
struct karramotx_counts {
    uint64_t stmts;
    uint64_t cursors;
    uint64_t owed;
};
KARRAMOTX_SIZE(karramotx_counts, 24);
KARRAMOTX_FIELD(karramotx_counts, stmts, 0);
KARRAMOTX_FIELD(karramotx_counts, cursors, 8);
KARRAMOTX_FIELD(karramotx_counts, owed, 16);

struct karramotx_counts karramotx_counts(const struct karramotx_session *session);

/* ---- Frames as they arrive ---- */

/*
 * A reader takes bytes as they arrive, cut anywhere, and hands out whole frames. What has arrived and has not
 * been handed out is held in a store of yours. It need not be cleared first, and nobody but the reader may
 * write it: receive into a buffer beside it. The reader itself is two numbers; go on with those that each call
 * answers. A server's loop, for one connection:
 *
 *     uint8_t bytes[1460], store[KARRAMOTX_STORE];
 *     ssize_t got;
 *     struct karramotx_reader reader = karramotx_start_over();
 *     while ((got = recv(fd, bytes, sizeof bytes, 0)) > 0) {
 *         for (size_t at = 0; at < (size_t)got;) {
 *             struct karramotx_pushed pushed = karramotx_push(reader, bytes + at, (size_t)got - at, store);
 *             struct karramotx_next_frame next;
 *             reader = pushed.reader;
 *             at += pushed.count;
 *             while ((next = karramotx_next_frame(reader, store)).reason == KARRAMOTX_ACCEPTED) {
 *                 reader = next.reader;
 *                 look, work, step and send, on the frame at store + next.start of next.len bytes
 *             }
 *             reader = next.reader;
 *             if (next.reason == KARRAMOTX_BAD_LENGTH)
 *                 give up the connection
 *         }
 *     }
 *     if (reader.start != reader.end)
 *         the client broke off in mid-frame
 *
 * At 1, KARRAMOTX_NOT_ALL_THERE, nothing is wrong: wait for the next arrival. There is then room for at least
 * one byte more, so the loop goes on. An arrival is taken whole unless the store gets full or a bad length stands
 * first; `count` says how far, and what was not taken is yours to push again.
 *
 * At 2, KARRAMOTX_BAD_LENGTH, nothing behind the length can be read. The frames ahead of it have been handed
 * out. The store then holds its four bytes alone; what arrived behind them counts as taken and is dropped. From
 * then on every push takes 0 and answers 2, and every next_frame answers 2, until karramotx_start_over. Close the
 * connection, or start over where you know that the next byte begins a frame.
 *
 * After a Session close, `session.closed`, send its reply and close the connection. The reader knows no session:
 * if you go on, it hands out the frames behind too, and a step refuses them 4 until you begin a fresh session.
 *
 * A frame that was handed out stays where it is until the next push; another next_frame leaves it alone. A step
 * on it is never refused 1 or 2, and uses all of it unless it is refused 3: make that one again with a longer
 * reply buffer. `kind` is the type byte of any frame, so that you can route what is none of the eight messages here.
 *
 * Handing out a frame moves no bytes, and a push moves the held bytes at most once, only where the room behind
 * them is too small. Where all whole frames are handed out before the next push, as above, the cost is linear
 * in the bytes that arrive.
 */
struct karramotx_reader {
    size_t start;                  /* the bytes held are store[start] ... */
    size_t end;                    /* ... to store[end - 1]; two numbers that are no such part hold nothing */
};
KARRAMOTX_SIZE(karramotx_reader, 16);
KARRAMOTX_FIELD(karramotx_reader, start, 0);
KARRAMOTX_FIELD(karramotx_reader, end, 8);

struct karramotx_pushed {
    struct karramotx_reader reader;       /* the reader after it */
    uint64_t reason;               /* what stands first now: 0 a whole frame, 2 a bad length, 1 neither */
    size_t count;                  /* bytes taken */
};
KARRAMOTX_SIZE(karramotx_pushed, 32);
KARRAMOTX_FIELD(karramotx_pushed, reader, 0);
KARRAMOTX_FIELD(karramotx_pushed, reason, 16);
KARRAMOTX_FIELD(karramotx_pushed, count, 24);

struct karramotx_next_frame {
    struct karramotx_reader reader;       /* the reader after it */
    uint64_t reason;               /* 0 a frame is handed out; 1 wait for more; 2 a bad length stands first */
    size_t start;                  /* its place in the store; 0 where there is none */
    size_t len;                    /* its length, the four bytes included; 0 where there is none */
    uint64_t kind;                 /* its type byte, of any type; 0 where there is none */
};
KARRAMOTX_SIZE(karramotx_next_frame, 48);
KARRAMOTX_FIELD(karramotx_next_frame, reader, 0);
KARRAMOTX_FIELD(karramotx_next_frame, reason, 16);
KARRAMOTX_FIELD(karramotx_next_frame, start, 24);
KARRAMOTX_FIELD(karramotx_next_frame, len, 32);
KARRAMOTX_FIELD(karramotx_next_frame, kind, 40);

/* A reader that holds nothing: at the beginning, after a bad length, or at any time; what was held is given up. */
struct karramotx_reader karramotx_start_over(void);

/*
 * Bytes that arrived, taken as far as there is room beside those held. Writes the store and nothing else. The
 * bytes must not lie in the store.
 */
struct karramotx_pushed karramotx_push(struct karramotx_reader reader, const uint8_t *bytes, size_t len,
                                       uint8_t store[KARRAMOTX_STORE]);

/* The frame that stands first, handed out. The store is only read: the same reader gets the same frame again. */
struct karramotx_next_frame karramotx_next_frame(struct karramotx_reader reader,
                                                 const uint8_t store[KARRAMOTX_STORE]);

/* ---- Look and step ---- */

/*
 * Padded numbers. The tags, lengths and numbers of a payload are varints. A varint is padded if its bytes are not the
 * ones that karramotx_write would write for its 64-bit value, which are the shortest: 81 80 80 80 00 for 1 is padded,
 * and so are nine bytes ff and one 7f for 2^64 - 1, though nothing shorter has that value. A padded number is good and
 * means what it would mean without padding.
 *
 * A look, an inspection, a step and karramotx_read say `padded` if any varint that they read in the payload is. Use it
 * to find clients that write so, such as one that writes every id in five bytes: count the answers of a connection that
 * say it, or log the first. What counts:
 *
 *     of every field, known or not, the tag, and the length or the number
 *     of a group, its start tag
 *     of a Prepare, its own fields and those of its statement
 *     of an Execute, its own fields and all that is read of its arguments
 *     of an Open, its own fields, those of its statement and of its Execute, and all that is read of the arguments
 *     of the other five, their own fields
 *
 * A message that comes in several parts counts in each of them.
 *
 * What does not count: the rest of a group; the bytes inside a Prepare's body; and the bytes inside a part that is
 * skipped unread, which is one of a body, a scalar, octets or a string that the type does not choose, the one that all
 * parts together have. The tag and the length of such a part do count.
 *
 * A value that its field cuts down is not padded for that: an enum of 2^32 + 5, a bool of 2.
 *
 * Of a frame refused 1 to 6 they say false, whatever it holds: 3 in a step and 4 in a closed session are among these.
 * Of any other frame, refused or accepted, they say what was read. So a look and a step say the same, unless the step
 * is refused 3. karramotx_read knows of no session, and says false where it refuses the frame 1, 2, 5 or 6, but at 17
 * what was read. So in a closed session an inspection's look says false, and its message what was read.
 */

/* The work that a frame wants of your engine. */
enum karramotx_work {
    KARRAMOTX_WORK_NONE = 0,
    KARRAMOTX_WORK_PREPARE = 1,
    KARRAMOTX_WORK_EXECUTE = 2,
    KARRAMOTX_WORK_OPEN = 3,
    KARRAMOTX_WORK_FETCH = 4
};

struct karramotx_look {
    uint64_t reason;               /* 0, or why a step will refuse the frame */
    uint64_t work;                 /* enum karramotx_work */
    uint64_t first;                /* of a Fetch, the first row to send, from 0; else 0 */
    uint64_t count;                /* of a Fetch, how many rows to send; else 0 */
    bool padded;                   /* whether a varint read in the payload is padded; refused 1 to 6: false */
};
KARRAMOTX_SIZE(karramotx_look, 40);
KARRAMOTX_FIELD(karramotx_look, reason, 0);
KARRAMOTX_FIELD(karramotx_look, work, 8);
KARRAMOTX_FIELD(karramotx_look, first, 16);
KARRAMOTX_FIELD(karramotx_look, count, 24);
KARRAMOTX_FIELD(karramotx_look, padded, 32);

/* A look changes nothing. Bytes past the frame are not read. */
struct karramotx_look karramotx_look(const struct karramotx_session *session, const uint8_t *frame, size_t len);

/* What your engine did. */
enum karramotx_report_kind {
    KARRAMOTX_REPORT_NONE = 0,     /* no work was wanted */
    KARRAMOTX_REPORT_PREPARED = 1, /* the statement is prepared */
    KARRAMOTX_REPORT_RESULT = 2,   /* the statement was run; no columns, no rows */
    KARRAMOTX_REPORT_DONE = 3,     /* the rows of a Fetch are ready */
    KARRAMOTX_REPORT_FAILED = 4    /* the work failed */
};

/* What its kind does not have is ignored. */
struct karramotx_report {
    uint64_t kind;                 /* enum karramotx_report_kind; another number is refused 15 */
    uint64_t placeholders;         /* PREPARED: 0 to 65,535 */
    uint64_t columns;              /* RESULT: 0 to 4,096 */
    uint64_t rows;                 /* RESULT: 0 to 2^32 - 1 */
    uint64_t code;                 /* FAILED: the error code, 1 to 2^32 - 1 */
};
KARRAMOTX_SIZE(karramotx_report, 40);
KARRAMOTX_FIELD(karramotx_report, kind, 0);
KARRAMOTX_FIELD(karramotx_report, placeholders, 8);
KARRAMOTX_FIELD(karramotx_report, columns, 16);
KARRAMOTX_FIELD(karramotx_report, rows, 24);
KARRAMOTX_FIELD(karramotx_report, code, 32);

struct karramotx_answer {
    uint64_t reason;               /* 0, or why the frame is refused; the session is then as it was */
    size_t used;                   /* bytes of the frame; 0 where it is refused 1, 2 or 3 */
    size_t reply;                  /* bytes of the reply, an Error frame where it is refused 4 or more */
    bool columns;                  /* whether columns go out, ahead of the rows */
    bool padded;                   /* as in karramotx_look */
    uint64_t first;                /* the first row to send, from 0 */
    uint64_t count;                /* how many rows to send, ahead of the reply */
};
KARRAMOTX_SIZE(karramotx_answer, 48);
KARRAMOTX_FIELD(karramotx_answer, reason, 0);
KARRAMOTX_FIELD(karramotx_answer, used, 8);
KARRAMOTX_FIELD(karramotx_answer, reply, 16);
KARRAMOTX_FIELD(karramotx_answer, columns, 24);
KARRAMOTX_FIELD(karramotx_answer, padded, 25);
KARRAMOTX_FIELD(karramotx_answer, first, 32);
KARRAMOTX_FIELD(karramotx_answer, count, 40);

/*
 * A step on a frame, in place: `*session` is the session after it.
 *
 * If you cut the frames yourself, the next one stands `used` bytes further. Where `used` is 0, stop: a loop that goes
 * on by 0 bytes never ends. At 1 read more, and step again. At 2 the stream can't be taken up again, as nobody knows
 * where the next frame begins: close the connection. At 3 step again with a longer reply buffer.
 */
struct karramotx_answer karramotx_step(struct karramotx_session *session, const uint8_t *frame, size_t len,
                                       struct karramotx_report report, uint8_t *reply, size_t reply_len);

/* ---- Reading a frame by itself ---- */

/*
 * Messages in parts. A message inside another may come in several parts, such as a statement's type in one and its
 * body in the next: the statement of a Prepare or an Open, the scalar of an argument, the octets or the string of a
 * scalar. The fields of all parts count as if they stood in one, and of a field that is not repeated the last
 * occurrence counts. Each part that is read must be a good list of fields by itself, and what is required may stand in
 * any of them. A body, scalar, octets or string that the type does not choose is skipped unread, in every part; the
 * type is the one that all parts together have. Arguments are repeated: each is one of its own.
 *
 * The body that a Prepare's type chooses and an Open's Execute are handed out as one part of the frame, so they must
 * not come twice. A frame in which one does, in one part of the statement or in several, is refused 17 where it would
 * otherwise be good: all parts of the body are read first, together as one message, and where they are bad the frame
 * is refused 6.
 */

struct karramotx_optional {
    bool present;
    uint64_t value;                /* 0 where it is absent */
};
KARRAMOTX_SIZE(karramotx_optional, 16);
KARRAMOTX_FIELD(karramotx_optional, present, 0);
KARRAMOTX_FIELD(karramotx_optional, value, 8);

/* Some bytes of a frame. */
struct karramotx_part {
    size_t start;
    size_t len;
};
KARRAMOTX_SIZE(karramotx_part, 16);
KARRAMOTX_FIELD(karramotx_part, start, 0);
KARRAMOTX_FIELD(karramotx_part, len, 8);

struct karramotx_arguments {
    bool good;                     /* true in every message, refused or not: a bad argument is a bad payload */
    size_t count;
    uint64_t kind;                 /* 2 where there is an object, 3 an array: the first one; else 0 */
    size_t index;                  /* its index */
    size_t start;                  /* the message that holds the arguments: its place ... */
    size_t end;                    /* ... and the place behind it */
};
KARRAMOTX_SIZE(karramotx_arguments, 48);
KARRAMOTX_FIELD(karramotx_arguments, good, 0);
KARRAMOTX_FIELD(karramotx_arguments, count, 8);
KARRAMOTX_FIELD(karramotx_arguments, kind, 16);
KARRAMOTX_FIELD(karramotx_arguments, index, 24);
KARRAMOTX_FIELD(karramotx_arguments, start, 32);
KARRAMOTX_FIELD(karramotx_arguments, end, 40);

/*
 * What a frame holds. What its type does not have is 0 or absent. The message of a refused frame is not all zeros:
 * beside `reason` and `used`, args.good is true, and at 17 `padded` says what was read. Ask for `reason` first.
 */
struct karramotx_message {
    uint64_t reason;               /* 0, or 1, 2, 5, 6, 17: refused whatever the session, all numbers but `used` 0 */
    size_t used;                   /* the frame's length; 0 where it is refused 1 or 2 */
    uint64_t kind;                 /* enum karramotx_kind */
    uint64_t stmt;                 /* the statement id */
    uint64_t cursor;               /* the cursor id */
    struct karramotx_optional rows;       /* fetch_rows; absent, an Open wants 0 rows and a Fetch all that remain */
    struct karramotx_optional compact;    /* compact_metadata, 0 or 1 */
    uint64_t operation;            /* of a Prepare, enum karramotx_operation */
    struct karramotx_part body;    /* the body that a Prepare's type chooses; an Open's Execute */
    struct karramotx_arguments args;
    bool padded;                   /* whether a varint read in the payload is padded; refused 1, 2, 5, 6: false */
};
KARRAMOTX_SIZE(karramotx_message, 152);
KARRAMOTX_FIELD(karramotx_message, reason, 0);
KARRAMOTX_FIELD(karramotx_message, used, 8);
KARRAMOTX_FIELD(karramotx_message, kind, 16);
KARRAMOTX_FIELD(karramotx_message, stmt, 24);
KARRAMOTX_FIELD(karramotx_message, cursor, 32);
KARRAMOTX_FIELD(karramotx_message, rows, 40);
KARRAMOTX_FIELD(karramotx_message, compact, 56);
KARRAMOTX_FIELD(karramotx_message, operation, 72);
KARRAMOTX_FIELD(karramotx_message, body, 80);
KARRAMOTX_FIELD(karramotx_message, args, 96);
KARRAMOTX_FIELD(karramotx_message, padded, 144);

struct karramotx_message karramotx_read(const uint8_t *frame, size_t len);

/* The chosen body alone, as a part of the frame; empty where there is none or karramotx_read refuses the frame. */
struct karramotx_part karramotx_body(const uint8_t *frame, size_t len);

/* ---- Arguments ---- */

struct karramotx_value {
    uint64_t reason;               /* 0, or 1, 2, 5, 6, 17 as the frame's; 8 an object or array; 9 no more */
    uint64_t kind;                 /* enum karramotx_scalar_kind; 0 where it is refused */
    uint64_t value;                /* a sint (cast it to int64_t), a uint, a bool as 0 or 1, the bits of a
                                      double, the bits of a float; else 0 */
    size_t start;                  /* octets and strings: their place in the frame ... */
    size_t len;                    /* ... and their length */
    size_t next;                   /* karramotx_next_argument: the place behind it; else 0 */
};
KARRAMOTX_SIZE(karramotx_value, 48);
KARRAMOTX_FIELD(karramotx_value, reason, 0);
KARRAMOTX_FIELD(karramotx_value, kind, 8);
KARRAMOTX_FIELD(karramotx_value, value, 16);
KARRAMOTX_FIELD(karramotx_value, start, 24);
KARRAMOTX_FIELD(karramotx_value, len, 32);
KARRAMOTX_FIELD(karramotx_value, next, 40);

/*
 * The argument with an index, from 0. Each call reads the whole frame anew, so that asking for every argument takes as
 * many readings as there are arguments: for all of them go in one pass. A frame of 65 KB with 8,191 nulls takes 0.1
 * milliseconds in one pass and a second by index, one with 3,640 strings in parts 0.7 milliseconds and 5 seconds.
 */
struct karramotx_value karramotx_argument(const uint8_t *frame, size_t len, size_t index);

/*
 * All arguments in one pass, where `m` is what karramotx_read answers, or the message of karramotx_inspect:
 *
 *     for (size_t at = m.args.start; at < m.args.end; at = v.next) {
 *         v = karramotx_next_argument(frame, m.args.end, at);
 *         if (v.reason == KARRAMOTX_FEW_ARGUMENTS) break;
 *         ...
 *     }
 *
 * `end` is the place behind the message that holds them. An object or array has reason 8 and a `next`.
 */
struct karramotx_value karramotx_next_argument(const uint8_t *frame, size_t end, size_t at);

/* ---- All of a frame before its step ---- */

/*
 * Look and message from one reading, and what the frame touches in the tables, so that a host reads a frame twice
 * in all, here and in the step; walking its arguments goes over their bytes once more. Keep what is yours of a
 * statement or a cursor, as a plan or a result, in arrays of KARRAMOTX_MAX_STMTS and KARRAMOTX_MAX_CURSORS places, each
 * at the entry's own place. After a step that answers reason 0:
 *
 *     for each bit i of told.ends, `told.ends >> i & 1`: free the result at place i; its cursor has ended
 *     Prepare: what was kept at told.stmt_place is replaced by the new statement
 *     Open: keep its result at told.cursor_place, for the Fetches that find it there
 *     Deallocate: free the statement at told.stmt_place
 *     Reset, Session close: free all statements
 *
 * After a refused step all is as it was. A cursor whose bit is clear keeps its place and its result, that of a
 * Fetch too; at an Open's own place a cursor of the same id may have stood, and its bit is then set.
 *
 * Places and bits depend on the session and the frame alone, and are told whether the frame will be refused or not.
 */
struct karramotx_inspection {
    struct karramotx_look look;           /* as karramotx_look answers */
    struct karramotx_message message;     /* as karramotx_read answers, in a closed session too */
    size_t stmt_place;             /* Execute, Deallocate, Open: where the statement of that id is live; Prepare: where
                                      it will stand; KARRAMOTX_MAX_STMTS where there is none */
    size_t cursor_place;           /* Close, Fetch: where the cursor of that id is live; Open: where it will stand;
                                      KARRAMOTX_MAX_CURSORS where there is none */
    uint64_t ends;                 /* bit i: the cursor at place i is live, and the frame ends it once accepted */
};
KARRAMOTX_SIZE(karramotx_inspection, 216);
KARRAMOTX_FIELD(karramotx_inspection, look, 0);
KARRAMOTX_FIELD(karramotx_inspection, message, 40);
KARRAMOTX_FIELD(karramotx_inspection, stmt_place, 192);
KARRAMOTX_FIELD(karramotx_inspection, cursor_place, 200);
KARRAMOTX_FIELD(karramotx_inspection, ends, 208);

struct karramotx_inspection karramotx_inspect(const struct karramotx_session *session, const uint8_t *frame,
                                              size_t len);

/* ---- Writing ---- */

/* One of the eight client messages. What its kind does not have is ignored. */
struct karramotx_draft {
    uint64_t kind;                 /* enum karramotx_kind; another number is refused 6 */
    uint32_t stmt;                 /* Prepare, Execute, Deallocate, Open */
    uint32_t cursor;               /* Open, Close, Fetch */
    bool hasrows;                  /* Open, Fetch: whether fetch_rows is present; what its absence means is above */
    uint64_t rows;
    bool hascompact;               /* Execute, Open: whether compact_metadata is present */
    bool compact;
    uint64_t operation;            /* Prepare: enum karramotx_operation; another number is refused 6 */
};
KARRAMOTX_SIZE(karramotx_draft, 48);
KARRAMOTX_FIELD(karramotx_draft, kind, 0);
KARRAMOTX_FIELD(karramotx_draft, stmt, 8);
KARRAMOTX_FIELD(karramotx_draft, cursor, 12);
KARRAMOTX_FIELD(karramotx_draft, hasrows, 16);
KARRAMOTX_FIELD(karramotx_draft, rows, 24);
KARRAMOTX_FIELD(karramotx_draft, hascompact, 32);
KARRAMOTX_FIELD(karramotx_draft, compact, 33);
KARRAMOTX_FIELD(karramotx_draft, operation, 40);

struct karramotx_sent {
    uint64_t reason;               /* 0, or 6, 2, 3: then nothing is written */
    size_t len;                    /* bytes of the frame, the stretch or the image; 0 where it is refused */
};
KARRAMOTX_SIZE(karramotx_sent, 16);
KARRAMOTX_FIELD(karramotx_sent, reason, 0);
KARRAMOTX_FIELD(karramotx_sent, len, 8);

/*
 * A message at the front of `buf`. `body` is a Prepare's body, encoded; `args` are the args fields of an
 * Execute or Open as karramotx_append builds them. Refused 6 for a bad stretch, a bad body or an unlisted
 * kind or operation, 2 where the frame passes the limit, 3 exactly where the buffer is too small.
 */
struct karramotx_sent karramotx_write(struct karramotx_draft draft, const uint8_t *body, size_t body_len,
                                      const uint8_t *args, size_t args_len, uint8_t *buf, size_t buf_len);

/* One scalar to write. */
struct karramotx_scalar {
    uint64_t kind;                 /* enum karramotx_scalar_kind; another number is refused 6 */
    uint64_t value;                /* as in karramotx_value */
};
KARRAMOTX_SIZE(karramotx_scalar, 16);
KARRAMOTX_FIELD(karramotx_scalar, kind, 0);
KARRAMOTX_FIELD(karramotx_scalar, value, 8);

/*
 * One argument more: the scalar as an args field behind the first `at` bytes of `buf`; begin with at 0
 * and go on with the answer's `len`. `bytes` are those of octets and strings; other kinds ignore them.
 */
struct karramotx_sent karramotx_append(struct karramotx_scalar scalar, const uint8_t *bytes, size_t bytes_len,
                                       uint8_t *buf, size_t buf_len, size_t at);

/* ---- Handing a session over ---- */

/*
 * A session goes on in another server, as a standby, from its image: some bytes that say all it holds. Where it leaves,
 * between two steps:
 *
 *     uint8_t image[KARRAMOTX_MAX_IMAGE];
 *     size_t len = karramotx_image(&session, image, sizeof image).len;
 *     send or store the first len bytes of image
 *
 * and where it goes on:
 *
 *     struct karramotx_session session = karramotx_fresh();
 *     if (karramotx_restore(&session, image, len) != KARRAMOTX_ACCEPTED)
 *         give up: this is no acceptable image
 *
 * A session restored from an image goes on exactly as the one that it was written from: it is that very session, so the
 * same frames and reports get the same answers and replies. What FetchDone stands for is promised of it too: a cursor
 * then counts as an opening of the rows that it had still to send, numbered on from those that were sent.
 *
 * The image holds the session and nothing else. Yours to hand over beside it:
 *
 *     bytes that arrived and were not stepped on: those that the reader holds, store[reader.start] to
 *     store[reader.end - 1]. Push them to the new reader ahead of what arrives there.
 *     replies that were not sent yet, and the columns and rows ahead of them
 *     what your engine keeps for statements and cursors, as plans and results: make it anew, at the same places. A live
 *     cursor's result must have session.cursors[i].rows rows again; those from session.cursors[i].sent on will be asked
 *     for.
 *
 * A struct karramotx_session must not be written by others, but an image may come from disk or from the network: it is
 * judged, byte for byte. It is numbers, each as a varint in its shortest form:
 *
 *     1, the number of this form
 *     1 where the session is closed, else 0
 *     how many statements are live; of each its place, from 0, its id and its placeholders
 *     how many cursors are live; of each its place, its id, its statement's id, the rows reported and the rows sent
 *
 * It is accepted exactly if it has this form with nothing behind it, the places of a table rise and are below
 * KARRAMOTX_MAX_STMTS or KARRAMOTX_MAX_CURSORS, no id stands twice in a table, ids and rows are below 2^32 and
 * placeholders at most 65,535, each cursor is on a statement that is listed and no two are on one, no cursor has sent
 * more rows than were reported, and a closed session has no statement and no cursor.
 *
 * That says that the bytes are an acceptable image, not that they are the one that was written: an image has no
 * checksum, and damage that keeps these rules gives another session. Carry it in a way that finds damage.
 *
 * Every session has one image, and that of a session which came from karramotx_fresh or karramotx_restore and was
 * changed by karramotx_step alone is accepted. That of one with other words in it need not be.
 */

/*
 * The image of a session at the front of `buf`; bytes behind it stay as they were. Refused 3 exactly where the buffer
 * is too small: then nothing is written.
 */
struct karramotx_sent karramotx_image(const struct karramotx_session *session, uint8_t *buf, size_t buf_len);

/*
 * The session of an image in the place of `*session`, whatever stood there: it has the image's entries and no others.
 * Answers 0, or 18 where the image is not acceptable: the session is then as it was.
 */
uint64_t karramotx_restore(struct karramotx_session *session, const uint8_t *image, size_t image_len);

#ifdef __cplusplus
}
#endif

#endif
