/* The numbers of the protocol and of the rules, for the plain C side and for the frames of the benchmark. */
#ifndef RULES_H
#define RULES_H

enum { HEAD = 4, MAX_LENGTH = 65532, MAX_FRAME = HEAD + MAX_LENGTH, MIN_REPLY = 128 };
enum { MAX_STMTS = 64, MAX_CURSORS = 16, CURSOR_WORDS = 5, MAX_DEPTH = 32 };
enum { MAX_PLACEHOLDERS = 65535, MAX_COLUMNS = 4096 };

/* Message types of clients and of servers. */
enum { RESET = 6, SESS_CLOSE = 7, PREPARE = 40, EXECUTE, DEALLOCATE, OPEN, CLOSE, FETCH };
enum { OK = 0, ERROR = 1, FETCH_DONE = 14, FETCH_SUSPENDED = 15, EXECUTE_OK = 17 };

/* A field's tag: its number and its wire type. */
enum { NUMBER = 0, FIXED64 = 1, BYTES = 2, GROUP = 3, GROUP_END = 4, FIXED32 = 5 };
#define TAG(number, wire) ((number) * 8u + (wire))

/* The type of a Prepare's statement, of an argument and of a scalar. */
enum { FIND = 0, STMT_EXECUTE = 5 };
enum { ANY_SCALAR = 1, ANY_OBJECT = 2, ANY_ARRAY = 3 };
enum { SINT = 1, UINT, NULL_VALUE, OCTETS, DOUBLE, FLOAT, BOOL, STRING };

/* Why a frame is refused. */
enum {
    ACCEPTED, NOT_ALL_THERE, BAD_LENGTH, NO_ROOM, CLOSED, UNKNOWN_TYPE, BAD_PAYLOAD, NO_STMT, NOT_SCALAR,
    FEW_ARGUMENTS, NO_CURSOR, ALL_SENT, OTHER_CURSOR, STMTS_FULL, CURSORS_FULL, BAD_REPORT, ENGINE_FAILED, BODY_TWICE,
    REASONS
};

/* Why an image is refused; no frame is. */
enum { BAD_IMAGE = 18 };

/* The work that a look wants, and what an engine reports. */
enum { WORK_NONE, WORK_PREPARE, WORK_EXECUTE, WORK_OPEN, WORK_FETCH };
enum { REPORT_NONE, REPORT_PREPARED, REPORT_RESULT, REPORT_DONE, REPORT_FAILED };

#endif
