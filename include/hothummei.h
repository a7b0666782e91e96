/* hothummei.h - a session with a PostgreSQL server, whose bytes the caller moves.
 *
 * A session is made (hothummei_new) and given a connection text and the requests, in order. hothummei_start begins it.
 * From then on the caller sends what hothummei_pending shows to the server, and gives what comes from it to hothummei_take,
 * until the phase is HOTHUMMEI_DONE or a call fails. Then there is a report: an answer for each request. A session is one
 * connection, which the caller opens and closes, and one list of requests: asking again is another session. The library
 * opens no socket, starts no thread and has no state of its own beside its sessions. examples/c/ask.c is a caller, and
 * docs/C.md says what is proved of each call.
 *
 * - Each call answers a code; HOTHUMMEI_OK is 0. A null for a pointer is HOTHUMMEI_NULL, and a number past the end is
 *   HOTHUMMEI_NO_SUCH_INDEX. A pointer to bytes may be null where their length is 0. Behind another code than
 *   HOTHUMMEI_OK, what `out` points to means nothing.
 * - Bytes that come in are read during the call, and what is kept of them is copied. Texts are UTF-8, and end where their
 *   length says: no byte behind it is read, and no zero ends them.
 * - A value points into the session. What hothummei_pending and hothummei_sentence show is good until the next call that
 *   is no reading one, the array of hothummei_row until the next hothummei_row, and all else until hothummei_free.
 *
 * What is proved of the calls holds only of a caller that keeps this:
 *
 * - A handle is null, or what hothummei_new gave; one thread at a time uses it; it is freed once, and not used after.
 * - Pointers that come in point to as many readable bytes as the length says, nonce to 18; `out` to room for its struct,
 *   which no other thread uses. Of a session's memory the caller passes only what it was shown, to be read; never what
 *   hothummei_pending shows to a call of the same session. Nothing shown is written to.
 * - What hothummei_pending shows is sent in order, then hothummei_sent is told; what the server sends is given to
 *   hothummei_take in order.
 * - malloc, realloc and free are those of one allocator, and blocks are aligned as C wants. No call is made from a signal
 *   handler, or in the forked child of a process with threads. */
#ifndef HOTHUMMEI_H
#define HOTHUMMEI_H

#include <stddef.h>
#include <stdint.h>

#ifdef __cplusplus
extern "C" {
#endif

typedef struct hothummei hothummei;

/* The answers of calls. Those from 10 on are the errors that a session fails by; it says why (hothummei_sentence). Behind
 * the others the session is as it was, unless a line here says otherwise. */
enum hothummei_code {
    HOTHUMMEI_OK = 0,
    HOTHUMMEI_NULL = 1,          /* a pointer is null */
    HOTHUMMEI_OUT_OF_PLACE = 2,  /* the call has no place in this phase, or there is nothing to tell */
    HOTHUMMEI_NO_SUCH_INDEX = 3, /* there is nothing by that number */
    HOTHUMMEI_NOT_UTF8 = 4,      /* a text is not UTF-8 */
    HOTHUMMEI_OUT_OF_RANGE = 5,  /* a number is outside its range */
    HOTHUMMEI_OUT_OF_MEMORY = 6, /* memory was wanting; of hothummei_connection and of a turn, the session has failed */
    HOTHUMMEI_INVALID_CONFIG = 10,
    HOTHUMMEI_UNKNOWN_CONFIG = 11,
    HOTHUMMEI_INVALID_UTF8_CONFIG_VALUE = 12,
    HOTHUMMEI_UNEXPECTED_EOF = 13,
    HOTHUMMEI_UNEXPECTED_MESSAGE = 14,
    HOTHUMMEI_IO_ERROR = 15, /* comes from no call: the caller's own input and output */
    HOTHUMMEI_PG_WIRE_ERROR = 16,
    HOTHUMMEI_REMOTE_ERROR = 17, /* the server refused; hothummei_error_field tells how */
    HOTHUMMEI_FROM_SQL_ERROR = 18,
    HOTHUMMEI_DATA_ROW_INDEX_OUT_OF_BOUNDS = 19, /* a row does not hold the values that it tells of */
    HOTHUMMEI_SCRAM_ERROR = 20,
    HOTHUMMEI_UNSUPPORTED_SASL_AUTH_METHODS = 21,
    HOTHUMMEI_READ_LIMIT = 22,
    HOTHUMMEI_BROKEN = 23
};

/* How far a session has come (hothummei_phase). */
enum hothummei_phase {
    HOTHUMMEI_NEW = 0,     /* it wants its connection text */
    HOTHUMMEI_ASKING = 1,  /* requests may be added */
    HOTHUMMEI_WAITING = 2, /* it logs in */
    HOTHUMMEI_READY = 3,   /* the requests are answered, one by one */
    HOTHUMMEI_DONE = 4,    /* there is a report */
    HOTHUMMEI_FAILED = 5
};

/* Bytes, or SQL's NULL (null is 1 then, and else 0). */
struct hothummei_value { const unsigned char *at; size_t len; uint32_t null; };

/* The name of a code, as "REMOTE_ERROR"; never null. */
const char *hothummei_code_name(uint32_t code);

/* ---- a session */
/* Makes one; null where memory is wanting. */
hothummei *hothummei_new(void);
/* Frees it with all that it shows. Null is let be. */
void hothummei_free(hothummei *s);

/* ---- what it is made for: the connection text, then the requests in order */
/* The text is a URL or `key=value` words (docs/CONFIG.md); nonce is 18 random bytes, of a SCRAM login. Nothing is dialed:
 * a host and a port of the text are the caller's to know. */
uint32_t hothummei_connection(hothummei *s, const void *text, size_t text_len, const unsigned char nonce[18]);
/* A simple query, which may hold several commands. */
uint32_t hothummei_simple(hothummei *s, const void *sql, size_t sql_len);
/* Extended queries. An empty name is none. A bind and a query take the parameters that stand ready, in order: values in
 * PostgreSQL's text form, as all values of rows are. Where memory is wanting for the request these are gone. */
uint32_t hothummei_prepare(hothummei *s, const void *name, size_t name_len, const void *sql, size_t sql_len);
uint32_t hothummei_parameter(hothummei *s, const void *value, size_t value_len);
uint32_t hothummei_null_parameter(hothummei *s);
uint32_t hothummei_bind(hothummei *s, const void *portal, size_t portal_len, const void *statement, size_t statement_len);
uint32_t hothummei_execute(hothummei *s, const void *portal, size_t portal_len, uint32_t most_rows); /* 0 is all */
enum hothummei_target { HOTHUMMEI_STATEMENT = 0, HOTHUMMEI_PORTAL = 1 };
uint32_t hothummei_describe(hothummei *s, uint32_t target, const void *name, size_t name_len);
uint32_t hothummei_close(hothummei *s, uint32_t target, const void *name, size_t name_len);
uint32_t hothummei_query(hothummei *s, const void *sql, size_t sql_len);

/* ---- its turns */
/* Begins it. It takes no more than `limit` bytes of the server, the login's too; UINT64_MAX is as good as none, 0 is
 * refused. A text that demands encryption is refused here. */
uint32_t hothummei_start(hothummei *s, uint64_t limit);
/* What is to be sent, in order; and that so many bytes of it were. Also behind a take that failed there may be some. No
 * leave is taken of the server. */
uint32_t hothummei_pending(hothummei *s, struct hothummei_value *out);
uint32_t hothummei_sent(hothummei *s, size_t count);
/* Bytes that came, in pieces of any length; pieces of some 64 KiB serve best. Behind HOTHUMMEI_DONE or a failure it has no
 * place, nor has hothummei_at_end. */
uint32_t hothummei_take(hothummei *s, const void *bytes, size_t len);
/* The server closed the connection: answers what that means, and the session has failed. */
uint32_t hothummei_at_end(hothummei *s);
/* HOTHUMMEI_FAILED for null. */
uint32_t hothummei_phase(hothummei *s);

/* ---- why it failed: an empty sentence where it did not, or where memory was wanting */
uint32_t hothummei_sentence(hothummei *s, struct hothummei_value *out);
/* A field of the server's error by its code, as 'C' (SQLSTATE), 'M' (message), 'S' (severity), 'D', 'H'. */
uint32_t hothummei_error_field(hothummei *s, uint32_t field, struct hothummei_value *out);

/* ---- the report */
struct hothummei_summary {
    uint32_t minor;   /* the protocol is 3.minor */
    uint32_t status;  /* 'I', 'T' or 'E' */
    uint32_t process; /* the server's process number, or 0xffffffff */
    size_t parameters, answers;
    struct hothummei_value key; /* by which, with the process number, a CancelRequest cancels a query */
};
uint32_t hothummei_summary(hothummei *s, struct hothummei_summary *out);
struct hothummei_pair { struct hothummei_value name, value; };
uint32_t hothummei_server_parameter(hothummei *s, size_t index, struct hothummei_pair *out);

enum hothummei_answer_kind {
    HOTHUMMEI_RESPONSES = 0, HOTHUMMEI_PREPARED = 1, HOTHUMMEI_BOUND = 2,
    HOTHUMMEI_COMPLETE = 3, HOTHUMMEI_SUSPENDED = 4, /* of execute: all rows, or up to the number */
    HOTHUMMEI_DESCRIBED = 5, HOTHUMMEI_CLOSED = 6, HOTHUMMEI_ROWS = 7, /* of query */
    HOTHUMMEI_REMOTE = 8 /* the server's error: hothummei_answer_field */
};
/* One for each request. Results: of a simple query one for each command, of execute, query and describe one. Types: those
 * of a statement's parameters, of prepare and describe. */
struct hothummei_answer { uint32_t kind; size_t results, types; };
uint32_t hothummei_answer(hothummei *s, size_t answer, struct hothummei_answer *out);
uint32_t hothummei_answer_field(hothummei *s, size_t answer, uint32_t field, struct hothummei_value *out);
struct hothummei_type { uint32_t oid; };
uint32_t hothummei_parameter_type(hothummei *s, size_t answer, size_t index, struct hothummei_type *out);

enum hothummei_result_kind { HOTHUMMEI_NOTHING = 0, HOTHUMMEI_TABLE = 1, HOTHUMMEI_COMMAND = 2 };
struct hothummei_result {
    uint32_t kind;
    size_t columns, rows; /* no columns of execute and query, and no rows of describe */
    struct hothummei_value command; /* of the tag, as "INSERT"; NULL where there is none */
    uint64_t count;                 /* the tag's number of rows, */
    uint32_t counted;               /* where this is 1 */
};
uint32_t hothummei_result(hothummei *s, size_t answer, size_t result, struct hothummei_result *out);
struct hothummei_column { struct hothummei_value name; uint32_t oid, format; /* 0 text, 1 binary */ };
uint32_t hothummei_column(hothummei *s, size_t answer, size_t result, size_t column, struct hothummei_column *out);
/* Any row is found at once, by an index that is made with the report. `count` is that of its values. */
struct hothummei_row { const struct hothummei_value *values; size_t count; };
uint32_t hothummei_row(hothummei *s, size_t answer, size_t result, size_t row, struct hothummei_row *out);

#ifdef __cplusplus
}
#endif

#endif
