/* canned.c - sessions with servers whose bytes are written down here, so that none is needed: what each call answers, with
 * the server's bytes cut in several ways; the calls that have no place; each allocation failing in turn. What is wanted
 * comes from PostgreSQL's description of its messages. c/check builds it and runs it, under valgrind too.
 *
 * It is linked with --wrap=malloc and --wrap=realloc. */
#include "hothummei.h"

#include <stdio.h>
#include <string.h>

static unsigned wrong, looked;
static long until; /* that many allocations from now one fails; 0 is none */

void *__real_malloc(size_t size);
void *__real_realloc(void *at, size_t size);

static int fails(void) { return until > 0 && --until == 0; }
void *__wrap_malloc(size_t size) { return fails() ? NULL : __real_malloc(size); }
void *__wrap_realloc(void *at, size_t size) { return fails() ? NULL : __real_realloc(at, size); }

#define LOOK(holds) \
    do { \
        looked++; \
        if (!(holds)) { wrong++; fprintf(stderr, "canned.c:%d: %s\n", __LINE__, #holds); } \
    } while (0)
#define TEXT(text) text, sizeof text - 1

/* ---- messages of a server */

#define ACCEPTED "R" "\0\0\0\10" "\0\0\0\0"
#define VERSION "S" "\0\0\0\30" "server_version\0" "15.4\0"
#define ENCODING "S" "\0\0\0\31" "client_encoding\0" "UTF8\0"
#define KEY "K" "\0\0\0\14" "\0\0\1\2" "\1\2\3\4"
#define IDLE "Z" "\0\0\0\5" "I"
#define LOGIN ACCEPTED VERSION ENCODING KEY IDLE
#define INT4 "\0\0\0\0" "\0\0" "\0\0\0\27" "\0\4" "\377\377\377\377" "\0\0"
#define STRING "\0\0\0\0" "\0\0" "\0\0\0\31" "\377\377" "\377\377\377\377" "\0\0"
#define COLUMNS "T" "\0\0\0\56" "\0\2" "n\0" INT4 "t\0" STRING
#define ROW_ONE "D" "\0\0\0\22" "\0\2" "\0\0\0\1" "1" "\0\0\0\3" "one"
#define ROW_NULL "D" "\0\0\0\17" "\0\2" "\0\0\0\1" "2" "\377\377\377\377"
#define ROW_EMPTY "D" "\0\0\0\20" "\0\2" "\0\0\0\2" "33" "\0\0\0\0"
#define ROW_SHORT "D" "\0\0\0\13" "\0\2" "\0\0\0\1" "4" /* tells of two values, and has one */
#define SELECTED "C" "\0\0\0\15" "SELECT 3\0"
#define INSERTED "C" "\0\0\0\17" "INSERT 0 2\0"
#define DIVIDED "E" "\0\0\0\45" "SERROR\0" "C22012\0" "Mdivision by zero\0" "\0"
#define REFUSED "E" "\0\0\0\32" "SFATAL\0" "C28P01\0" "Mwrong\0" "\0"
#define PARSED "1" "\0\0\0\4"
#define BOUND "2" "\0\0\0\4"
#define CLOSED "3" "\0\0\0\4"
#define SUSPENDED "s" "\0\0\0\4"
#define TAKES_INT4 "t" "\0\0\0\12" "\0\1" "\0\0\0\27"
#define COLUMN "T" "\0\0\0\32" "\0\1" "a\0" INT4
#define ROW_41 "D" "\0\0\0\14" "\0\1" "\0\0\0\2" "41"
#define SELECTED_ONE "C" "\0\0\0\15" "SELECT 1\0"

/* ---- what is looked at */

static int is(struct hothummei_value v, const char *text) {
    return v.null == 0 && v.len == strlen(text) && memcmp(v.at, text, v.len) == 0;
}

static int holds(struct hothummei_value v, const char *bytes, size_t len) {
    for (size_t at = 0; at + len <= v.len; at++) if (memcmp(v.at + at, bytes, len) == 0) return 1;
    return 0;
}

static int is_told(uint32_t code, struct hothummei_value v, const char *text) { return code == HOTHUMMEI_OK && is(v, text); }

/* The values of a row; a null pointer stands for NULL. */
static int is_row(hothummei *s, size_t answer, size_t result, size_t row, size_t count, const char *const *texts) {
    struct hothummei_row out;
    if (hothummei_row(s, answer, result, row, &out) != HOTHUMMEI_OK || out.count != count) return 0;
    for (size_t at = 0; at < count; at++) {
        if (texts[at] == NULL ? out.values[at].null != 1 : !is(out.values[at], texts[at])) return 0;
    }
    return 1;
}

static int is_column(hothummei *s, size_t answer, size_t result, size_t at, const char *name, uint32_t oid) {
    struct hothummei_column out;
    return hothummei_column(s, answer, result, at, &out) == HOTHUMMEI_OK && is(out.name, name) && out.oid == oid && out.format == 0;
}

static int is_parameter(hothummei *s, size_t at, const char *name, const char *value) {
    struct hothummei_pair out;
    return hothummei_server_parameter(s, at, &out) == HOTHUMMEI_OK && is(out.name, name) && is(out.value, value);
}

static int is_answer(hothummei *s, size_t at, uint32_t kind, size_t results, size_t types) {
    struct hothummei_answer out;
    return hothummei_answer(s, at, &out) == HOTHUMMEI_OK && out.kind == kind && out.results == results && out.types == types;
}

static int is_result(hothummei *s, size_t answer, size_t at, uint32_t kind, size_t columns, size_t rows) {
    struct hothummei_result out;
    return hothummei_result(s, answer, at, &out) == HOTHUMMEI_OK && out.kind == kind && out.columns == columns && out.rows == rows;
}

static int is_tag(hothummei *s, size_t answer, size_t at, const char *command, uint64_t count) {
    struct hothummei_result out;
    return hothummei_result(s, answer, at, &out) == HOTHUMMEI_OK && is(out.command, command) && out.counted == 1 && out.count == count;
}

/* ---- conversations */

struct canned {
    const char *name;
    uint32_t (*ask)(hothummei *s);
    const char *bytes;
    size_t len;
    uint32_t code; /* what the last bytes, or the end behind them, are answered by */
    void (*look)(hothummei *s);
};

static uint32_t ask_simple(hothummei *s) { return hothummei_simple(s, TEXT("SELECT 1")); }

static void look_simple(hothummei *s) {
    const char *const one[] = {"1", "one"}, *const two[] = {"2", NULL}, *const three[] = {"33", ""};
    struct hothummei_summary all;
    struct hothummei_row row;
    struct hothummei_column column;
    LOOK(hothummei_summary(s, &all) == HOTHUMMEI_OK && all.minor == 0 && all.status == 'I' && all.process == 258);
    LOOK(all.parameters == 2 && all.answers == 1 && all.key.len == 4 && memcmp(all.key.at, "\1\2\3\4", 4) == 0);
    LOOK(is_parameter(s, 0, "client_encoding", "UTF8") && is_parameter(s, 1, "server_version", "15.4"));
    LOOK(is_answer(s, 0, HOTHUMMEI_RESPONSES, 2, 0));
    LOOK(is_result(s, 0, 0, HOTHUMMEI_TABLE, 2, 4) && is_tag(s, 0, 0, "SELECT", 3));
    LOOK(is_result(s, 0, 1, HOTHUMMEI_COMMAND, 0, 0) && is_tag(s, 0, 1, "INSERT", 2));
    LOOK(is_column(s, 0, 0, 0, "n", 23) && is_column(s, 0, 0, 1, "t", 25));
    LOOK(is_row(s, 0, 0, 2, 2, three) && is_row(s, 0, 0, 0, 2, one) && is_row(s, 0, 0, 1, 2, two));
    LOOK(hothummei_row(s, 0, 0, 3, &row) == HOTHUMMEI_DATA_ROW_INDEX_OUT_OF_BOUNDS);
    LOOK(hothummei_row(s, 0, 0, 4, &row) == HOTHUMMEI_NO_SUCH_INDEX && hothummei_row(s, 0, 2, 0, &row) == HOTHUMMEI_NO_SUCH_INDEX);
    LOOK(hothummei_row(s, 1, 0, 0, &row) == HOTHUMMEI_NO_SUCH_INDEX && hothummei_column(s, 0, 0, 2, &column) == HOTHUMMEI_NO_SUCH_INDEX);
}

static uint32_t ask_extended(hothummei *s) {
    uint32_t code = hothummei_prepare(s, NULL, 0, TEXT("SELECT $1::int AS a"));
    if (code == HOTHUMMEI_OK) code = hothummei_describe(s, HOTHUMMEI_STATEMENT, NULL, 0);
    if (code == HOTHUMMEI_OK) code = hothummei_parameter(s, TEXT("41"));
    if (code == HOTHUMMEI_OK) code = hothummei_bind(s, TEXT("p"), NULL, 0);
    if (code == HOTHUMMEI_OK) code = hothummei_execute(s, TEXT("p"), 1);
    if (code == HOTHUMMEI_OK) code = hothummei_close(s, HOTHUMMEI_PORTAL, TEXT("p"));
    if (code == HOTHUMMEI_OK) code = hothummei_null_parameter(s);
    if (code == HOTHUMMEI_OK) code = hothummei_query(s, TEXT("SELECT $1::int"));
    if (code == HOTHUMMEI_OK) code = hothummei_query(s, TEXT("SELECT 1/0"));
    return code;
}

static void look_extended(hothummei *s) {
    const char *const value[] = {"41"};
    struct hothummei_type type;
    struct hothummei_value out;
    struct hothummei_result result;
    LOOK(is_answer(s, 0, HOTHUMMEI_PREPARED, 0, 1) && hothummei_parameter_type(s, 0, 0, &type) == HOTHUMMEI_OK && type.oid == 23);
    LOOK(is_answer(s, 1, HOTHUMMEI_DESCRIBED, 1, 1) && is_column(s, 1, 0, 0, "a", 23));
    LOOK(is_answer(s, 2, HOTHUMMEI_BOUND, 0, 0) && is_answer(s, 3, HOTHUMMEI_SUSPENDED, 1, 0));
    LOOK(is_result(s, 3, 0, HOTHUMMEI_TABLE, 0, 1) && is_row(s, 3, 0, 0, 1, value));
    LOOK(hothummei_result(s, 3, 0, &result) == HOTHUMMEI_OK && result.command.null == 1 && result.counted == 0);
    LOOK(is_answer(s, 4, HOTHUMMEI_CLOSED, 0, 0) && is_answer(s, 5, HOTHUMMEI_ROWS, 1, 0) && is_row(s, 5, 0, 0, 1, value));
    LOOK(is_answer(s, 6, HOTHUMMEI_REMOTE, 0, 0) && is_told(hothummei_answer_field(s, 6, 'C', &out), out, "22012"));
    LOOK(is_told(hothummei_answer_field(s, 6, 'M', &out), out, "division by zero"));
    LOOK(hothummei_answer_field(s, 6, 'H', &out) == HOTHUMMEI_NO_SUCH_INDEX && hothummei_answer_field(s, 5, 'C', &out) == HOTHUMMEI_OUT_OF_PLACE);
    LOOK(hothummei_parameter_type(s, 0, 1, &type) == HOTHUMMEI_NO_SUCH_INDEX && hothummei_answer_field(s, 7, 'C', &out) == HOTHUMMEI_NO_SUCH_INDEX);
}

static void look_refused(hothummei *s) {
    struct hothummei_value out;
    LOOK(is_told(hothummei_error_field(s, 'C', &out), out, "28P01") && is_told(hothummei_error_field(s, 'S', &out), out, "FATAL"));
    LOOK(hothummei_error_field(s, 'H', &out) == HOTHUMMEI_NO_SUCH_INDEX);
    LOOK(hothummei_sentence(s, &out) == HOTHUMMEI_OK && holds(out, TEXT("wrong")));
}

/* A session that failed takes nothing more, and has no report. */
static void look_ended(hothummei *s) {
    struct hothummei_value out;
    struct hothummei_summary all;
    struct hothummei_pair pair;
    LOOK(hothummei_sentence(s, &out) == HOTHUMMEI_OK && out.len > 0);
    LOOK(hothummei_error_field(s, 'C', &out) == HOTHUMMEI_OUT_OF_PLACE && hothummei_summary(s, &all) == HOTHUMMEI_OUT_OF_PLACE);
    LOOK(hothummei_server_parameter(s, 0, &pair) == HOTHUMMEI_OUT_OF_PLACE);
}

static const struct canned conversations[] = {
    {"a simple query", ask_simple, TEXT(LOGIN COLUMNS ROW_ONE ROW_NULL ROW_EMPTY ROW_SHORT SELECTED INSERTED IDLE), HOTHUMMEI_OK, look_simple},
    {"an extended query", ask_extended,
     TEXT(LOGIN PARSED TAKES_INT4 COLUMN IDLE TAKES_INT4 COLUMN IDLE BOUND ROW_41 SUSPENDED CLOSED IDLE
              PARSED BOUND ROW_41 SELECTED_ONE IDLE DIVIDED IDLE),
     HOTHUMMEI_OK, look_extended},
    {"a login that is refused", ask_simple, TEXT(REFUSED), HOTHUMMEI_REMOTE_ERROR, look_refused},
    {"an end within a login", ask_simple, TEXT(ACCEPTED "S\0"), HOTHUMMEI_UNEXPECTED_EOF, look_ended},
    {"an end behind a login", ask_simple, TEXT(LOGIN COLUMNS ROW_ONE), HOTHUMMEI_UNEXPECTED_EOF, look_ended},
    {"a message that has no place", ask_simple, TEXT(LOGIN BOUND), HOTHUMMEI_UNEXPECTED_MESSAGE, look_ended},
    {"bytes that are no message", ask_simple, TEXT("HTTP/1.1 400"), HOTHUMMEI_PG_WIRE_ERROR, look_ended},
};

/* Passes on what is to be sent, half of it at a time. */
static void send_all(hothummei *s) {
    struct hothummei_value out;
    while (hothummei_pending(s, &out) == HOTHUMMEI_OK && out.len > 0) {
        if (hothummei_sent(s, (out.len + 1) / 2) != HOTHUMMEI_OK) { wrong++; return; }
    }
}

/* Asks, and gives the server's bytes in pieces of a length, and its end where it comes to that. Answers the last code. */
static uint32_t hold(hothummei *s, const struct canned *it, size_t piece) {
    static const unsigned char nonce[18];
    uint32_t code = hothummei_connection(s, TEXT("user=bob"), nonce);
    if (code == HOTHUMMEI_OK) code = it->ask(s);
    if (code == HOTHUMMEI_OK) code = hothummei_start(s, 100000);
    for (size_t at = 0; code == HOTHUMMEI_OK && at < it->len; at += piece) {
        send_all(s);
        code = hothummei_take(s, it->bytes + at, at + piece < it->len ? piece : it->len - at);
    }
    if (code == HOTHUMMEI_OK && hothummei_phase(s) != HOTHUMMEI_DONE) code = hothummei_at_end(s);
    send_all(s);
    return code;
}

static void converse(const struct canned *it, size_t piece) {
    hothummei *s = hothummei_new();
    uint32_t code = hold(s, it, piece);
    LOOK(code == it->code && hothummei_phase(s) == (code == HOTHUMMEI_OK ? HOTHUMMEI_DONE : HOTHUMMEI_FAILED));
    LOOK(hothummei_take(s, "x", 1) == HOTHUMMEI_OUT_OF_PLACE && hothummei_at_end(s) == HOTHUMMEI_OUT_OF_PLACE);
    if (code == it->code) it->look(s);
    else fprintf(stderr, "%s, %zu bytes at a time: %s\n", it->name, piece, hothummei_code_name(code));
    hothummei_free(s);
}

/* Each allocation fails in turn: the session says so, or does without. */
static void converse_without(const struct canned *it) {
    for (long nth = 1;; nth++) {
        until = nth;
        hothummei *s = hothummei_new();
        uint32_t code = s == NULL ? HOTHUMMEI_OUT_OF_MEMORY : hold(s, it, 64);
        int all = until > 0;
        until = 0;
        LOOK(code == it->code || (!all && code == HOTHUMMEI_OUT_OF_MEMORY));
        hothummei_free(s);
        if (all) return;
    }
}

/* ---- calls that have no place, and what they get */

static void look_begins(hothummei *s) {
    struct hothummei_value out;
    static const unsigned char nonce[18];
    LOOK(hothummei_phase(s) == HOTHUMMEI_NEW && hothummei_simple(s, TEXT("x")) == HOTHUMMEI_OUT_OF_PLACE);
    LOOK(hothummei_connection(s, TEXT("user=\377"), nonce) == HOTHUMMEI_NOT_UTF8 && hothummei_phase(s) == HOTHUMMEI_NEW);
    LOOK(hothummei_connection(s, NULL, 1, nonce) == HOTHUMMEI_NULL && hothummei_connection(s, TEXT("user=bob"), NULL) == HOTHUMMEI_NULL);
    LOOK(hothummei_start(s, 1) == HOTHUMMEI_OUT_OF_PLACE && hothummei_take(s, NULL, 0) == HOTHUMMEI_OUT_OF_PLACE);
    LOOK(hothummei_connection(s, TEXT("user=bob"), nonce) == HOTHUMMEI_OK && hothummei_phase(s) == HOTHUMMEI_ASKING);
    LOOK(hothummei_connection(s, TEXT("port=x"), nonce) == HOTHUMMEI_OUT_OF_PLACE && hothummei_phase(s) == HOTHUMMEI_ASKING);
    LOOK(hothummei_describe(s, 2, NULL, 0) == HOTHUMMEI_OUT_OF_RANGE && hothummei_execute(s, NULL, 0, 1u << 31) == HOTHUMMEI_OUT_OF_RANGE);
    LOOK(hothummei_simple(s, TEXT("\xc3")) == HOTHUMMEI_NOT_UTF8 && hothummei_pending(s, NULL) == HOTHUMMEI_NULL);
    LOOK(hothummei_start(s, 0) == HOTHUMMEI_OUT_OF_RANGE && hothummei_sent(s, 1) == HOTHUMMEI_OUT_OF_RANGE);
    LOOK(hothummei_parameter(s, TEXT("left")) == HOTHUMMEI_OK && hothummei_simple(s, TEXT("SELECT 1")) == HOTHUMMEI_OK);
    LOOK(hothummei_start(s, 1) == HOTHUMMEI_OK && hothummei_phase(s) == HOTHUMMEI_WAITING);
    LOOK(hothummei_pending(s, &out) == HOTHUMMEI_OK && out.len == 18 && memcmp(out.at, "\0\0\0\22" "\0\3\0\0" "user\0bob\0", 18) == 0);
    LOOK(hothummei_take(s, TEXT(LOGIN)) == HOTHUMMEI_READ_LIMIT && hothummei_phase(s) == HOTHUMMEI_FAILED);
}

/* The parameters that stand ready are those of one bind or query, and a simple query leaves them. */
static void look_parameters(hothummei *s) {
    struct hothummei_value out;
    static const unsigned char nonce[18];
    LOOK(hothummei_connection(s, TEXT("user=bob"), nonce) == HOTHUMMEI_OK && hothummei_parameter(s, TEXT("ready")) == HOTHUMMEI_OK);
    LOOK(hothummei_query(s, TEXT("\xc3")) == HOTHUMMEI_NOT_UTF8 && hothummei_simple(s, TEXT("a")) == HOTHUMMEI_OK);
    LOOK(hothummei_query(s, TEXT("b")) == HOTHUMMEI_OK && hothummei_query(s, TEXT("c")) == HOTHUMMEI_OK);
    LOOK(hothummei_start(s, 1000) == HOTHUMMEI_OK && hothummei_pending(s, &out) == HOTHUMMEI_OK && hothummei_sent(s, out.len) == HOTHUMMEI_OK);
    LOOK(hothummei_take(s, TEXT(LOGIN)) == HOTHUMMEI_OK && hothummei_phase(s) == HOTHUMMEI_READY);
    LOOK(hothummei_pending(s, &out) == HOTHUMMEI_OK && out.len == 7 && memcmp(out.at, "Q" "\0\0\0\6" "a", 7) == 0);
    LOOK(hothummei_sent(s, 8) == HOTHUMMEI_OUT_OF_RANGE && hothummei_sent(s, 7) == HOTHUMMEI_OK);
    LOOK(hothummei_take(s, TEXT(INSERTED IDLE)) == HOTHUMMEI_OK && hothummei_pending(s, &out) == HOTHUMMEI_OK);
    LOOK(holds(out, TEXT("\0\1" "\0\0\0\5" "ready")) && hothummei_sent(s, out.len) == HOTHUMMEI_OK);
    LOOK(hothummei_take(s, TEXT(PARSED BOUND INSERTED IDLE)) == HOTHUMMEI_OK && hothummei_pending(s, &out) == HOTHUMMEI_OK);
    LOOK(out.len > 0 && !holds(out, TEXT("ready")));
}

static void look_encryption(hothummei *s) {
    struct hothummei_value out;
    static const unsigned char nonce[18];
    LOOK(hothummei_connection(s, TEXT("user=bob sslmode=require"), nonce) == HOTHUMMEI_OK);
    LOOK(hothummei_start(s, 1) == HOTHUMMEI_INVALID_CONFIG && hothummei_phase(s) == HOTHUMMEI_FAILED);
    LOOK(hothummei_pending(s, &out) == HOTHUMMEI_OK && out.len == 0 && hothummei_start(s, 1) == HOTHUMMEI_OUT_OF_PLACE);
}

static void look_null(void) {
    struct hothummei_value out;
    struct hothummei_row row;
    LOOK(hothummei_simple(NULL, NULL, 0) == HOTHUMMEI_NULL && hothummei_take(NULL, NULL, 0) == HOTHUMMEI_NULL);
    LOOK(hothummei_pending(NULL, &out) == HOTHUMMEI_NULL && hothummei_row(NULL, 0, 0, 0, &row) == HOTHUMMEI_NULL);
    LOOK(hothummei_phase(NULL) == HOTHUMMEI_FAILED && strcmp(hothummei_code_name(17), "REMOTE_ERROR") == 0);
    LOOK(strcmp(hothummei_code_name(23), "BROKEN") == 0 && strcmp(hothummei_code_name(24), "") == 0);
    hothummei_free(NULL);
}

int main(void) {
    void (*const alone[])(hothummei *) = {look_begins, look_parameters, look_encryption};
    static const size_t pieces[] = {1, 7, 100000};
    for (size_t at = 0; at < sizeof alone / sizeof *alone; at++) {
        hothummei *s = hothummei_new();
        alone[at](s);
        hothummei_free(s);
    }
    look_null();
    for (size_t at = 0; at < sizeof conversations / sizeof *conversations; at++) {
        for (size_t p = 0; p < sizeof pieces / sizeof *pieces; p++) converse(&conversations[at], pieces[p]);
        converse_without(&conversations[at]);
    }
    printf("%u looked at, %u wrong\n", looked, wrong);
    return wrong == 0 ? 0 : 1;
}
