/* hothummei.c - what stands between hothummei.h and the library's own calls (crates/hothummei_c/src/calls.rt): it takes a
 * session's block from malloc and gives it back, and refuses pointers that are null, which the library's own calls rule out
 * (all but a null handle, which they answer themselves). Nothing else is done here. */
#include "hothummei.h"

#include <stdlib.h>

/* The library's own calls. A slice is a pointer and a length. */
size_t hothummei_c_size(void);
void hothummei_c_place(hothummei *s);
void hothummei_c_release(hothummei *s);
uint32_t hothummei_c_connection(hothummei *, const unsigned char *, size_t, const unsigned char *);
uint32_t hothummei_c_simple(hothummei *, const unsigned char *, size_t);
uint32_t hothummei_c_prepare(hothummei *, const unsigned char *, size_t, const unsigned char *, size_t);
uint32_t hothummei_c_bind(hothummei *, const unsigned char *, size_t, const unsigned char *, size_t);
uint32_t hothummei_c_execute(hothummei *, const unsigned char *, size_t, uint32_t);
uint32_t hothummei_c_describe(hothummei *, uint32_t, const unsigned char *, size_t);
uint32_t hothummei_c_close(hothummei *, uint32_t, const unsigned char *, size_t);
uint32_t hothummei_c_query(hothummei *, const unsigned char *, size_t);
uint32_t hothummei_c_parameter(hothummei *, const unsigned char *, size_t);
uint32_t hothummei_c_null_parameter(hothummei *);
uint32_t hothummei_c_start(hothummei *, uint64_t);
uint32_t hothummei_c_take(hothummei *, const unsigned char *, size_t);
uint32_t hothummei_c_pending(hothummei *, struct hothummei_value *);
uint32_t hothummei_c_sent(hothummei *, size_t);
uint32_t hothummei_c_phase(hothummei *);
uint32_t hothummei_c_at_end(hothummei *);
uint32_t hothummei_c_sentence(hothummei *, struct hothummei_value *);
uint32_t hothummei_c_summary(hothummei *, struct hothummei_summary *);
uint32_t hothummei_c_server_parameter(hothummei *, size_t, struct hothummei_pair *);
uint32_t hothummei_c_answer(hothummei *, size_t, struct hothummei_answer *);
uint32_t hothummei_c_parameter_type(hothummei *, size_t, size_t, struct hothummei_type *);
uint32_t hothummei_c_error_field(hothummei *, uint32_t, struct hothummei_value *);
uint32_t hothummei_c_answer_field(hothummei *, size_t, uint32_t, struct hothummei_value *);
uint32_t hothummei_c_result(hothummei *, size_t, size_t, struct hothummei_result *);
uint32_t hothummei_c_column(hothummei *, size_t, size_t, size_t, struct hothummei_column *);
uint32_t hothummei_c_row(hothummei *, size_t, size_t, size_t, struct hothummei_row *);

/* The library wants a pointer to no bytes, too. */
static const unsigned char *some(const void *bytes) {
    return bytes == NULL ? (const unsigned char *)"" : bytes;
}

hothummei *hothummei_new(void) {
    hothummei *s = malloc(hothummei_c_size());
    if (s != NULL) hothummei_c_place(s);
    return s;
}

void hothummei_free(hothummei *s) {
    hothummei_c_release(s);
    free(s);
}

const char *hothummei_code_name(uint32_t code) {
    static const char *const names[] = {
        "OK", "NULL", "OUT_OF_PLACE", "NO_SUCH_INDEX", "NOT_UTF8", "OUT_OF_RANGE", "OUT_OF_MEMORY", "", "", "",
        "INVALID_CONFIG", "UNKNOWN_CONFIG", "INVALID_UTF8_CONFIG_VALUE", "UNEXPECTED_EOF", "UNEXPECTED_MESSAGE", "IO_ERROR",
        "PG_WIRE_ERROR", "REMOTE_ERROR", "FROM_SQL_ERROR", "DATA_ROW_INDEX_OUT_OF_BOUNDS", "SCRAM_ERROR",
        "UNSUPPORTED_SASL_AUTH_METHODS", "READ_LIMIT", "BROKEN",
    };
    return code < sizeof names / sizeof *names ? names[code] : "";
}

uint32_t hothummei_connection(hothummei *s, const void *text, size_t text_len, const unsigned char nonce[18]) {
    if ((text == NULL && text_len != 0) || nonce == NULL) return HOTHUMMEI_NULL;
    return hothummei_c_connection(s, some(text), text_len, nonce);
}

uint32_t hothummei_simple(hothummei *s, const void *sql, size_t sql_len) {
    if ((sql == NULL && sql_len != 0)) return HOTHUMMEI_NULL;
    return hothummei_c_simple(s, some(sql), sql_len);
}

uint32_t hothummei_prepare(hothummei *s, const void *name, size_t name_len, const void *sql, size_t sql_len) {
    if ((name == NULL && name_len != 0) || (sql == NULL && sql_len != 0)) return HOTHUMMEI_NULL;
    return hothummei_c_prepare(s, some(name), name_len, some(sql), sql_len);
}

uint32_t hothummei_bind(hothummei *s, const void *portal, size_t portal_len, const void *statement, size_t statement_len) {
    if ((portal == NULL && portal_len != 0) || (statement == NULL && statement_len != 0)) return HOTHUMMEI_NULL;
    return hothummei_c_bind(s, some(portal), portal_len, some(statement), statement_len);
}

uint32_t hothummei_execute(hothummei *s, const void *portal, size_t portal_len, uint32_t most_rows) {
    if ((portal == NULL && portal_len != 0)) return HOTHUMMEI_NULL;
    return hothummei_c_execute(s, some(portal), portal_len, most_rows);
}

uint32_t hothummei_describe(hothummei *s, uint32_t target, const void *name, size_t name_len) {
    if ((name == NULL && name_len != 0)) return HOTHUMMEI_NULL;
    return hothummei_c_describe(s, target, some(name), name_len);
}

uint32_t hothummei_close(hothummei *s, uint32_t target, const void *name, size_t name_len) {
    if ((name == NULL && name_len != 0)) return HOTHUMMEI_NULL;
    return hothummei_c_close(s, target, some(name), name_len);
}

uint32_t hothummei_query(hothummei *s, const void *sql, size_t sql_len) {
    if ((sql == NULL && sql_len != 0)) return HOTHUMMEI_NULL;
    return hothummei_c_query(s, some(sql), sql_len);
}

uint32_t hothummei_parameter(hothummei *s, const void *value, size_t value_len) {
    if ((value == NULL && value_len != 0)) return HOTHUMMEI_NULL;
    return hothummei_c_parameter(s, some(value), value_len);
}

uint32_t hothummei_null_parameter(hothummei *s) {
    return hothummei_c_null_parameter(s);
}

uint32_t hothummei_start(hothummei *s, uint64_t limit) {
    return hothummei_c_start(s, limit);
}

uint32_t hothummei_take(hothummei *s, const void *bytes, size_t len) {
    if ((bytes == NULL && len != 0)) return HOTHUMMEI_NULL;
    return hothummei_c_take(s, some(bytes), len);
}

uint32_t hothummei_pending(hothummei *s, struct hothummei_value *out) {
    if (out == NULL) return HOTHUMMEI_NULL;
    return hothummei_c_pending(s, out);
}

uint32_t hothummei_sent(hothummei *s, size_t count) {
    return hothummei_c_sent(s, count);
}

uint32_t hothummei_phase(hothummei *s) {
    return s == NULL ? HOTHUMMEI_FAILED : hothummei_c_phase(s);
}

uint32_t hothummei_at_end(hothummei *s) {
    return hothummei_c_at_end(s);
}

uint32_t hothummei_sentence(hothummei *s, struct hothummei_value *out) {
    if (out == NULL) return HOTHUMMEI_NULL;
    return hothummei_c_sentence(s, out);
}

uint32_t hothummei_summary(hothummei *s, struct hothummei_summary *out) {
    if (out == NULL) return HOTHUMMEI_NULL;
    return hothummei_c_summary(s, out);
}

uint32_t hothummei_server_parameter(hothummei *s, size_t index, struct hothummei_pair *out) {
    if (out == NULL) return HOTHUMMEI_NULL;
    return hothummei_c_server_parameter(s, index, out);
}

uint32_t hothummei_answer(hothummei *s, size_t answer, struct hothummei_answer *out) {
    if (out == NULL) return HOTHUMMEI_NULL;
    return hothummei_c_answer(s, answer, out);
}

uint32_t hothummei_parameter_type(hothummei *s, size_t answer, size_t index, struct hothummei_type *out) {
    if (out == NULL) return HOTHUMMEI_NULL;
    return hothummei_c_parameter_type(s, answer, index, out);
}

uint32_t hothummei_error_field(hothummei *s, uint32_t field, struct hothummei_value *out) {
    if (out == NULL) return HOTHUMMEI_NULL;
    return hothummei_c_error_field(s, field, out);
}

uint32_t hothummei_answer_field(hothummei *s, size_t answer, uint32_t field, struct hothummei_value *out) {
    if (out == NULL) return HOTHUMMEI_NULL;
    return hothummei_c_answer_field(s, answer, field, out);
}

uint32_t hothummei_result(hothummei *s, size_t answer, size_t result, struct hothummei_result *out) {
    if (out == NULL) return HOTHUMMEI_NULL;
    return hothummei_c_result(s, answer, result, out);
}

uint32_t hothummei_column(hothummei *s, size_t answer, size_t result, size_t column, struct hothummei_column *out) {
    if (out == NULL) return HOTHUMMEI_NULL;
    return hothummei_c_column(s, answer, result, column, out);
}

uint32_t hothummei_row(hothummei *s, size_t answer, size_t result, size_t row, struct hothummei_row *out) {
    if (out == NULL) return HOTHUMMEI_NULL;
    return hothummei_c_row(s, answer, result, row, out);
}
