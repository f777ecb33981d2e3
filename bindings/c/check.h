/* What the tests of this folder share. */
#ifndef JC_CHECK_H
#define JC_CHECK_H
#include "cadwrelch.h"
#include <stdio.h>
#include <stdlib.h>
#include <string.h>

/* How many checks this thread has made. */
static _Thread_local unsigned checks_made;

#define CHECK(condition)                                                          \
    do {                                                                          \
        checks_made++;                                                            \
        if (!(condition)) {                                                       \
            fprintf(stderr, "%s:%d: %s\n", __FILE__, __LINE__, #condition);       \
            exit(1);                                                              \
        }                                                                         \
    } while (0)

/* A text as bytes and their number. */
#define BYTES(text) (const uint8_t *)(text), strlen(text)
#define NONE (const uint8_t *)"", 0

static inline bool is_value(const jc_value *value, const char *text) {
    return value->len == strlen(text) && memcmp(value->bytes, text, value->len) == 0;
}

static inline bool is_key(const jc_key *key, const char *text) {
    return key->len == strlen(text) && memcmp(key->bytes, text, key->len) == 0;
}

static inline uint32_t begin(jc_desk *desk, uint32_t session, uint32_t op, const char *key, const char *value, jc_out *out) {
    return jc_begin(desk, session, op, BYTES(key), BYTES(value), NONE, out);
}
#endif
