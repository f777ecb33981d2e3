/* Each allocation of a run is refused in turn, and all from there on: a call then answers JC_CODE_NO_MEMORY with nothing done, or a new entry
 * is not kept, and nothing is lost. Link with -Wl,--wrap=malloc,--wrap=realloc,--wrap=free. */
#include "check.h"

void *__real_malloc(size_t size);
void *__real_realloc(void *at, size_t size);
void __real_free(void *at);
void *__wrap_malloc(size_t size);
void *__wrap_realloc(void *at, size_t size);
void __wrap_free(void *at);

/* How many allocations are granted before one is refused, and whether those after it are, too. */
static size_t granted, made, held;
static bool refuses_all;

static bool refuses(void) {
    made++;
    return refuses_all ? made > granted : made == granted + 1;
}

void *__wrap_malloc(size_t size) {
    void *at = refuses() ? NULL : __real_malloc(size);
    held += at != NULL;
    return at;
}

void *__wrap_realloc(void *at, size_t size) {
    void *moved = refuses() ? NULL : __real_realloc(at, size);
    held += moved != NULL && at == NULL;
    return moved;
}

void __wrap_free(void *at) {
    held -= at != NULL;
    __real_free(at);
}

enum { KEYS = 12, CAPACITY = 8, STEPS = 200 };
static const jc_shape SHAPE = {.stripes = 1, .capacity = CAPACITY, .history = 64, .read_through = true, .write_through = true, .out_size = sizeof(jc_out)};

/* The host's own account of what is cached: it follows the moves alone. */
static struct { bool is_there; jc_value value; } table[KEYS];
static unsigned not_kept, no_memory;

static const char *key_of(unsigned number) {
    static char key[8];
    snprintf(key, sizeof key, "k%u", number);
    return key;
}

static unsigned number_of(const jc_key *key) {
    CHECK(key->len >= 2 && key->bytes[0] == 'k');
    unsigned number = 0;
    for (uint32_t i = 1; i < key->len; i++) {
        number = 10 * number + key->bytes[i] - '0';
    }
    CHECK(number < KEYS);
    return number;
}

static bool are_equal(const jc_value *left, const jc_value *right) {
    return left->len == right->len && memcmp(left->bytes, right->bytes, left->len) == 0;
}

static void follow(unsigned number, const jc_out *out, const jc_value *brought) {
    if (out->moves & JC_MOVE_EVICTED) {
        unsigned victim = number_of(&out->victim);
        CHECK(table[victim].is_there && are_equal(&table[victim].value, &out->evicted));
        table[victim].is_there = false;
    }
    if (out->moves & JC_MOVE_REMOVED) {
        CHECK(table[number].is_there && are_equal(&table[number].value, &out->left));
        table[number].is_there = false;
    }
    if (out->moves & JC_MOVE_STORED) {
        CHECK(!table[number].is_there);
        table[number].is_there = true;
        table[number].value = *brought;
    }
    if (out->moves & JC_MOVE_OWN_EVICTED_MEMORY) {
        CHECK(!(out->moves & JC_MOVE_STORED) && !table[number].is_there);
        not_kept++;
    }
}

/* One call, from its first phase to its end: a load, a write or a delete. */
static void call(jc_desk *desk, unsigned step) {
    unsigned number = step * 7 % KEYS;
    const char *key = key_of(number);
    const uint32_t op = step % 5 == 4 ? JC_OP_REMOVE : step % 2 ? JC_OP_PUT : JC_OP_GET;
    jc_value value = {.len = step % 200};
    memset(value.bytes, (int)('a' + step % 26), value.len);
    jc_out out = {0};
    CHECK(jc_begin(desk, 1, op, BYTES(key), value.bytes, value.len, NONE, &out) == JC_OK);
    if (out.next == JC_ASK_LOAD) {
        CHECK(jc_commit_load(desk, out.number, JC_ANSWER_FOUND, 0, value.bytes, value.len, &out) == JC_OK);
        CHECK(out.reply == JC_REPLY_VALUE && are_equal(&out.value, &value));
    } else if (out.next != JC_NEXT_DONE) {
        CHECK(out.next == (op == JC_OP_REMOVE ? JC_ASK_DELETE : JC_ASK_WRITE));
        CHECK(jc_commit_write(desk, out.number, JC_ANSWER_WRITTEN, 0, &out) == JC_OK && out.next == JC_NEXT_DONE);
    }
    follow(number, &out, &value);
}

/* What others have written is forgotten without an allocation. */
static void forget(jc_desk *desk, unsigned step) {
    unsigned number = step * 5 % KEYS;
    size_t before = made;
    jc_out out = {0};
    CHECK(jc_invalidate(desk, BYTES(key_of(number)), &out) == JC_OK && out.next == JC_NEXT_DONE);
    follow(number, &out, &out.value);
    CHECK(!table[number].is_there);
    if (step % 60 == 0) {
        CHECK(jc_invalidate_all(desk) == JC_OK);
        do {
            CHECK(jc_sweep(desk, &out) == JC_OK);
            follow(number, &out, &out.value);
        } while (out.next == JC_NEXT_SHUT);
        CHECK(out.next == JC_NEXT_DONE);
    }
    CHECK(made == before);
}

static void compare(jc_desk *desk) {
    static jc_entry entries[CAPACITY];
    size_t count = 0, expected = 0;
    uint32_t code = jc_entries(desk, entries, CAPACITY, &count);
    if (code == JC_CODE_NO_MEMORY) {
        no_memory++;
        return;
    }
    CHECK(code == JC_OK);
    for (unsigned i = 0; i < KEYS; i++) {
        expected += table[i].is_there;
    }
    CHECK(count == expected);
    for (size_t i = 0; i < count; i++) {
        unsigned number = number_of(&entries[i].key);
        CHECK(table[number].is_there && are_equal(&table[number].value, &entries[i].value));
    }
}

/* False: not even a desk could be opened. */
static bool run(void) {
    memset(table, 0, sizeof table);
    jc_desk desk = {0};
    const jc_entry contents[] = {{.key = {2, "k0"}, .value = {1, "0"}}, {.key = {2, "k1"}, .value = {1, "1"}}};
    uint32_t code = jc_open(&desk, &SHAPE, 0, contents, 2);
    if (code != JC_OK) {
        CHECK(code == JC_CODE_NO_MEMORY && !desk.is_open && held == 0);
        no_memory++;
        return false;
    }
    for (unsigned i = 0; i < 2; i++) {
        table[i].is_there = true;
        table[i].value = contents[i].value;
    }
    for (unsigned step = 0; step < STEPS; step++) {
        call(&desk, step);
        if (step % 12 == 0) {
            forget(&desk, step);
        }
        if (step % 50 == 0) {
            compare(&desk);
        }
    }
    granted = SIZE_MAX / 2;
    compare(&desk);
    CHECK(jc_close(&desk) == JC_OK && held == 0);
    return true;
}

int main(void) {
    unsigned runs = 0, opened = 0;
    for (int all = 0; all <= 1; all++) {
        refuses_all = all;
        size_t refused = 0;
        do {
            granted = refused++;
            made = 0;
            opened += run();
            runs++;
        } while (made >= refused);
    }
    CHECK(opened > 0 && no_memory > 0 && not_kept > 0);
    printf("%u runs, %u opened, %u calls without memory, %u entries not kept\n", runs, opened, no_memory, not_kept);
    return 0;
}
