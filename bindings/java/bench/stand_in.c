/* A stand-in for the core, for bench/peers alone: with it the provider shows what Java and JNI cost by themselves. It is ordinary C without
 * any proof or test, and has get and put with a loader and a writer, keys and values of eight bytes, LRU order and reservations; no other
 * operation, no joined load, no event. */
#include "cadwrelch.h"
#include <stdlib.h>
#include <string.h>

/* An entry: in the chain of its bucket, and in the list by use. */
typedef struct entry {
    uint64_t key, value;
    struct entry *chain, *newer, *older;
} entry;

typedef struct ticket {
    bool is_out;
    uint32_t op;
    uint64_t number, key, value;
} ticket;

typedef struct core {
    jc_shape shape;
    size_t mask, count;
    entry **buckets;
    entry *newest, *oldest;
    ticket tickets[JC_RESERVATIONS_MAX];
    uint64_t last_ticket, last_call;
} core;

static uint64_t number_in(const uint8_t *bytes, size_t length) {
    uint64_t number = 0;
    if (length == sizeof number) memcpy(&number, bytes, sizeof number);
    return number;
}

static void give(jc_value *to, uint64_t number) {
    to->len = sizeof number;
    memcpy(to->bytes, &number, sizeof number);
}

/* The link that leads to a key's entry, or to the end of its bucket. */
static entry **link_to(core *c, uint64_t key) {
    entry **link = &c->buckets[key * 0x9e3779b97f4a7c15u >> 40 & c->mask];
    while (*link != NULL && (*link)->key != key) link = &(*link)->chain;
    return link;
}

static void take_from_order(core *c, entry *e) {
    *(e->newer != NULL ? &e->newer->older : &c->newest) = e->older;
    *(e->older != NULL ? &e->older->newer : &c->oldest) = e->newer;
}

static void put_first(core *c, entry *e) {
    e->newer = NULL;
    e->older = c->newest;
    *(c->newest != NULL ? &c->newest->newer : &c->oldest) = e;
    c->newest = e;
}

static void use(core *c, entry *e) {
    if (c->newest == e) return;
    take_from_order(c, e);
    put_first(c, e);
}

static ticket *ticket_of_key(core *c, uint64_t key) {
    for (size_t i = 0; i < JC_RESERVATIONS_MAX; i++) {
        if (c->tickets[i].is_out && c->tickets[i].key == key) return &c->tickets[i];
    }
    return NULL;
}

/* Evicts the entry that was used longest ago and isn't reserved. False: there is none. */
static bool evict(core *c, jc_out *out) {
    entry *victim = c->oldest;
    while (victim != NULL && ticket_of_key(c, victim->key) != NULL) victim = victim->newer;
    if (victim == NULL) return false;
    out->moves |= JC_MOVE_EVICTED;
    out->victim.len = sizeof victim->key;
    memcpy(out->victim.bytes, &victim->key, sizeof victim->key);
    give(&out->evicted, victim->value);
    *link_to(c, victim->key) = victim->chain;
    take_from_order(c, victim);
    c->count--;
    free(victim);
    return true;
}

static void insert(core *c, uint64_t key, uint64_t value, jc_out *out) {
    if (c->count == c->shape.capacity && !evict(c, out)) {
        out->moves |= JC_MOVE_OWN_EVICTED_FULL;
        return;
    }
    entry *e = malloc(sizeof *e);
    if (e == NULL) {
        out->moves |= JC_MOVE_OWN_EVICTED_MEMORY;
        return;
    }
    e->key = key;
    e->value = value;
    e->chain = NULL;
    *link_to(c, key) = e;
    put_first(c, e);
    c->count++;
    out->moves |= JC_MOVE_STORED;
}

static void set(core *c, uint64_t key, uint64_t value, jc_out *out) {
    entry *e = *link_to(c, key);
    if (e == NULL) {
        insert(c, key, value, out);
        return;
    }
    out->moves |= JC_MOVE_STORED | JC_MOVE_REMOVED;
    give(&out->left, e->value);
    e->value = value;
    use(c, e);
}

static uint32_t answer(jc_out *out, uint32_t next, uint32_t reply) {
    out->next = next;
    out->reply = reply;
    out->code = out->place = out->shared = out->moves = 0;
    return JC_OK;
}

uint32_t jc_version(void) {
    return JC_VERSION;
}

uint32_t jc_open(jc_desk *h, const jc_shape *shape, size_t number, const jc_entry *entries, size_t count) {
    (void)number, (void)entries, (void)count;
    size_t buckets = 16;
    while (buckets < shape->capacity) buckets *= 2;
    core *c = calloc(1, sizeof *c);
    if (c == NULL) return JC_CODE_NO_MEMORY;
    c->buckets = calloc(buckets, sizeof *c->buckets);
    if (c->buckets == NULL) {
        free(c);
        return JC_CODE_NO_MEMORY;
    }
    c->shape = *shape;
    c->mask = buckets - 1;
    h->at = c;
    h->is_open = true;
    return JC_OK;
}

uint32_t jc_close(jc_desk *h) {
    core *c = h->at;
    for (entry *e = c->newest; e != NULL;) {
        entry *older = e->older;
        free(e);
        e = older;
    }
    free(c->buckets);
    free(c);
    h->is_open = false;
    return JC_OK;
}

uint32_t jc_hit(jc_desk *h, uint32_t session, const uint8_t *key, size_t key_len, jc_value *value) {
    (void)session;
    core *c = h->at;
    entry *e = *link_to(c, number_in(key, key_len));
    if (e == NULL) return JC_CODE_NONE;
    use(c, e);
    give(value, e->value);
    return JC_OK;
}

/* Reserves a key, and says whom to ask. */
static uint32_t reserve(core *c, uint32_t op, uint64_t key, uint64_t value, jc_out *out) {
    for (size_t i = 0; i < JC_RESERVATIONS_MAX; i++) {
        ticket *t = &c->tickets[i];
        if (t->is_out) continue;
        *t = (ticket){.is_out = true, .op = op, .number = ++c->last_ticket, .key = key, .value = value};
        out->number = t->number;
        give(&out->value, value);
        return answer(out, op == JC_OP_GET ? JC_ASK_LOAD : JC_ASK_WRITE, 0);
    }
    return answer(out, JC_NEXT_REFUSED, JC_REFUSAL_TOO_MANY_IN_FLIGHT);
}

uint32_t jc_begin(jc_desk *h, uint32_t session, uint32_t op, const uint8_t *key_bytes, size_t key_len, const uint8_t *value_bytes,
                  size_t value_len, const uint8_t *other, size_t other_len, jc_out *out) {
    (void)session, (void)other, (void)other_len;
    core *c = h->at;
    uint64_t key = number_in(key_bytes, key_len), value = number_in(value_bytes, value_len);
    if (op != JC_OP_GET && op != JC_OP_PUT) return JC_CODE_BAD_ARGUMENT;
    out->call = ++c->last_call;
    if (ticket_of_key(c, key) != NULL) return answer(out, JC_NEXT_REFUSED, JC_REFUSAL_BUSY);
    if (op == JC_OP_PUT) {
        if (c->shape.write_through) return reserve(c, op, key, value, out);
        answer(out, JC_NEXT_DONE, JC_REPLY_UNIT);
        set(c, key, value, out);
        return JC_OK;
    }
    entry *e = *link_to(c, key);
    if (e == NULL) return c->shape.read_through ? reserve(c, op, key, 0, out) : answer(out, JC_NEXT_DONE, JC_REPLY_NULL);
    use(c, e);
    give(&out->value, e->value);
    return answer(out, JC_NEXT_DONE, JC_REPLY_VALUE);
}

static ticket *ticket_of(core *c, uint64_t number) {
    for (size_t i = 0; i < JC_RESERVATIONS_MAX; i++) {
        if (c->tickets[i].is_out && c->tickets[i].number == number) return &c->tickets[i];
    }
    return NULL;
}

uint32_t jc_commit_load(jc_desk *h, uint64_t number, uint32_t found, uint32_t code, const uint8_t *value, size_t value_len, jc_out *out) {
    (void)code;
    core *c = h->at;
    ticket *t = ticket_of(c, number);
    if (t == NULL) return JC_CODE_MISUSE;
    t->is_out = false;
    if (found != JC_ANSWER_FOUND) return answer(out, JC_NEXT_DONE, found == JC_ANSWER_FAILED ? JC_REPLY_LOADER_FAILED : JC_REPLY_NULL);
    answer(out, JC_NEXT_DONE, JC_REPLY_VALUE);
    give(&out->value, number_in(value, value_len));
    set(c, t->key, number_in(value, value_len), out);
    return JC_OK;
}

uint32_t jc_commit_write(jc_desk *h, uint64_t number, uint32_t written, uint32_t code, jc_out *out) {
    (void)code;
    core *c = h->at;
    ticket *t = ticket_of(c, number);
    if (t == NULL) return JC_CODE_MISUSE;
    t->is_out = false;
    answer(out, JC_NEXT_DONE, written == JC_ANSWER_FAILED ? JC_REPLY_WRITER_FAILED : JC_REPLY_UNIT);
    if (written != JC_ANSWER_FAILED) set(c, t->key, t->value, out);
    return JC_OK;
}

/* What a provider's other calls need is not here. */

uint32_t jc_commit_process(jc_desk *h, uint64_t number, const jc_processed *processed, jc_out *out) {
    (void)h, (void)number, (void)processed, (void)out;
    return JC_CODE_BAD_ARGUMENT;
}

uint32_t jc_withdraw(jc_desk *h, uint64_t number, jc_out *out) {
    (void)h, (void)number, (void)out;
    return JC_CODE_BAD_ARGUMENT;
}

uint32_t jc_pick_up(jc_desk *h, uint32_t session, uint64_t call, const uint8_t *key, size_t key_len, uint64_t load, jc_out *out) {
    (void)h, (void)session, (void)call, (void)key, (void)key_len, (void)load, (void)out;
    return JC_CODE_BAD_ARGUMENT;
}

uint32_t jc_peek(jc_desk *h, const uint8_t *key, size_t key_len, jc_value *value) {
    (void)h, (void)key, (void)key_len, (void)value;
    return JC_CODE_NONE;
}

uint32_t jc_statistics_of(jc_desk *h, jc_statistics *out) {
    (void)h;
    memset(out, 0, sizeof *out);
    return JC_OK;
}

size_t jc_events_len(jc_desk *h) {
    (void)h;
    return 0;
}

uint32_t jc_event(jc_desk *h, size_t place, jc_flat_event *out) {
    (void)h, (void)place, (void)out;
    return JC_CODE_NONE;
}

uint32_t jc_end_generation(jc_desk *h) {
    (void)h;
    return JC_CODE_IN_USE;
}
