/* Each phase once, each code of misuse, and each kind of bad input. */
#include "check.h"
#include "layout.h"

static const jc_shape SHAPE = {.stripes = 1, .capacity = 2, .history = 16, .read_through = true, .write_through = true, .out_size = sizeof(jc_out)};
static const jc_entry NO_ENTRIES[1];
static uint8_t long_bytes[JC_VALUE_MAX + 1];

static jc_desk opened(const jc_shape *shape) {
    jc_desk desk = {0};
    CHECK(jc_open(&desk, shape, 0, NO_ENTRIES, 0) == JC_OK);
    return desk;
}

/* A put, written at once. */
static void put(jc_desk *desk, const char *key, const char *value, jc_out *out) {
    CHECK(begin(desk, 1, JC_OP_PUT, key, value, out) == JC_OK);
    CHECK(out->next == JC_ASK_WRITE && is_value(&out->value, value));
    CHECK(jc_commit_write(desk, out->number, JC_ANSWER_WRITTEN, 0, out) == JC_OK && out->next == JC_NEXT_DONE);
}

static void loads_and_joins(void) {
    jc_desk desk = opened(&SHAPE);
    jc_out first = {0}, second = {0}, picked = {0};
    CHECK(begin(&desk, 1, JC_OP_GET, "a", "", &first) == JC_OK && first.next == JC_ASK_LOAD);
    CHECK(begin(&desk, 2, JC_OP_GET, "a", "", &second) == JC_OK && second.next == JC_NEXT_JOINED);
    CHECK(second.number == first.number);
    CHECK(begin(&desk, 3, JC_OP_PUT, "a", "v", &picked) == JC_OK && picked.next == JC_NEXT_REFUSED && picked.reply == JC_REFUSAL_BUSY);
    CHECK(jc_pick_up(&desk, 2, second.call, BYTES("a"), second.number, &picked) == JC_OK && picked.next == JC_NEXT_NOT_YET);
    CHECK(jc_commit_load(&desk, first.number, JC_ANSWER_FOUND, 0, BYTES("v"), &first) == JC_OK);
    CHECK(first.next == JC_NEXT_DONE && first.reply == JC_REPLY_VALUE && is_value(&first.value, "v"));
    CHECK(first.shared == 1 && first.moves == JC_MOVE_STORED && first.place == 0);
    CHECK(jc_pick_up(&desk, 2, second.call, BYTES("a"), second.number, &picked) == JC_OK);
    CHECK(picked.next == JC_NEXT_DONE && picked.reply == JC_REPLY_VALUE && is_value(&picked.value, "v") && picked.place == 1);
    CHECK(begin(&desk, 1, JC_OP_GET, "b", "", &first) == JC_OK);
    CHECK(begin(&desk, 2, JC_OP_GET, "b", "", &second) == JC_OK);
    CHECK(jc_withdraw(&desk, first.number, &picked) == JC_OK && picked.next == JC_NEXT_DONE && picked.moves == 0);
    CHECK(jc_pick_up(&desk, 2, second.call, BYTES("b"), second.number, &picked) == JC_OK && picked.next == JC_NEXT_AGAIN);
    CHECK(begin(&desk, 1, JC_OP_GET, "b", "", &first) == JC_OK);
    CHECK(jc_commit_load(&desk, first.number, JC_ANSWER_FAILED, 7, NONE, &first) == JC_OK);
    CHECK(first.reply == JC_REPLY_LOADER_FAILED && first.code == 7 && first.moves == 0);
    CHECK(jc_close(&desk) == JC_OK);
}

static void writes_and_evictions(void) {
    jc_desk desk = opened(&SHAPE);
    jc_out out = {0};
    jc_value value;
    put(&desk, "a", "1", &out);
    CHECK(out.reply == JC_REPLY_UNIT && out.moves == JC_MOVE_STORED);
    put(&desk, "a", "2", &out);
    CHECK(out.moves == (JC_MOVE_STORED | JC_MOVE_REMOVED) && is_value(&out.left, "1"));
    put(&desk, "b", "3", &out);
    CHECK(jc_hit(&desk, 1, BYTES("a"), &value) == JC_OK && is_value(&value, "2"));
    put(&desk, "c", "4", &out);
    CHECK(out.moves == (JC_MOVE_STORED | JC_MOVE_EVICTED) && is_key(&out.victim, "b") && is_value(&out.evicted, "3"));
    CHECK(jc_hit(&desk, 1, BYTES("b"), &value) == JC_CODE_NONE);
    CHECK(jc_peek(&desk, BYTES("b"), &value) == JC_CODE_NONE);
    CHECK(begin(&desk, 1, JC_OP_REMOVE, "c", "", &out) == JC_OK && out.next == JC_ASK_DELETE);
    CHECK(jc_commit_write(&desk, out.number, JC_ANSWER_FAILED, 5, &out) == JC_OK);
    CHECK(out.reply == JC_REPLY_WRITER_FAILED && out.code == 5 && out.moves == 0);
    CHECK(begin(&desk, 1, JC_OP_REMOVE, "c", "", &out) == JC_OK);
    CHECK(jc_commit_write(&desk, out.number, JC_ANSWER_WRITTEN, 0, &out) == JC_OK && out.reply == JC_REPLY_YES);
    CHECK(out.moves == JC_MOVE_REMOVED && is_value(&out.left, "4"));
    CHECK(jc_begin(&desk, 1, JC_OP_REPLACE_IF, BYTES("a"), BYTES("9"), BYTES("5"), &out) == JC_OK && out.reply == JC_REPLY_NO);
    CHECK(jc_begin(&desk, 1, JC_OP_REPLACE_IF, BYTES("a"), BYTES("2"), BYTES("5"), &out) == JC_OK);
    CHECK(out.next == JC_ASK_WRITE && is_value(&out.value, "5"));
    CHECK(jc_withdraw(&desk, out.number, &out) == JC_OK);
    jc_statistics counts;
    CHECK(jc_statistics_of(&desk, &counts) == JC_OK && counts.puts == 4 && counts.removals == 1 && counts.evictions == 1);
    CHECK(jc_close(&desk) == JC_OK);
}

static void invalidations(void) {
    jc_desk desk = opened(&SHAPE);
    jc_out out = {0}, joined = {0}, told = {0};
    jc_value value;
    jc_statistics counts;
    put(&desk, "a", "1", &out);
    CHECK(jc_invalidate(&desk, BYTES("a"), &out) == JC_OK && out.next == JC_NEXT_DONE);
    CHECK(out.moves == (JC_MOVE_REMOVED | JC_MOVE_INVALIDATED) && is_value(&out.left, "1"));
    CHECK(jc_invalidate(&desk, BYTES("a"), &out) == JC_OK && out.next == JC_NEXT_DONE && out.moves == 0);
    CHECK(jc_peek(&desk, BYTES("a"), &value) == JC_CODE_NONE);
    /* A key that is being loaded: who begins then waits, who had joined is answered, and the loaded value isn't kept. */
    CHECK(begin(&desk, 1, JC_OP_GET, "a", "", &out) == JC_OK && out.next == JC_ASK_LOAD);
    CHECK(begin(&desk, 2, JC_OP_GET, "a", "", &joined) == JC_OK && joined.next == JC_NEXT_JOINED);
    CHECK(jc_invalidate(&desk, BYTES("a"), &told) == JC_OK && told.next == JC_NEXT_DONE && told.moves == 0);
    for (uint32_t op = JC_OP_GET; op <= JC_OP_INVOKE; op++) {
        CHECK(begin(&desk, 3, op, "a", "9", &told) == JC_OK && told.next == JC_NEXT_REFUSED && told.reply == JC_REFUSAL_BUSY);
    }
    CHECK(jc_commit_load(&desk, out.number, JC_ANSWER_FOUND, 0, BYTES("2"), &out) == JC_OK && is_value(&out.value, "2"));
    CHECK(out.moves == JC_MOVE_INVALIDATED && out.shared == 1);
    CHECK(jc_pick_up(&desk, 2, joined.call, BYTES("a"), joined.number, &told) == JC_OK && is_value(&told.value, "2"));
    CHECK(jc_peek(&desk, BYTES("a"), &value) == JC_CODE_NONE);
    /* One that is being written, by a call that fails, and by one that is given back. */
    put(&desk, "b", "3", &out);
    for (int given_back = 0; given_back <= 1; given_back++) {
        CHECK(begin(&desk, 1, JC_OP_PUT, "b", "4", &out) == JC_OK && out.next == JC_ASK_WRITE);
        CHECK(jc_invalidate(&desk, BYTES("b"), &told) == JC_OK && told.moves == 0);
        CHECK(jc_hit(&desk, 2, BYTES("b"), &value) == JC_CODE_NONE && jc_peek(&desk, BYTES("b"), &value) == JC_OK);
        if (given_back) {
            CHECK(jc_withdraw(&desk, out.number, &out) == JC_OK && out.next == JC_NEXT_DONE);
        } else {
            CHECK(jc_commit_write(&desk, out.number, JC_ANSWER_FAILED, 0, &out) == JC_OK && out.reply == JC_REPLY_WRITER_FAILED);
        }
        CHECK(out.moves == (JC_MOVE_REMOVED | JC_MOVE_INVALIDATED) && is_value(&out.left, "3"));
        put(&desk, "b", "3", &out);
        CHECK(out.moves == JC_MOVE_STORED);
    }
    CHECK(jc_statistics_of(&desk, &counts) == JC_OK && counts.evictions == 0 && counts.removals == 0);
    CHECK(jc_close(&desk) == JC_OK);
}

static void sweeps(void) {
    jc_shape shape = SHAPE;
    shape.capacity = 3;
    jc_desk desk = opened(&shape);
    jc_out out = {0}, told = {0};
    jc_value value;
    put(&desk, "a", "1", &out);
    put(&desk, "b", "2", &out);
    put(&desk, "c", "3", &out);
    CHECK(jc_sweep(&desk, &told) == JC_OK && told.next == JC_NEXT_DONE && told.moves == 0);
    CHECK(begin(&desk, 1, JC_OP_PUT, "a", "4", &out) == JC_OK && out.next == JC_ASK_WRITE);
    CHECK(jc_invalidate_all(&desk) == JC_OK);
    CHECK(begin(&desk, 2, JC_OP_GET, "b", "", &told) == JC_OK && told.next == JC_NEXT_SHUT && told.moves == 0);
    CHECK(jc_hit(&desk, 2, BYTES("b"), &value) == JC_CODE_NONE);
    CHECK(jc_sweep(&desk, &told) == JC_OK && told.next == JC_NEXT_SHUT);
    CHECK(told.moves == JC_MOVE_EVICTED && is_key(&told.victim, "b") && is_value(&told.evicted, "2"));
    CHECK(jc_sweep(&desk, &told) == JC_OK && told.next == JC_NEXT_SHUT && is_key(&told.victim, "c") && is_value(&told.evicted, "3"));
    CHECK(jc_sweep(&desk, &told) == JC_OK && told.next == JC_NEXT_DONE && told.moves == 0);
    CHECK(begin(&desk, 2, JC_OP_GET, "a", "", &told) == JC_OK && told.next == JC_NEXT_REFUSED && told.reply == JC_REFUSAL_BUSY);
    CHECK(jc_commit_write(&desk, out.number, JC_ANSWER_WRITTEN, 0, &out) == JC_OK && out.reply == JC_REPLY_UNIT);
    CHECK(out.moves == (JC_MOVE_REMOVED | JC_MOVE_INVALIDATED) && is_value(&out.left, "1"));
    CHECK(begin(&desk, 2, JC_OP_GET, "a", "", &out) == JC_OK && out.next == JC_ASK_LOAD);
    CHECK(jc_commit_load(&desk, out.number, JC_ANSWER_NOTHING, 0, NONE, &out) == JC_OK);
    CHECK(jc_close(&desk) == JC_OK);
}

/* Fills the generation of a desk with one entry, which a session loads and others have joined: it can't end before they have picked up. */
static void fill(jc_desk *desk, jc_out *joined, uint32_t joiners) {
    jc_out out = {0};
    CHECK(begin(desk, 1, JC_OP_GET, "a", "", &out) == JC_OK && out.next == JC_ASK_LOAD);
    for (uint32_t at = 0; at < joiners; at++) {
        CHECK(begin(desk, 2 + at, JC_OP_GET, "a", "", &joined[at]) == JC_OK && joined[at].next == JC_NEXT_JOINED);
    }
    CHECK(jc_commit_load(desk, out.number, JC_ANSWER_FOUND, 0, BYTES("1"), &out) == JC_OK && out.shared == joiners);
}

static void no_place(void) {
    enum { JOINERS = 13 };
    jc_desk desk = opened(&SHAPE);
    jc_out out = {0}, joined[JOINERS];
    jc_value value;
    fill(&desk, joined, JOINERS);
    while (jc_hit(&desk, 1, BYTES("a"), &value) == JC_OK) {
        CHECK(jc_events_len(&desk) <= SHAPE.history);
    }
    CHECK(jc_events_len(&desk) == SHAPE.history);
    CHECK(jc_invalidate(&desk, BYTES("b"), &out) == JC_OK && out.next == JC_NEXT_DONE && out.moves == 0);
    CHECK(jc_invalidate(&desk, BYTES("a"), &out) == JC_OK && out.next == JC_NEXT_SHUT && out.moves == 0);
    CHECK(jc_sweep(&desk, &out) == JC_OK && out.next == JC_NEXT_NOT_YET && out.moves == 0);
    for (uint32_t at = 0; at < JOINERS; at++) {
        CHECK(jc_pick_up(&desk, 2 + at, joined[at].call, BYTES("a"), joined[at].number, &out) == JC_OK && is_value(&out.value, "1"));
    }
    CHECK(begin(&desk, 1, JC_OP_GET, "a", "", &out) == JC_OK && out.next == JC_NEXT_SHUT);
    CHECK(jc_sweep(&desk, &out) == JC_OK && out.next == JC_NEXT_SHUT && out.moves == JC_MOVE_EVICTED && is_key(&out.victim, "a"));
    CHECK(jc_events_len(&desk) == 1);
    CHECK(jc_sweep(&desk, &out) == JC_OK && out.next == JC_NEXT_DONE && out.moves == 0);
    CHECK(jc_close(&desk) == JC_OK);
}

/* The same of a desk whose events are kept: they are to be taken first. */
static void no_place_before_the_events_are_taken(void) {
    jc_shape shape = SHAPE;
    shape.keeps_events = true;
    shape.capacity = 3;
    const jc_entry opening[] = {{.key = {1, "a"}, .value = {1, "1"}}, {.key = {1, "b"}, .value = {1, "2"}}, {.key = {1, "c"}, .value = {1, "3"}}};
    jc_desk desk = {0};
    jc_out out = {0};
    jc_value value;
    CHECK(jc_open(&desk, &shape, 0, opening, 3) == JC_OK);
    while (jc_hit(&desk, 1, BYTES("c"), &value) == JC_OK) {
        CHECK(jc_events_len(&desk) < shape.history);
    }
    CHECK(jc_events_len(&desk) == shape.history - 2);
    CHECK(jc_invalidate(&desk, BYTES("a"), &out) == JC_OK && out.next == JC_NEXT_DONE && is_value(&out.left, "1"));
    CHECK(jc_invalidate(&desk, BYTES("b"), &out) == JC_OK && out.next == JC_NEXT_DONE && is_value(&out.left, "2"));
    CHECK(jc_invalidate(&desk, BYTES("c"), &out) == JC_OK && out.next == JC_NEXT_SHUT && out.moves == 0);
    CHECK(jc_sweep(&desk, &out) == JC_OK && out.next == JC_NEXT_FULL && out.moves == 0);
    CHECK(begin(&desk, 1, JC_OP_GET, "c", "", &out) == JC_OK && out.next == JC_NEXT_FULL);
    CHECK(jc_end_generation(&desk) == JC_OK);
    CHECK(begin(&desk, 1, JC_OP_GET, "c", "", &out) == JC_OK && out.next == JC_NEXT_SHUT);
    CHECK(jc_sweep(&desk, &out) == JC_OK && out.next == JC_NEXT_SHUT && is_key(&out.victim, "c") && is_value(&out.evicted, "3"));
    CHECK(jc_sweep(&desk, &out) == JC_OK && out.next == JC_NEXT_DONE);
    static jc_flat_event told;
    CHECK(jc_event(&desk, 0, &told) == JC_OK && told.kind == JC_EVENT_EVICTION && told.cause == JC_CAUSE_INVALIDATED && is_key(&told.key, "c"));
    bool is_legal = false;
    const jc_entry *left = &opening[2];
    CHECK(jc_legal(&shape, left, 1, &told, 1, &is_legal) == JC_OK && is_legal);
    CHECK(jc_legal(&shape, left, 0, &told, 1, &is_legal) == JC_OK && !is_legal);
    told.cause = JC_CAUSE_INVALIDATED + 1;
    CHECK(jc_legal(&shape, left, 1, &told, 1, &is_legal) == JC_CODE_BAD_ARGUMENT);
    CHECK(jc_close(&desk) == JC_OK);
}

static void processors(void) {
    jc_desk desk = opened(&SHAPE);
    jc_out out = {0};
    jc_processed done = {.effect = JC_EFFECT_SET, .set = {.len = 1, .bytes = "x"}};
    CHECK(begin(&desk, 1, JC_OP_INVOKE, "a", "", &out) == JC_OK);
    CHECK(out.next == JC_ASK_PROCESS && out.reply == JC_REPLY_NULL && out.code == 1);
    uint64_t ticket = out.number;
    CHECK(jc_commit_process(&desk, ticket, &done, &out) == JC_CODE_MISUSE);
    done.write = JC_ANSWER_WRITTEN;
    done.load = JC_ANSWER_FAILED;
    CHECK(jc_commit_process(&desk, ticket, &done, &out) == JC_CODE_MISUSE);
    done.load = JC_ANSWER_NOTHING;
    done.has_outcome = true;
    done.outcome = (jc_value){.len = 2, .bytes = "ok"};
    CHECK(jc_commit_process(&desk, ticket, &done, &out) == JC_OK);
    CHECK(out.reply == JC_REPLY_VALUE && is_value(&out.value, "ok") && out.moves == JC_MOVE_STORED);
    CHECK(begin(&desk, 1, JC_OP_INVOKE, "a", "", &out) == JC_OK && out.reply == JC_REPLY_VALUE && is_value(&out.value, "x") && out.code == 0);
    done = (jc_processed){.load = JC_ANSWER_NOTHING};
    CHECK(jc_commit_process(&desk, out.number, &done, &out) == JC_CODE_MISUSE);
    done = (jc_processed){.effect = JC_EFFECT_FAILED, .code = 3};
    CHECK(jc_commit_process(&desk, out.number, &done, &out) == JC_OK && out.reply == JC_REPLY_PROCESSOR_FAILED && out.code == 3);
    CHECK(jc_close(&desk) == JC_OK);
}

static void generations(void) {
    jc_shape shape = SHAPE;
    shape.keeps_events = true;
    jc_desk desk = opened(&shape);
    jc_out out = {0};
    CHECK(jc_end_generation(&desk) == JC_CODE_IN_USE);
    size_t events = 0;
    while (begin(&desk, 1, JC_OP_CONTAINS_KEY, "a", "", &out) == JC_OK && out.next == JC_NEXT_DONE) {
        CHECK(jc_events_len(&desk) == ++events);
    }
    CHECK(out.next == JC_NEXT_FULL && events > 0 && events <= shape.history);
    CHECK(jc_end_generation(&desk) == JC_OK && jc_events_len(&desk) == 0);
    CHECK(begin(&desk, 1, JC_OP_GET, "a", "", &out) == JC_OK && out.next == JC_ASK_LOAD);
    uint64_t ticket = out.number;
    CHECK(begin(&desk, 2, JC_OP_GET, "a", "", &out) == JC_OK && out.next == JC_NEXT_JOINED);
    jc_out done = {0};
    CHECK(jc_commit_load(&desk, ticket, JC_ANSWER_NOTHING, 0, NONE, &done) == JC_OK);
    CHECK(jc_end_generation(&desk) == JC_CODE_IN_USE);
    CHECK(jc_pick_up(&desk, 2, out.call, BYTES("a"), out.number, &done) == JC_OK);
    CHECK(jc_end_generation(&desk) == JC_OK);
    CHECK(jc_close(&desk) == JC_OK);
}

/* What a desk has: after a refused call it is the same. */
typedef struct picture {
    jc_statistics counts;
    jc_entry entries[4];
    size_t count, events;
} picture;

static picture look(jc_desk *desk) {
    picture seen;
    memset(&seen, 0, sizeof seen);
    CHECK(jc_statistics_of(desk, &seen.counts) == JC_OK);
    CHECK(jc_entries(desk, seen.entries, 4, &seen.count) == JC_OK);
    seen.events = jc_events_len(desk);
    return seen;
}

#define REFUSED(code, call)                                    \
    do {                                                       \
        picture before = look(&desk);                          \
        CHECK((call) == (code));                               \
        picture after = look(&desk);                           \
        CHECK(memcmp(&before, &after, sizeof before) == 0);    \
    } while (0)

/* The same of a bad argument, which leaves all that it is given to write as it was. */
#define BAD(call)                                              \
    do {                                                       \
        memset(&out, 0xa5, sizeof out);                        \
        memset(&value, 0xa5, sizeof value);                    \
        const jc_out out_before = out;                         \
        const jc_value value_before = value;                   \
        REFUSED(JC_CODE_BAD_ARGUMENT, call);                        \
        CHECK(memcmp(&out, &out_before, sizeof out) == 0);     \
        CHECK(memcmp(&value, &value_before, sizeof value) == 0); \
    } while (0)

static void bad_arguments(void) {
    jc_desk desk = opened(&SHAPE);
    jc_out out = {0};
    jc_value value;
    put(&desk, "a", "1", &out);
    for (size_t len = 0; len <= JC_KEY_MAX + 1; len += JC_KEY_MAX + 1) {
        BAD(jc_begin(&desk, 1, JC_OP_GET, long_bytes, len, NONE, NONE, &out));
        BAD(jc_hit(&desk, 1, long_bytes, len, &value));
        BAD(jc_peek(&desk, long_bytes, len, &value));
        BAD(jc_pick_up(&desk, 1, 0, long_bytes, len, 0, &out));
        BAD(jc_invalidate(&desk, long_bytes, len, &out));
    }
    BAD(jc_begin(&desk, 1, JC_OP_PUT, BYTES("a"), long_bytes, JC_VALUE_MAX + 1, NONE, &out));
    BAD(jc_begin(&desk, 1, JC_OP_REPLACE_IF, BYTES("a"), NONE, long_bytes, JC_VALUE_MAX + 1, &out));
    BAD(jc_begin(&desk, 1, JC_OP_INVOKE + 1, BYTES("a"), NONE, NONE, &out));
    BAD(jc_begin(&desk, 1, UINT32_MAX, BYTES("a"), NONE, NONE, &out));
    CHECK(begin(&desk, 1, JC_OP_GET, "b", "", &out) == JC_OK);
    uint64_t ticket = out.number;
    BAD(jc_commit_load(&desk, ticket, JC_ANSWER_NOT_ASKED, 0, NONE, &out));
    BAD(jc_commit_load(&desk, ticket, JC_ANSWER_FAILED + 1, 0, NONE, &out));
    BAD(jc_commit_load(&desk, ticket, JC_ANSWER_FOUND, 0, long_bytes, JC_VALUE_MAX + 1, &out));
    CHECK(jc_commit_load(&desk, ticket, JC_ANSWER_FOUND, 0, long_bytes, JC_VALUE_MAX, &out) == JC_OK);
    CHECK(begin(&desk, 1, JC_OP_REMOVE, "b", "", &out) == JC_OK);
    ticket = out.number;
    BAD(jc_commit_write(&desk, ticket, JC_ANSWER_NOT_ASKED, 0, &out));
    BAD(jc_commit_write(&desk, ticket, JC_ANSWER_NOTHING, 0, &out));
    CHECK(jc_withdraw(&desk, ticket, &out) == JC_OK);
    CHECK(jc_close(&desk) == JC_OK);
}

static void bad_processors(void) {
    jc_desk desk = opened(&SHAPE);
    jc_out out = {0};
    jc_value value;
    CHECK(begin(&desk, 1, JC_OP_INVOKE, "a", "", &out) == JC_OK);
    uint64_t ticket = out.number;
    const jc_value too_long = {.len = JC_VALUE_MAX + 1}, endless = {.len = UINT32_MAX};
    const jc_processed wrong[] = {
        {.load = JC_ANSWER_FAILED + 1}, {.effect = JC_EFFECT_FAILED + 1}, {.write = JC_ANSWER_NOTHING}, {.write = JC_ANSWER_FAILED + 1},
        {.load = JC_ANSWER_FOUND, .loaded = too_long}, {.effect = JC_EFFECT_SET, .write = JC_ANSWER_WRITTEN, .set = too_long},
        {.effect = JC_EFFECT_SET, .write = JC_ANSWER_WRITTEN, .set = endless}, {.has_outcome = true, .outcome = too_long},
    };
    for (size_t i = 0; i < sizeof wrong / sizeof *wrong; i++) {
        BAD(jc_commit_process(&desk, ticket, &wrong[i], &out));
    }
    CHECK(jc_withdraw(&desk, ticket, &out) == JC_OK);
    CHECK(jc_close(&desk) == JC_OK);
}

static void bad_openings(void) {
    jc_desk desk = {0};
    const jc_shape shapes[] = {
        {.capacity = 1, .history = 16}, {.stripes = JC_STRIPES_MAX + 1, .capacity = 1, .history = 16},
        {.stripes = 1, .history = 16}, {.stripes = 1, .capacity = JC_CAPACITY_MAX + 1, .history = 16},
        {.stripes = 1, .capacity = 1, .history = JC_HISTORY_MIN - 1}, {.stripes = 1, .capacity = 1, .history = JC_HISTORY_MAX + 1},
        {.stripes = SIZE_MAX, .capacity = SIZE_MAX, .history = SIZE_MAX},
    };
    for (size_t i = 0; i < sizeof shapes / sizeof *shapes; i++) {
        jc_shape shape = shapes[i];
        shape.out_size = sizeof(jc_out);
        CHECK(jc_open(&desk, &shape, 0, NO_ENTRIES, 0) == JC_CODE_BAD_ARGUMENT && !desk.is_open);
    }
    const uint32_t sizes[] = {0, sizeof(jc_out) - 1, sizeof(jc_out) + 1, UINT32_MAX};
    for (size_t i = 0; i < sizeof sizes / sizeof *sizes; i++) {
        jc_shape shape = SHAPE;
        shape.out_size = sizes[i];
        CHECK(jc_open(&desk, &shape, 0, NO_ENTRIES, 0) == JC_CODE_BAD_ARGUMENT && !desk.is_open);
    }
    CHECK(jc_open(&desk, &SHAPE, 1, NO_ENTRIES, 0) == JC_CODE_BAD_ARGUMENT);
    const jc_entry a = {.key = {1, "a"}, .value = {1, "1"}}, b = {.key = {1, "b"}, .value = {1, "2"}}, c = {.key = {1, "c"}};
    const jc_entry repeated[] = {a, a}, many[] = {a, b, c}, no_key[] = {{.value = {1, "1"}}};
    const jc_entry long_key[] = {{.key = {JC_KEY_MAX + 1, ""}}}, long_value[] = {{.key = {1, "a"}, .value = {JC_VALUE_MAX + 1, ""}}};
    CHECK(jc_open(&desk, &SHAPE, 0, repeated, 2) == JC_CODE_BAD_ARGUMENT);
    CHECK(jc_open(&desk, &SHAPE, 0, many, 3) == JC_CODE_BAD_ARGUMENT);
    CHECK(jc_open(&desk, &SHAPE, 0, no_key, 1) == JC_CODE_BAD_ARGUMENT);
    CHECK(jc_open(&desk, &SHAPE, 0, long_key, 1) == JC_CODE_BAD_ARGUMENT);
    CHECK(jc_open(&desk, &SHAPE, 0, long_value, 1) == JC_CODE_BAD_ARGUMENT);
    const jc_shape two = {.stripes = 2, .capacity = 2, .history = 16, .out_size = sizeof(jc_out)};
    CHECK(jc_open(&desk, &two, 0, &a, 1) == JC_CODE_BAD_ARGUMENT);
    CHECK(jc_open(&desk, &two, 1, &a, 1) == JC_OK);
    jc_out out = {0};
    CHECK(begin(&desk, 1, JC_OP_CONTAINS_KEY, "a", "", &out) == JC_OK && out.reply == JC_REPLY_YES);
    CHECK(begin(&desk, 1, JC_OP_CONTAINS_KEY, "b", "", &out) == JC_CODE_MISUSE);
    CHECK(jc_invalidate(&desk, BYTES("b"), &out) == JC_CODE_MISUSE);
    CHECK(jc_close(&desk) == JC_OK);
    CHECK(jc_open(&desk, &SHAPE, 0, many, 2) == JC_OK);
    jc_entry listed[2];
    size_t count = 0;
    CHECK(jc_entries(&desk, listed, 1, &count) == JC_OK && count == 2 && is_key(&listed[0].key, "a"));
    CHECK(jc_entries(&desk, listed, 2, &count) == JC_OK && is_key(&listed[1].key, "b") && is_value(&listed[1].value, "2"));
    CHECK(jc_close(&desk) == JC_OK);
}

static void misused_tickets(void) {
    jc_desk desk = opened(&SHAPE), other = opened(&SHAPE);
    jc_out out = {0}, joined = {0};
    const jc_processed keep = {0};
    CHECK(begin(&desk, 1, JC_OP_GET, "a", "", &out) == JC_OK);
    uint64_t ticket = out.number;
    REFUSED(JC_CODE_MISUSE, begin(&desk, 1, JC_OP_GET, "b", "", &out));
    REFUSED(JC_CODE_MISUSE, jc_commit_load(&desk, ticket + 1, JC_ANSWER_NOTHING, 0, NONE, &out));
    REFUSED(JC_CODE_MISUSE, jc_commit_write(&desk, ticket, JC_ANSWER_WRITTEN, 0, &out));
    REFUSED(JC_CODE_MISUSE, jc_commit_process(&desk, ticket, &keep, &out));
    REFUSED(JC_CODE_MISUSE, jc_withdraw(&desk, UINT64_MAX, &out));
    CHECK(jc_commit_load(&other, ticket, JC_ANSWER_NOTHING, 0, NONE, &out) == JC_CODE_MISUSE);
    CHECK(jc_withdraw(&other, ticket, &out) == JC_CODE_MISUSE);
    CHECK(begin(&desk, 2, JC_OP_GET, "a", "", &joined) == JC_OK && joined.next == JC_NEXT_JOINED);
    REFUSED(JC_CODE_MISUSE, jc_pick_up(&desk, 3, joined.call, BYTES("a"), joined.number, &out));
    REFUSED(JC_CODE_MISUSE, jc_pick_up(&desk, 2, joined.call + 1, BYTES("a"), joined.number, &out));
    REFUSED(JC_CODE_MISUSE, jc_pick_up(&desk, 2, joined.call, BYTES("b"), joined.number, &out));
    REFUSED(JC_CODE_MISUSE, jc_pick_up(&desk, 2, joined.call, BYTES("a"), joined.number + 1, &out));
    CHECK(jc_close(&desk) == JC_CODE_IN_USE && desk.is_open);
    CHECK(jc_commit_load(&desk, ticket, JC_ANSWER_NOTHING, 0, NONE, &out) == JC_OK);
    REFUSED(JC_CODE_MISUSE, jc_commit_load(&desk, ticket, JC_ANSWER_NOTHING, 0, NONE, &out));
    REFUSED(JC_CODE_MISUSE, jc_withdraw(&desk, ticket, &out));
    CHECK(jc_close(&desk) == JC_CODE_IN_USE);
    CHECK(jc_pick_up(&desk, 2, joined.call, BYTES("a"), joined.number, &out) == JC_OK && out.reply == JC_REPLY_NULL);
    REFUSED(JC_CODE_MISUSE, jc_pick_up(&desk, 2, joined.call, BYTES("a"), joined.number, &out));
    CHECK(jc_close(&desk) == JC_OK && jc_close(&other) == JC_OK);
}

static void closed_handles(void) {
    jc_desk desk = opened(&SHAPE);
    CHECK(jc_open(&desk, &SHAPE, 0, NO_ENTRIES, 0) == JC_CODE_WRONG_HANDLE);
    CHECK(jc_close(&desk) == JC_OK);
    for (int never_opened = 0; never_opened <= 1; never_opened++) {
        if (never_opened) {
            memset(&desk, 0, sizeof desk);
        }
        jc_out out = {0};
        jc_value value;
        jc_statistics counts;
        jc_entry entry;
        size_t count;
        const jc_processed keep = {0};
        CHECK(jc_close(&desk) == JC_CODE_WRONG_HANDLE);
        CHECK(begin(&desk, 1, JC_OP_GET, "a", "", &out) == JC_CODE_WRONG_HANDLE);
        CHECK(jc_hit(&desk, 1, BYTES("a"), &value) == JC_CODE_WRONG_HANDLE);
        CHECK(jc_commit_load(&desk, 0, JC_ANSWER_NOTHING, 0, NONE, &out) == JC_CODE_WRONG_HANDLE);
        CHECK(jc_commit_write(&desk, 0, JC_ANSWER_WRITTEN, 0, &out) == JC_CODE_WRONG_HANDLE);
        CHECK(jc_commit_process(&desk, 0, &keep, &out) == JC_CODE_WRONG_HANDLE);
        CHECK(jc_withdraw(&desk, 0, &out) == JC_CODE_WRONG_HANDLE);
        CHECK(jc_invalidate(&desk, BYTES("a"), &out) == JC_CODE_WRONG_HANDLE);
        CHECK(jc_invalidate_all(&desk) == JC_CODE_WRONG_HANDLE);
        CHECK(jc_sweep(&desk, &out) == JC_CODE_WRONG_HANDLE);
        CHECK(jc_pick_up(&desk, 1, 0, BYTES("a"), 0, &out) == JC_CODE_WRONG_HANDLE);
        CHECK(jc_peek(&desk, BYTES("a"), &value) == JC_CODE_WRONG_HANDLE);
        CHECK(jc_statistics_of(&desk, &counts) == JC_CODE_WRONG_HANDLE);
        CHECK(jc_entries(&desk, &entry, 1, &count) == JC_CODE_WRONG_HANDLE);
        CHECK(jc_events_len(&desk) == 0);
        CHECK(jc_end_generation(&desk) == JC_CODE_WRONG_HANDLE);
    }
}

static void limits_of_calls_under_way(void) {
    jc_shape shape = SHAPE;
    shape.history = 1000;
    jc_desk desk = opened(&shape);
    jc_out out = {0};
    char key[8];
    for (uint32_t i = 0; i < JC_RESERVATIONS_MAX; i++) {
        snprintf(key, sizeof key, "k%u", i);
        CHECK(begin(&desk, i, JC_OP_GET, key, "", &out) == JC_OK && out.next == JC_ASK_LOAD);
        CHECK(begin(&desk, 100 + i, JC_OP_GET, key, "", &out) == JC_OK && out.next == JC_NEXT_JOINED);
    }
    CHECK(begin(&desk, 99, JC_OP_GET, "more", "", &out) == JC_OK && out.next == JC_NEXT_REFUSED && out.reply == JC_REFUSAL_TOO_MANY_IN_FLIGHT);
    CHECK(begin(&desk, 99, JC_OP_GET, "k0", "", &out) == JC_OK && out.next == JC_NEXT_REFUSED && out.reply == JC_REFUSAL_TOO_MANY_JOINERS);
    CHECK(begin(&desk, 99, JC_OP_PUT, "k0", "", &out) == JC_OK && out.next == JC_NEXT_REFUSED && out.reply == JC_REFUSAL_BUSY);
    CHECK(jc_close(&desk) == JC_CODE_IN_USE);
    /* A desk that isn't closed is the host's to leak: here all that is out is given back. */
    for (uint64_t ticket = 0; ticket < JC_RESERVATIONS_MAX; ticket++) {
        CHECK(jc_withdraw(&desk, ticket, &out) == JC_OK);
    }
    for (uint32_t i = 0; i < JC_RESERVATIONS_MAX; i++) {
        snprintf(key, sizeof key, "k%u", i);
        CHECK(jc_pick_up(&desk, 100 + i, 2 * i + 1, BYTES(key), i, &out) == JC_OK && out.next == JC_NEXT_AGAIN);
    }
    CHECK(jc_close(&desk) == JC_OK);
}

static void events(void) {
    jc_desk desk = {0};
    jc_shape shape = SHAPE;
    shape.capacity = 1;
    const jc_entry opening[] = {{.key = {1, "a"}, .value = {1, "1"}}}, no_key[] = {{.value = {1, "1"}}};
    CHECK(jc_open(&desk, &shape, 0, opening, 1) == JC_OK);
    jc_out out = {0};
    static jc_flat_event told[4];
    put(&desk, "b", "2", &out);
    CHECK(begin(&desk, 1, JC_OP_GET, "b", "", &out) == JC_OK && jc_events_len(&desk) == 3);
    for (size_t place = 0; place < 3; place++) {
        CHECK(jc_event(&desk, place, &told[place]) == JC_OK);
    }
    CHECK(jc_event(&desk, 3, &told[3]) == JC_CODE_NONE);
    CHECK(told[0].kind == JC_EVENT_EVICTION && told[0].cause == JC_CAUSE_ROOM && is_key(&told[0].key, "a"));
    CHECK(told[1].kind == JC_EVENT_STEP && told[1].op == JC_OP_PUT && is_key(&told[1].key, "b") && is_value(&told[1].value, "2"));
    CHECK(told[1].outside.write == JC_ANSWER_WRITTEN && told[1].outside.effect == JC_EFFECT_NOT_RUN && told[1].reply == JC_REPLY_UNIT);
    CHECK(told[2].op == JC_OP_GET && told[2].reply == JC_REPLY_VALUE && is_value(&told[2].replied, "2") && !told[2].is_shared);
    bool is_legal = false;
    CHECK(jc_legal(&shape, opening, 1, told, 3, &is_legal) == JC_OK && is_legal);
    CHECK(jc_legal(&shape, opening, 0, told, 3, &is_legal) == JC_OK && !is_legal);
    CHECK(jc_legal(&shape, opening, 1, told, 2, &is_legal) == JC_OK && is_legal);
    CHECK(jc_legal(&shape, opening, 1, told + 1, 2, &is_legal) == JC_OK && !is_legal);
    CHECK(jc_legal(&shape, no_key, 1, told, 3, &is_legal) == JC_CODE_BAD_ARGUMENT);
    told[2].replied.bytes[0] = '3';
    CHECK(jc_legal(&shape, opening, 1, told, 3, &is_legal) == JC_OK && !is_legal);
    told[2].replied.len = JC_VALUE_MAX + 1;
    CHECK(jc_legal(&shape, opening, 1, told, 3, &is_legal) == JC_CODE_BAD_ARGUMENT);
    CHECK(jc_close(&desk) == JC_OK && jc_event(&desk, 0, told) == JC_CODE_WRONG_HANDLE);
}

int main(void) {
    CHECK(jc_version() == JC_VERSION);
    loads_and_joins();
    writes_and_evictions();
    invalidations();
    sweeps();
    no_place();
    no_place_before_the_events_are_taken();
    processors();
    generations();
    events();
    bad_arguments();
    bad_processors();
    bad_openings();
    misused_tickets();
    closed_handles();
    limits_of_calls_under_way();
    printf("%u checks\n", checks_made);
    return 0;
}
