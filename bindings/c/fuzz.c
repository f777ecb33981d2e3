/* Bytes as calls of one desk, for libFuzzer. The host's own account of the desk says what each call is to be answered: what is cached, by the
 * moves alone; which tickets and joins are out, and what a joiner is to get. With keeps_events each generation's events are a legal history.
 *
 * Build it with -fsanitize=fuzzer,address,undefined; it has no main. */
#include "check.h"

#define NO_CALL UINT32_MAX
enum { KEYS = 6, SESSIONS = 8, HISTORY_MOST = 64 };

/* The keys, and two that the library refuses: one of 33 bytes, one of none. */
static const char *const NAMES[KEYS + 2] = {"a", "b", "c", "dd", "e", "f2", "a key of 33 bytes, one too many..", ""};

/* What is read of the input. At its end all is 0. */
typedef struct input { const uint8_t *at, *end; } input;

static unsigned byte(input *from) {
    return from->at < from->end ? *from->at++ : 0;
}

/* A value, of a byte: sometimes as long as may be, or one byte longer. Only its first 256 bytes are there then. */
static jc_value value_of(unsigned byte) {
    jc_value value = {.len = byte % 7 == 0 ? JC_VALUE_MAX + (byte / 7) % 2 : byte % 9};
    memset(value.bytes, (int)byte, sizeof value.bytes);
    return value;
}

static bool fits(const jc_value *value) {
    return value->len <= JC_VALUE_MAX;
}

static bool are_equal(const jc_value *left, const jc_value *right) {
    return left->len == right->len && memcmp(left->bytes, right->bytes, left->len) == 0;
}

/* A session's call that is out: NO_CALL, one of those that have a ticket, or JC_NEXT_JOINED. */
typedef struct call {
    uint32_t next;
    unsigned key;
    uint64_t number, call;
    bool may_load;
    jc_value brought;   /* the value that the operation brings */
    uint32_t picked;    /* of a join: what jc_pick_up is to say */
    uint32_t answer, code;   /* of a join whose load was committed: what its loader answered */
    jc_value loaded;
} call;

typedef struct host {
    jc_desk desk;
    jc_shape shape;
    struct { bool is_there; jc_value value; } cached[KEYS];
    call calls[SESSIONS];
    jc_entry opening[KEYS];   /* what was cached when the generation began */
    size_t opened;
    uint64_t evicted;
    bool is_shut, is_marked[KEYS];   /* what was invalidated: all keys, or those that are reserved */
    jc_out out;
} host;

/* What came of calls, counted for libFuzzer: the library itself has no counters. */
__attribute__((section("__libfuzzer_extra_counters"))) static uint8_t reached[4096];

static void reach(unsigned kind, unsigned op, const jc_out *out) {
    reached[(kind * 1009 + op * 83 + out->next * 41 + out->reply * 17 + out->moves) % sizeof reached]++;
}

static const uint8_t *bytes_of(unsigned key) {
    return (const uint8_t *)NAMES[key];
}

static size_t length_of(unsigned key) {
    return strlen(NAMES[key]);
}

static unsigned key_of(const jc_key *key) {
    for (unsigned at = 0; at < KEYS; at++) {
        if (is_key(key, NAMES[at])) {
            return at;
        }
    }
    CHECK(!"a key that nobody named");
    return 0;
}

/* Whether the key is of the desk's stripe, the first one. */
static bool is_ours(const host *self, unsigned key) {
    size_t sum = 0;
    for (size_t at = 0; at < length_of(key); at++) {
        sum += bytes_of(key)[at];
    }
    return sum % self->shape.stripes == 0;
}

static bool has_ticket(const call *it) {
    return it->next >= JC_ASK_LOAD && it->next <= JC_ASK_PROCESS;
}

static bool is_reserved(const host *self, unsigned key) {
    for (unsigned at = 0; at < SESSIONS; at++) {
        if (has_ticket(&self->calls[at]) && self->calls[at].key == key) {
            return true;
        }
    }
    return false;
}

static bool is_idle(const host *self) {
    for (unsigned at = 0; at < SESSIONS; at++) {
        if (self->calls[at].next != NO_CALL) {
            return false;
        }
    }
    return true;
}

static bool has_parked(const host *self) {
    for (unsigned at = 0; at < SESSIONS; at++) {
        if (self->calls[at].next == JC_NEXT_JOINED && self->calls[at].picked == JC_NEXT_DONE) {
            return true;
        }
    }
    return false;
}

/* What is cached, and what the library says of it. */

static void compare(host *self) {
    jc_entry entries[KEYS];
    size_t count = 0, expected = 0;
    CHECK(jc_entries(&self->desk, entries, KEYS, &count) == JC_OK && count <= KEYS && count <= self->shape.capacity);
    for (size_t at = 0; at < count; at++) {
        unsigned key = key_of(&entries[at].key);
        CHECK(self->cached[key].is_there && are_equal(&self->cached[key].value, &entries[at].value));
    }
    for (unsigned key = 0; key < KEYS; key++) {
        expected += self->cached[key].is_there;
    }
    jc_statistics counts;
    CHECK(count == expected && jc_statistics_of(&self->desk, &counts) == JC_OK && counts.evictions == self->evicted);
}

static void lose(host *self, unsigned key, const jc_value *value) {
    CHECK(self->cached[key].is_there && are_equal(&self->cached[key].value, value));
    self->cached[key].is_there = false;
}

/* The account follows the moves of a step at this key, whose call brought this value. */
static void follow(host *self, unsigned key, const jc_value *brought) {
    const jc_out *out = &self->out;
    if (out->moves & JC_MOVE_EVICTED) {
        lose(self, key_of(&out->victim), &out->evicted);
    }
    if (out->moves & JC_MOVE_REMOVED) {
        lose(self, key, &out->left);
    }
    if (out->moves & JC_MOVE_STORED) {
        CHECK(!self->cached[key].is_there && !(out->moves & (JC_MOVE_OWN_EVICTED_FULL | JC_MOVE_INVALIDATED)));
        self->cached[key].is_there = true;
        self->cached[key].value = *brought;
    }
    self->evicted += (out->moves & (JC_MOVE_EVICTED | JC_MOVE_OWN_EVICTED_FULL)) != 0;
    CHECK(!(out->moves & JC_MOVE_OWN_EVICTED_MEMORY));
}

/* The key's reservation is over. */
static void release(host *self, unsigned key) {
    CHECK(!self->is_marked[key] ? !(self->out.moves & JC_MOVE_INVALIDATED) : !self->cached[key].is_there);
    self->is_marked[key] = false;
}

/* Generations. */

static void keep_opening(host *self) {
    CHECK(jc_entries(&self->desk, self->opening, KEYS, &self->opened) == JC_OK);
}

/* The events of a generation are legal; with one byte changed they are read or refused. */
static void judge_events(host *self, input *from) {
    static jc_flat_event events[HISTORY_MOST];
    size_t len = jc_events_len(&self->desk);
    CHECK(len <= self->shape.history);
    memset(events, 0, sizeof events);
    for (size_t place = 0; place < len; place++) {
        CHECK(jc_event(&self->desk, place, &events[place]) == JC_OK);
    }
    CHECK(jc_event(&self->desk, len, &events[0]) == JC_CODE_NONE);
    bool is_legal = false;
    CHECK(jc_legal(&self->shape, self->opening, self->opened, events, len, &is_legal) == JC_OK && is_legal);
    if (len == 0) {
        return;
    }
    size_t at = (byte(from) * 256u + byte(from)) % sizeof *events;
    bool is_flag = at == offsetof(jc_flat_event, is_shared) || at == offsetof(jc_flat_event, outside) + offsetof(jc_processed, has_outcome);
    ((uint8_t *)&events[byte(from) % len])[at] ^= is_flag ? 1 : byte(from);
    uint32_t code = jc_legal(&self->shape, self->opening, self->opened, events, len, &is_legal);
    CHECK(code == JC_OK || code == JC_CODE_BAD_ARGUMENT);
}

static void end_generation(host *self, input *from) {
    size_t len = jc_events_len(&self->desk);
    if (self->shape.keeps_events) {
        judge_events(self, from);
    }
    CHECK(jc_end_generation(&self->desk) == (len > 0 && !has_parked(self) ? JC_OK : JC_CODE_IN_USE));
    if (len > 0 && !has_parked(self)) {
        CHECK(jc_events_len(&self->desk) == 0);
        keep_opening(self);
    }
}

/* What others have written. */

static void invalidate(host *self, input *from) {
    unsigned key = byte(from) % (KEYS + 2);
    uint32_t code = jc_invalidate(&self->desk, bytes_of(key), length_of(key), &self->out);
    CHECK(code == (key >= KEYS ? JC_CODE_BAD_ARGUMENT : is_ours(self, key) ? JC_OK : JC_CODE_MISUSE));
    if (code != JC_OK) {
        return;
    }
    const jc_out *out = &self->out;
    bool was_there = self->cached[key].is_there;
    if (out->moves) {
        CHECK(out->moves == (JC_MOVE_REMOVED | JC_MOVE_INVALIDATED) && !is_reserved(self, key));
        lose(self, key, &out->left);
    } else if (is_reserved(self, key)) {
        self->is_marked[key] = true;
    } else if (was_there) {
        self->is_shut = true;
    }
    CHECK(out->next == (self->is_shut ? JC_NEXT_SHUT : JC_NEXT_DONE));
}

static void invalidate_all(host *self) {
    CHECK(jc_invalidate_all(&self->desk) == JC_OK);
    for (unsigned key = 0; key < KEYS; key++) {
        self->is_marked[key] = is_reserved(self, key);
    }
    self->is_shut = true;
}

static bool is_swept(const host *self) {
    for (unsigned key = 0; key < KEYS; key++) {
        if (self->cached[key].is_there && !is_reserved(self, key)) {
            return false;
        }
    }
    return true;
}

static void sweep(host *self, input *from) {
    CHECK(jc_sweep(&self->desk, &self->out) == JC_OK);
    const jc_out *out = &self->out;
    CHECK(out->moves == (out->next == JC_NEXT_SHUT ? JC_MOVE_EVICTED : 0));
    reach(4, is_swept(self), out);
    switch (out->next) {
    case JC_NEXT_SHUT:
        CHECK(self->is_shut && !is_reserved(self, key_of(&out->victim)));
        lose(self, key_of(&out->victim), &out->evicted);
        break;
    case JC_NEXT_DONE:
        CHECK(!self->is_shut || is_swept(self));
        self->is_shut = false;
        break;
    case JC_NEXT_FULL:
        CHECK(self->is_shut && !is_swept(self) && self->shape.keeps_events && !has_parked(self));
        end_generation(self, from);
        break;
    default:
        CHECK(self->is_shut && !is_swept(self) && out->next == JC_NEXT_NOT_YET && !is_idle(self));
    }
}

/* Phases. */

static bool takes_value(uint32_t op) {
    return op == JC_OP_PUT || op == JC_OP_GET_AND_PUT || op == JC_OP_PUT_IF_ABSENT || op == JC_OP_REMOVE_IF || op == JC_OP_REPLACE || op == JC_OP_GET_AND_REPLACE;
}

static void take_out(host *self, unsigned session, unsigned key, const jc_value *brought) {
    const jc_out *out = &self->out;
    self->calls[session] = (call){.next = out->next, .key = key, .number = out->number, .call = out->call, .brought = *brought};
    call *it = &self->calls[session];
    it->picked = JC_NEXT_NOT_YET;
    switch (out->next) {
    case JC_ASK_WRITE:
        CHECK(are_equal(&out->value, brought));
        break;
    case JC_ASK_PROCESS:
        CHECK((out->reply == JC_REPLY_VALUE) == self->cached[key].is_there);
        CHECK(out->reply == JC_REPLY_VALUE ? are_equal(&out->value, &self->cached[key].value) : out->reply == JC_REPLY_NULL);
        it->may_load = out->code == 1;
        break;
    default:
        CHECK(out->next == JC_ASK_LOAD || out->next == JC_ASK_DELETE || out->next == JC_NEXT_JOINED);
    }
}

static void begin_call(host *self, input *from) {
    unsigned session = byte(from) % SESSIONS, op = byte(from) % (JC_OP_INVOKE + 2), key = byte(from) % (KEYS + 2);
    jc_value value = value_of(byte(from)), other = value_of(byte(from));
    bool is_good = key < KEYS && op <= JC_OP_INVOKE && (fits(&value) || !(takes_value(op) || op == JC_OP_REPLACE_IF)) &&
                   (fits(&other) || op != JC_OP_REPLACE_IF);
    bool may = is_ours(self, key) && self->calls[session].next == NO_CALL;
    uint8_t room[2][JC_VALUE_MAX + 1] = {{0}};
    memcpy(room[0], value.bytes, JC_VALUE_MAX);
    memcpy(room[1], other.bytes, JC_VALUE_MAX);
    uint32_t code = jc_begin(&self->desk, session, op, bytes_of(key), length_of(key), room[0], value.len, room[1], other.len, &self->out);
    CHECK(code == (!is_good ? JC_CODE_BAD_ARGUMENT : may ? JC_OK : JC_CODE_MISUSE));
    if (code != JC_OK) {
        return;
    }
    const jc_value *brought = op == JC_OP_REPLACE_IF ? &other : &value;
    reach(0, op, &self->out);
    CHECK(!self->is_shut || self->out.next == JC_NEXT_FULL || self->out.next == JC_NEXT_SHUT);
    CHECK(!self->is_marked[key] || self->out.next == JC_NEXT_FULL || self->out.next == JC_NEXT_SHUT ||
          (self->out.next == JC_NEXT_REFUSED && self->out.reply == JC_REFUSAL_BUSY));
    switch (self->out.next) {
    case JC_NEXT_DONE:
        follow(self, key, brought);
        break;
    case JC_NEXT_REFUSED:
        CHECK(self->out.reply <= JC_REFUSAL_TOO_MANY_JOINERS);
        break;
    case JC_NEXT_FULL:
        CHECK(self->shape.keeps_events);
        end_generation(self, from);
        break;
    case JC_NEXT_SHUT:
        CHECK(self->is_shut && self->out.moves == 0);
        sweep(self, from);
        break;
    default:
        take_out(self, session, key, brought);
    }
}

static void hit(host *self, input *from) {
    unsigned session = byte(from) % SESSIONS, key = byte(from) % (KEYS + 2);
    jc_value value;
    uint32_t code = jc_hit(&self->desk, session, bytes_of(key), length_of(key), &value);
    CHECK((code == JC_CODE_BAD_ARGUMENT) == (key >= KEYS));
    if (code == JC_OK) {
        CHECK(self->cached[key].is_there && are_equal(&self->cached[key].value, &value));
        CHECK(self->calls[session].next == NO_CALL && !self->is_shut && !self->is_marked[key]);
    } else {
        CHECK(code == JC_CODE_BAD_ARGUMENT || code == JC_CODE_NONE);
    }
}

static void peek(host *self, input *from) {
    unsigned key = byte(from) % (KEYS + 2);
    jc_value value;
    uint32_t code = jc_peek(&self->desk, bytes_of(key), length_of(key), &value);
    CHECK(code == (key >= KEYS ? JC_CODE_BAD_ARGUMENT : self->cached[key].is_there ? JC_OK : JC_CODE_NONE));
    CHECK(code != JC_OK || are_equal(&self->cached[key].value, &value));
}

/* Who has joined a load that is over: it picks this up. How many have. */
static uint32_t end_load(host *self, uint64_t load, uint32_t picked, uint32_t answer, uint32_t code, const jc_value *loaded) {
    uint32_t joined = 0;
    for (unsigned at = 0; at < SESSIONS; at++) {
        call *it = &self->calls[at];
        if (it->next == JC_NEXT_JOINED && it->number == load && it->picked == JC_NEXT_NOT_YET) {
            it->picked = picked;
            it->answer = answer;
            it->code = code;
            it->loaded = *loaded;
            joined++;
        }
    }
    return joined;
}

/* A call that has a ticket is over, as the library has said; with another code than JC_OK its ticket is still out. */
static void commit(host *self, unsigned kind, uint32_t code, call *it, const jc_value *brought) {
    if (code != JC_OK) {
        return;
    }
    CHECK(self->out.next == JC_NEXT_DONE);
    reach(kind, it->next, &self->out);
    follow(self, it->key, brought);
    release(self, it->key);
    CHECK(jc_withdraw(&self->desk, it->number, &self->out) == JC_CODE_MISUSE);
    it->next = NO_CALL;
}

/* The ticket of a session's call, or a number that no ticket has. */
static uint64_t ticket_of(const call *it) {
    return has_ticket(it) ? it->number : UINT64_MAX;
}

static void commit_load(host *self, input *from) {
    call *it = &self->calls[byte(from) % SESSIONS];
    uint32_t answer = byte(from) % 5, failure = byte(from);
    jc_value value = value_of(byte(from));
    uint8_t room[JC_VALUE_MAX + 1] = {0};
    memcpy(room, value.bytes, JC_VALUE_MAX);
    uint32_t code = jc_commit_load(&self->desk, ticket_of(it), answer, failure, room, value.len, &self->out);
    bool is_good = fits(&value) && answer >= JC_ANSWER_FOUND && answer <= JC_ANSWER_FAILED;
    CHECK(code == (!is_good ? JC_CODE_BAD_ARGUMENT : it->next == JC_ASK_LOAD ? JC_OK : JC_CODE_MISUSE));
    CHECK(code != JC_OK || answer != JC_ANSWER_FAILED || (self->out.reply == JC_REPLY_LOADER_FAILED && self->out.code == failure));
    if (code == JC_OK) {
        CHECK(end_load(self, it->number, JC_NEXT_DONE, answer, failure, &value) == self->out.shared);
    }
    commit(self, 1, code, it, &value);
}

static void commit_write(host *self, input *from) {
    call *it = &self->calls[byte(from) % SESSIONS];
    uint32_t answer = byte(from) % 5, failure = byte(from);
    uint32_t code = jc_commit_write(&self->desk, ticket_of(it), answer, failure, &self->out);
    bool is_due = it->next == JC_ASK_WRITE || it->next == JC_ASK_DELETE;
    CHECK(code == (answer != JC_ANSWER_WRITTEN && answer != JC_ANSWER_FAILED ? JC_CODE_BAD_ARGUMENT : is_due ? JC_OK : JC_CODE_MISUSE));
    CHECK(code != JC_OK || (self->out.reply == JC_REPLY_WRITER_FAILED) == (answer == JC_ANSWER_FAILED));
    CHECK(code != JC_OK || answer != JC_ANSWER_FAILED || (self->out.code == failure && (self->out.moves & ~(JC_MOVE_REMOVED | JC_MOVE_INVALIDATED)) == 0));
    commit(self, 2, code, it, &it->brought);
}

static bool is_good_process(const jc_processed *said) {
    return said->load <= JC_ANSWER_FAILED && said->effect <= JC_EFFECT_FAILED && said->write <= JC_ANSWER_FAILED && said->write != JC_ANSWER_NOTHING &&
           fits(&said->loaded) && fits(&said->set) && (fits(&said->outcome) || !said->has_outcome);
}

static void commit_process(host *self, input *from) {
    call *it = &self->calls[byte(from) % SESSIONS];
    jc_processed said = {.load = byte(from) % 5, .load_code = 9, .effect = byte(from) % 6, .code = byte(from), .write = byte(from) % 5};
    said.has_outcome = byte(from) & 1;
    said.loaded = value_of(byte(from));
    said.set = value_of(byte(from));
    said.outcome = value_of(byte(from));
    bool is_due = self->shape.write_through && (said.effect == JC_EFFECT_SET || said.effect == JC_EFFECT_REMOVE) && said.load != JC_ANSWER_FAILED;
    bool may = it->next == JC_ASK_PROCESS && (it->may_load || said.load == JC_ANSWER_NOT_ASKED) && is_due == (said.write != JC_ANSWER_NOT_ASKED);
    uint32_t code = jc_commit_process(&self->desk, ticket_of(it), &said, &self->out);
    CHECK(code == (!is_good_process(&said) ? JC_CODE_BAD_ARGUMENT : may ? JC_OK : JC_CODE_MISUSE));
    commit(self, 3, code, it, said.effect == JC_EFFECT_SET ? &said.set : &said.loaded);
}

static void withdraw(host *self, call *it) {
    CHECK(jc_withdraw(&self->desk, ticket_of(it), &self->out) == (has_ticket(it) ? JC_OK : JC_CODE_MISUSE));
    if (has_ticket(it)) {
        CHECK(self->out.next == JC_NEXT_DONE && (self->out.moves == 0 || self->out.moves == (JC_MOVE_REMOVED | JC_MOVE_INVALIDATED)));
        follow(self, it->key, &it->brought);
        release(self, it->key);
        end_load(self, it->number, JC_NEXT_AGAIN, 0, 0, &it->brought);
        it->next = NO_CALL;
    }
}

static void pick_up(host *self, unsigned session, unsigned key, uint64_t load) {
    call *it = &self->calls[session];
    bool is_out = it->next == JC_NEXT_JOINED && it->key == key && it->number == load;
    uint32_t code = jc_pick_up(&self->desk, session, it->call, bytes_of(key), length_of(key), load, &self->out);
    CHECK(code == (key >= KEYS ? JC_CODE_BAD_ARGUMENT : is_out ? JC_OK : JC_CODE_MISUSE));
    if (code != JC_OK) {
        return;
    }
    const jc_out *out = &self->out;
    CHECK(out->next == it->picked);
    if (out->next == JC_NEXT_DONE) {
        CHECK(out->reply == (it->answer == JC_ANSWER_FOUND ? JC_REPLY_VALUE : it->answer == JC_ANSWER_NOTHING ? JC_REPLY_NULL : JC_REPLY_LOADER_FAILED));
        CHECK(out->reply != JC_REPLY_VALUE || are_equal(&out->value, &it->loaded));
        CHECK(out->reply != JC_REPLY_LOADER_FAILED || out->code == it->code);
    }
    if (out->next != JC_NEXT_NOT_YET) {
        it->next = NO_CALL;
    }
}

static void pick_up_any(host *self, input *from) {
    unsigned session = byte(from) % SESSIONS, key = self->calls[session].key;
    uint64_t load = self->calls[session].number;
    unsigned wrong = byte(from);
    pick_up(self, session, wrong % 8 == 7 ? wrong / 8 % (KEYS + 2) : key, wrong % 8 == 6 ? load + 1 : load);
}

/* Opening and closing. */

/* Opens it in some shape, with what was cached: as much as has room, and is of its stripe. */
static void open_desk(host *self, input *from) {
    unsigned flags = byte(from);
    self->shape = (jc_shape){.stripes = 1 + byte(from) % 2, .capacity = 1 + byte(from) % 4,
                             .history = JC_HISTORY_MIN + byte(from) % (HISTORY_MOST - JC_HISTORY_MIN + 1),
                             .read_through = flags & 1, .write_through = flags & 2, .keeps_events = flags & 4, .out_size = sizeof(jc_out)};
    size_t kept = 0;
    for (size_t at = 0; at < self->opened; at++) {
        unsigned key = key_of(&self->opening[at].key);
        self->cached[key].is_there = is_ours(self, key) && kept < self->shape.capacity;
        if (self->cached[key].is_there) {
            self->opening[kept++] = self->opening[at];
        }
    }
    self->opened = kept;
    self->evicted = 0;
    self->is_shut = false;
    CHECK(jc_open(&self->desk, &self->shape, self->shape.stripes, self->opening, kept) == JC_CODE_BAD_ARGUMENT);
    CHECK(jc_open(&self->desk, &self->shape, 0, self->opening, kept) == JC_OK);
    CHECK(jc_open(&self->desk, &self->shape, 0, self->opening, kept) == JC_CODE_WRONG_HANDLE);
}

static void close_desk(host *self, input *from) {
    if (!is_idle(self)) {
        CHECK(jc_close(&self->desk) == JC_CODE_IN_USE);
        return;
    }
    if (self->shape.keeps_events) {
        judge_events(self, from);
    }
    keep_opening(self);
    CHECK(jc_close(&self->desk) == JC_OK && jc_close(&self->desk) == JC_CODE_WRONG_HANDLE);
    CHECK(jc_withdraw(&self->desk, 0, &self->out) == JC_CODE_WRONG_HANDLE);
}

/* All that is out is given back, and the desk is closed. */
static void end(host *self, input *from) {
    for (unsigned at = 0; at < SESSIONS; at++) {
        withdraw(self, &self->calls[at]);
    }
    for (unsigned at = 0; at < SESSIONS; at++) {
        if (self->calls[at].next == JC_NEXT_JOINED) {
            pick_up(self, at, self->calls[at].key, self->calls[at].number);
        }
    }
    compare(self);
    close_desk(self, from);
    CHECK(!self->desk.is_open);
}

static void step(host *self, input *from) {
    switch (byte(from) % 14) {
    case 0:
        commit_load(self, from);
        break;
    case 1:
        commit_write(self, from);
        break;
    case 2:
        commit_process(self, from);
        break;
    case 3:
        withdraw(self, &self->calls[byte(from) % SESSIONS]);
        break;
    case 4:
        pick_up_any(self, from);
        break;
    case 5:
        hit(self, from);
        break;
    case 6:
        peek(self, from);
        break;
    case 7:
        end_generation(self, from);
        break;
    case 8:
        close_desk(self, from);
        if (!self->desk.is_open) {
            open_desk(self, from);
        }
        break;
    case 9:
        invalidate(self, from);
        break;
    case 10:
        if (byte(from) % 4 == 0) {
            invalidate_all(self);
        }
        sweep(self, from);
        break;
    default:
        begin_call(self, from);
    }
}

int LLVMFuzzerTestOneInput(const uint8_t *bytes, size_t len);

int LLVMFuzzerTestOneInput(const uint8_t *bytes, size_t len) {
    static host self;
    memset(&self, 0, sizeof self);
    for (unsigned at = 0; at < SESSIONS; at++) {
        self.calls[at].next = NO_CALL;
    }
    input from = {bytes, bytes + len};
    open_desk(&self, &from);
    while (from.at < from.end) {
        step(&self, &from);
        compare(&self);
    }
    end(&self, &from);
    return 0;
}
