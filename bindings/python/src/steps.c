/* One phase of a call: at the core, and in the table. */
#include "host.h"

void *refuse(const Stripes *self, uint32_t code) {
    switch (code) {
    case JC_CODE_NO_MEMORY: return PyErr_NoMemory();
    case JC_CODE_WRONG_HANDLE: return closed(self);
    default: PyErr_Format(PyExc_AssertionError, "the core refused a phase with code %u", (unsigned)code);
    }
    return NULL;
}

void *closed(const Stripes *self) { PyErr_Format(the.closed_error, "the cache %U is closed", self->name); return NULL; }
void *other_value(void) { PyErr_SetString(PyExc_AssertionError, "the core has another value"); return NULL; }

/* What came and went. */

static bool empty(node *n, const jc_value *version, leavings *left) {
    if (n == NULL || !n->version || n->version != number_in(version)) return false;
    n->version = 0;
    n->is_doubtful = false;
    drop(left, take(&n->value));
    return true;
}

/* Does what the core says came and went with a step of the node's key, which brought this value. */
static bool follow(Stripes *self, stripe *s, node *n, uint64_t version, PyObject *value, int64_t life, int64_t now, leavings *left) {
    uint32_t moves = s->out.moves;
    if (moves & JC_MOVE_EVICTED) {
        uint64_t number = 0;
        memcpy(&number, s->out.victim.bytes, EIGHT);
        node *victim = has_node(s, number) ? s->nodes[slot_of(number)] : NULL;
        if (!empty(victim, &s->out.evicted, left)) return false;
        if (victim != n) release(s, victim, left);
    }
    if (moves & JC_MOVE_REMOVED && !empty(n, &s->out.left, left)) return false;
    if (moves & JC_MOVE_STORED) {
        n->value = added(value);
        n->version = version;
        if (self->is_timed) start_life(self, n, life, now);
    }
    return true;
}

/* What the core's reply stands for: the value is the node's, before the step, or the loaded one. What is known to be absent is nothing. */
static bool replied(const stripe *s, const node *n, uint64_t loaded_version, PyObject *loaded, answer *to) {
    to->reply = s->out.reply;
    to->value = NULL;
    if (s->out.reply != JC_REPLY_VALUE) return true;
    uint64_t version = number_in(&s->out.value);
    PyObject *value = version == 0 ? NULL : version == n->version ? n->value : version == loaded_version ? loaded : NULL;
    if (value == the.absent) to->reply = JC_REPLY_NULL;
    else to->value = added(value);
    return value != NULL;
}

/* Sessions: one for each call that is out. */

static uint32_t free_session(stripe *s) { return s->session_count > 0 ? s->sessions[s->session_count - 1] : s->last_session + 1; }

static bool has_session_room(stripe *s) {
    if (s->out_count + s->session_count < s->sessions_room) return true;
    size_t room = s->sessions_room == 0 ? 16 : s->sessions_room * 2;
    uint32_t *sessions = PyMem_Realloc(s->sessions, room * sizeof *sessions);
    if (sessions == NULL) return false;
    s->sessions = sessions;
    s->sessions_room = room;
    return true;
}

static Call *take_out(Stripes *self, stripe *s, node *n, uint32_t session, uint64_t version, PyObject *value, int64_t life) {
    Call *call = self->spare;
    self->spare = NULL;
    if (s->session_count > 0) s->session_count--; else s->last_session = session;
    s->out_count++;
    n->pins++;
    call->cache = (Stripes *)added((PyObject *)self);
    call->seat = (seat){.at = s, .node = n, .number = s->out.call, .session = session};
    call->next = s->out.next;
    call->version = version;
    call->life = life;
    call->may_load = s->out.next == JC_ASK_PROCESS && s->out.code == 1;
    call->key = added(n->key);
    call->value = added(value);
    if (n->version) call->cached = added(n->value);
    call->flight->number = s->out.number;
    if (call->next != JC_NEXT_JOINED) n->flight = (Flight *)added((PyObject *)call->flight);
    return call;
}

/* First phases. */

/* Uncaches an entry as a step of its own. False: its key is reserved, or there is no room for the step. */
bool uncache(Stripes *self, stripe *s, node *n, leavings *left) {
    uint64_t number = n->number;
    const uint8_t *key = (const uint8_t *)&number;
    if (n->flight != NULL) return false;
    if (jc_begin(&s->desk, free_session(s), JC_OP_CLEAR_KEY, key, EIGHT, key, 0, key, 0, &s->out) != JC_OK || s->out.next != JC_NEXT_DONE) return false;
    return follow(self, s, n, 0, NULL, 0, 0, left);
}

/* The same of one that nobody may see any more. If that can't be, it is hidden, as if it had expired. */
static void uncache_or_hide(Stripes *self, stripe *s, node *n, leavings *left) {
    if (n->version && !uncache(self, s, n, left)) n->is_doubtful = true;
}

/* What the store has at a key is another value by now. A call that has reserved the key drops what it leaves, and those that begin before
 * its end wait for that. */
void invalidate(Stripes *self, stripe *s, node *n, leavings *left) {
    if (n->flight != NULL) n->flight->is_overtaken = true;
    uncache_or_hide(self, s, n, left);
}

static void blocked(ended *end, stripe *s, Flight *flight) {
    end->kind = BLOCKED;
    end->at = s;
    end->flight = (Flight *)added((PyObject *)flight);
    end->changes = s->changes;
}

static uint32_t begin_in_core(stripe *s, const node *n, uint32_t op, bool has_value, uint64_t version, uint64_t expected) {
    uint64_t number = n->number;
    const uint8_t *key = (const uint8_t *)&number, *brought = (const uint8_t *)&version, *old = (const uint8_t *)&expected;
    size_t length = has_value ? EIGHT : 0;
    if (op == JC_OP_REMOVE_IF || op == JC_OP_REPLACE_IF)
        return jc_begin(&s->desk, free_session(s), op, key, EIGHT, old, EIGHT, brought, length, &s->out);
    return jc_begin(&s->desk, free_session(s), op, key, EIGHT, brought, length, key, 0, &s->out);
}

/* Whether a call that is over at once has used the entry that it leaves: a get, and a comparison that found another value. */
static bool is_use(uint32_t op, uint32_t reply) {
    return op == JC_OP_GET || ((op == JC_OP_REPLACE_IF || op == JC_OP_REMOVE_IF) && reply == JC_REPLY_NO);
}

/* What a get, or a look whether a key is cached, that is over at once has found: it may be old, or the memory that there is nothing. */
static void note_look(Stripes *self, node *n, uint32_t op, int64_t now, ended *end) {
    if (!n->version || (op != JC_OP_GET && op != JC_OP_CONTAINS_KEY)) return;
    if (!is_absent(n)) end->is_old = op == JC_OP_GET && claim_reload(self, n, now);
    else if (op == JC_OP_GET) self->absent_gets++;
    else end->answer.reply = JC_REPLY_NO;
}

/* The first phase of a call of an operation, at a node that was found. */
static void begin_at(Stripes *self, stripe *s, node *n, uint32_t op, PyObject *value, uint64_t expected, int64_t life, int64_t now,
                     leavings *left, ended *end) {
    uint32_t session = free_session(s);
    uint64_t version = value != NULL ? ++s->last_version : 0;
    uint32_t code = begin_in_core(s, n, op, value != NULL, version, expected);
    if (code != JC_OK) {
        refuse(self, code);
    } else if (s->out.next == JC_NEXT_DONE) {
        if (replied(s, n, 0, NULL, &end->answer) && follow(self, s, n, version, value, life, now, left)) end->kind = DONE;
        else other_value();
        if (end->kind == DONE) note_look(self, n, op, now, end);
        if (s->is_suspended) uncache_or_hide(self, s, n, left);
        if (end->kind == DONE && self->idle && is_use(op, end->answer.reply) && n->version) n->used = now;
    } else if (s->out.next == JC_NEXT_REFUSED) {
        if (s->out.reply == JC_REFUSAL_HISTORY_FULL) PyErr_SetString(PyExc_AssertionError, "the cache has counted 2^64 calls");
        else blocked(end, s, s->out.reply == JC_REFUSAL_BUSY || s->out.reply == JC_REFUSAL_TOO_MANY_JOINERS ? n->flight : NULL);
    } else {
        Flight *flight = n->flight;
        end->call = take_out(self, s, n, session, version, value, life);
        end->call->is_get = op == JC_OP_GET;
        end->kind = OUT;
        if (end->call->next == JC_NEXT_JOINED) {
            drop(left, end->call->flight);
            end->call->flight = (Flight *)added((PyObject *)flight);
        }
    }
    release(s, n, left);
}

/* Whether the cached value of a node is the old one that a call names. 1: the node has to be sought anew, since a comparison ran. -1: it
 * raised. */
static int compare(node *n, PyObject *old, uint64_t *compared, bool *is_equal) {
    if (n->version == *compared) return 0;
    PyObject *cached = added(n->value);
    *compared = n->version;
    int said = PyObject_RichCompareBool(cached, old, Py_EQ);
    Py_DECREF(cached);
    *is_equal = said > 0;
    return said < 0 ? -1 : 1;
}

/* Whether a call may see neither what is cached nor what is being loaded. One that may change an entry forgets first that there is none. */
static bool is_out_of_date(const Stripes *self, const node *n, uint32_t op, int64_t now) {
    bool is_look = op == JC_OP_GET || op == JC_OP_CONTAINS_KEY;
    return has_expired(self, n, now) || (n->flight != NULL && n->flight->is_overtaken) || (is_absent(n) && !is_look);
}

/* The first phase of a call. */
void begin(Stripes *self, uint32_t op, PyObject *key, uint64_t hash, PyObject *value, PyObject *old, int64_t life, ended *end) {
    stripe *s = stripe_of(self, hash);
    uint64_t compared = 0;
    bool is_equal = false;
    leavings left = {.count = 0};
    memset(end, 0, sizeof *end);
    for (;;) {
        int64_t now;
        node *n;
        if (!has_spare(self) || !read_clock(self, &now) || !find(s, key, hash, &n)) return;
        if (self->spare == NULL) continue;   /* what ran meanwhile has taken it */
        if (s->is_closed) { closed(self); return; }
        bool is_dead = n != NULL && is_out_of_date(self, n, op, now);
        if (old != NULL && n != NULL && n->version && !is_dead) {
            int said = compare(n, old, &compared, &is_equal);
            if (said < 0) return;
            if (said > 0) continue;
        }
        if (!has_session_room(s) || (n == NULL && (n = add_node(s, key, hash)) == NULL)) { PyErr_NoMemory(); return; }
        if (is_dead && !uncache(self, s, n, &left)) blocked(end, s, n->flight);
        else begin_at(self, s, n, op, value, is_equal ? compared : 0, life, now, &left, end);
        drop_all(&left);
        return;
    }
}

/* Whether a key is cached. It waits for nobody: without room for a step in the history of the core it makes none. False: an exception. */
bool contains(Stripes *self, PyObject *key, uint64_t hash, bool *is_cached) {
    ended end;
    int64_t now;
    node *n;
    begin(self, JC_OP_CONTAINS_KEY, key, hash, NULL, NULL, AS_THE_CACHE_SAYS, &end);
    *is_cached = end.answer.reply == JC_REPLY_YES;
    if (end.kind != BLOCKED) return end.kind == DONE;
    Py_XDECREF(end.flight);
    if (!read_clock(self, &now) || !find(end.at, key, hash, &n)) return false;
    *is_cached = n != NULL && is_seen(self, n, now);
    return true;
}

/* A get that finds its entry: a new reference, to None if it is known to be absent; or NULL, and nothing was done. is_old, unless it is
 * NULL: whether the caller has it reloaded. */
PyObject *hit(Stripes *self, PyObject *key, uint64_t hash, bool *is_old) {
    stripe *s = stripe_of(self, hash);
    int64_t now;
    node *n;
    if (is_old != NULL) *is_old = false;
    if (!read_clock(self, &now) || !find(s, key, hash, &n)) return NULL;
    if (s->is_closed) return closed(self);
    if (n == NULL || !n->version || has_expired(self, n, now)) return NULL;
    if (jc_hit(&s->desk, AT_ONCE, (const uint8_t *)&n->number, EIGHT, &s->hit) != JC_OK) return NULL;
    if (number_in(&s->hit) != n->version) return other_value();
    n->used = now;
    if (is_absent(n)) {
        self->absent_gets++;
        return added(Py_None);
    }
    if (is_old != NULL) *is_old = claim_reload(self, n, now);
    return added(n->value);
}

/* Last phases. */

static void leave(seat *seat, leavings *left, node **all) {
    stripe *s = seat->at;
    node *n = seat->node;
    seat->node = NULL;
    s->changes++;
    s->out_count--;
    s->sessions[s->session_count++] = seat->session;
    n->pins--;
    release(s, n, left);
    shut_if_idle(s, all);
}

static uint32_t pick_up_now(const seat *seat, uint64_t load) {
    uint64_t number = seat->node->number;
    return jc_pick_up(&seat->at->desk, seat->session, seat->number, (const uint8_t *)&number, EIGHT, load, &seat->at->out);
}

/* Gives the key back, and wakes who waits for it. */
static void end_reservation(Call *call) {
    leavings left = {.count = 0};
    node *all = NULL;
    Flight *flight = call->flight;
    call->seat.node->flight = NULL;
    drop(&left, flight);
    flight->is_over = true;
    while (flight->abandoned != NULL) {
        abandoned *joined = flight->abandoned;
        flight->abandoned = joined->next;
        pick_up_now(&joined->seat, flight->number);
        leave(&joined->seat, &left, &all);
        PyMem_Free(joined);
    }
    if (flight->is_overtaken || call->seat.at->is_suspended) uncache_or_hide(call->cache, call->seat.at, call->seat.node, &left);
    leave(&call->seat, &left, &all);
    PyObject *waiters = take(&flight->waiters), *room = take(&call->seat.at->waiters);
    drop_all(&left);
    free_nodes(all);
    wake(waiters);
    wake(room);
}

bool is_out(const Call *call, uint32_t first, uint32_t last) {
    if (call->seat.node != NULL && call->next >= first && call->next <= last) return true;
    PyErr_SetString(PyExc_RuntimeError, "the call is over, or is to be ended otherwise");
    return false;
}

/* What a last phase brings in. */
typedef struct brought { uint64_t version; PyObject *value; int64_t life, now; bool is_unknown; } brought;

/* The end of a last phase which the core has answered: what it replied, and what came and went. */
static bool end_call(Call *call, uint32_t code, const brought *with, uint64_t loaded_version, PyObject *loaded, answer *to) {
    leavings left = {.count = 0};
    stripe *s = call->seat.at;
    node *n = call->seat.node;
    if (code != JC_OK) return refuse(call->cache, code);
    bool is_right = replied(s, n, loaded_version, loaded, to);
    is_right = follow(call->cache, s, n, with->version, with->value, with->life, with->now, &left) && is_right;
    if (with->is_unknown && n->version) n->is_doubtful = true;
    Stripes *cache = (Stripes *)added((PyObject *)call->cache);
    end_reservation(call);
    drop_all(&left);
    Py_DECREF(cache);
    if (is_right) return true;
    Py_CLEAR(to->value);
    return other_value();
}

/* The last phase of a call whose loader was asked: NULL as the value says that it found nothing. A get may have that remembered. */
bool commit_load(Call *call, PyObject *value, PyObject *error, int64_t life, answer *to) {
    brought with = {.value = value, .life = life};
    if (!read_clock(call->cache, &with.now) || !is_out(call, JC_ASK_LOAD, JC_ASK_LOAD)) return false;
    stripe *s = call->seat.at;
    Flight *flight = call->flight;
    if (value == NULL && call->is_get && call->cache->absent_for) with.value = value = the.absent;
    if (value != NULL && error == NULL) with.version = ++s->last_version;
    flight->version = with.version;
    flight->value = with.version && value != the.absent ? added(value) : NULL;
    flight->error = added(error);
    uint32_t answer = error != NULL ? JC_ANSWER_FAILED : with.version ? JC_ANSWER_FOUND : JC_ANSWER_NOTHING;
    uint32_t code = jc_commit_load(&s->desk, flight->number, answer, 1, (const uint8_t *)&with.version, with.version ? EIGHT : 0, &s->out);
    if (code != JC_OK) {
        Py_CLEAR(flight->value);
        Py_CLEAR(flight->error);
    }
    return end_call(call, code, &with, with.version, value, to);
}

/* The last phase of a call whose writer was asked: JC_ANSWER_WRITTEN, JC_ANSWER_FAILED or UNKNOWN. */
bool commit_write(Call *call, uint32_t outcome, answer *to) {
    brought with = {.version = call->version, .value = call->value, .life = call->life, .is_unknown = outcome == UNKNOWN};
    if (!read_clock(call->cache, &with.now) || !is_out(call, JC_ASK_WRITE, JC_ASK_DELETE)) return false;
    stripe *s = call->seat.at;
    uint32_t code = jc_commit_write(&s->desk, call->flight->number, outcome == UNKNOWN ? JC_ANSWER_FAILED : outcome, 1, &s->out);
    return end_call(call, code, &with, 0, NULL, to);
}

/* The last phase of a call whose processor ran: is_used says whether that has looked at the value. */
bool commit_process(Call *call, const jc_processed *done, PyObject *value, uint64_t version, int64_t life, bool is_unknown, bool is_used, answer *to) {
    brought with = {.version = version, .value = value, .life = life, .is_unknown = is_unknown};
    if (!read_clock(call->cache, &with.now) || !is_out(call, JC_ASK_PROCESS, JC_ASK_PROCESS)) return false;
    stripe *s = call->seat.at;
    uint32_t code = jc_commit_process(&s->desk, call->flight->number, done, &s->out);
    if (is_used && code == JC_OK && s->out.reply <= JC_REPLY_VALUE) call->seat.node->used = with.now;
    return end_call(call, code, &with, 0, NULL, to);
}

bool withdraw(Call *call) {
    if (!is_out(call, JC_ASK_LOAD, JC_ASK_PROCESS)) return false;
    stripe *s = call->seat.at;
    uint32_t code = jc_withdraw(&s->desk, call->flight->number, &s->out);
    if (code != JC_OK) return refuse(call->cache, code);
    end_reservation(call);
    return true;
}

/* Ends a call that nobody ends: it has failed, and what its writer or its processor has done to the store is unknown. No clock is read. */
void commit_forgotten(Call *call) {
    const brought nothing = {.is_unknown = call->next != JC_ASK_LOAD};
    answer said = {0, NULL};
    stripe *s = call->seat.at;
    uint64_t ticket = call->flight->number;
    uint32_t code;
    jc_processed failed;
    switch (call->next) {
    case JC_ASK_LOAD:
        code = jc_commit_load(&s->desk, ticket, JC_ANSWER_FAILED, 1, (const uint8_t *)&ticket, 0, &s->out);
        break;
    case JC_ASK_PROCESS:
        memset(&failed, 0, sizeof failed);
        failed.effect = JC_EFFECT_FAILED;
        failed.code = 1;
        code = jc_commit_process(&s->desk, ticket, &failed, &s->out);
        break;
    default:
        code = jc_commit_write(&s->desk, ticket, JC_ANSWER_FAILED, 1, &s->out);
    }
    if (end_call(call, code, &nothing, 0, NULL, &said)) Py_XDECREF(said.value);
}

/* Joins. */

static void leave_alone(Call *call) {
    leavings left = {.count = 0};
    node *all = NULL;
    leave(&call->seat, &left, &all);
    PyObject *room = take(&call->seat.at->waiters);
    drop_all(&left);
    free_nodes(all);
    wake(room);
}

/* Of a load that was joined and is over: what it replies, or that it is to begin anew. */
bool pick_up(Call *call, bool *is_done, answer *to) {
    if (!is_out(call, JC_NEXT_JOINED, JC_NEXT_JOINED)) return false;
    if (!call->flight->is_over) { PyErr_SetString(PyExc_RuntimeError, "the load is not over"); return false; }
    uint32_t code = pick_up_now(&call->seat, call->flight->number);
    if (code != JC_OK) return refuse(call->cache, code);
    const jc_out *out = &call->seat.at->out;
    *is_done = out->next == JC_NEXT_DONE;
    *to = (answer){.reply = out->reply};
    bool has_value = *is_done && out->reply == JC_REPLY_VALUE;
    bool is_right = !has_value || number_in(&out->value) == call->flight->version;
    leave_alone(call);
    if (!is_right) return other_value();
    if (has_value && call->flight->value == NULL) to->reply = JC_REPLY_NULL;
    else if (has_value) to->value = added(call->flight->value);
    return true;
}

/* Nobody waits for a load that was joined: it is picked up when the load is over. False: out of memory. */
bool abandon(Call *call) {
    if (call->flight->is_over) {
        pick_up_now(&call->seat, call->flight->number);
        leave_alone(call);
        return true;
    }
    abandoned *joined = PyMem_Malloc(sizeof *joined);
    if (joined == NULL) return false;
    *joined = (abandoned){.seat = call->seat, .next = call->flight->abandoned};
    call->flight->abandoned = joined;
    call->seat.node = NULL;
    return true;
}
