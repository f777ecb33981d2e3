/* The stripes of a cache, for CPython: desks of the core, and what its numbers stand for.
 *
 * The core knows a key by eight bytes, its slot and how often the slot was given, and a value by eight bytes, its version. Neither is given
 * twice. A key has a node while it is cached, reserved or joined. Which value comes and goes is what the core's moves say, and nothing else.
 *
 * There is no lock: a step runs with the interpreter's lock held, and from the moment at which its node is found until all is noted it calls
 * nothing that could run Python code: no hash, no comparison, no finalizer, no allocation of an object. So
 *  - keys and values are compared before a step, and sought anew if the table changed meanwhile where it matters;
 *  - the objects that a step hands out (Call, Flight) are made before it, and kept as spares;
 *  - what a step drops is kept in a list, and dropped when the step is over; so are those woken that wait.
 * So nobody can interrupt a step either: a signal's handler runs between two bytecodes, and a step is less than one.
 *
 * table.c   nodes: a key's number and its object
 * steps.c   one phase of a call, at the core and in the table
 * calls.c   what a call has out, as objects: Call, Flight, Blocked
 * outside.c whole calls of a thread: phases, and the loader or the writer between them
 * times.c   the clock, and how long what is cached lives
 * whole.c   what is said of all stripes, and done at all of them
 * cache.c   the type Stripes, which Cache inherits
 * module.c  the module */
#ifndef CADWRELCH_HOST_H
#define CADWRELCH_HOST_H
#define PY_SSIZE_T_CLEAN
#define Py_LIMITED_API 0x030a0000
#include <Python.h>
#include <stdbool.h>
#include <stddef.h>
#include <stdint.h>
#include <string.h>
#include <structmember.h>
#include "cadwrelch.h"

enum { SLOT_BITS = 16, EIGHT = sizeof(uint64_t), STRIPES_MAX = 4096, FIRST_BUCKETS = 64 };
enum { UNKNOWN = 100 };     /* beside the core's answers of a writer: nobody knows what it has done */
#define AT_ONCE 0u          /* the session of calls that are done at once in any case */
#define ETERNAL INT64_MAX
#define AS_THE_CACHE_SAYS (-1)

/* What is the same for all caches. Only the main interpreter may have it: see module.c. */
struct shared {
    PyTypeObject *stripes, *call, *flight, *blocked;
    PyObject *closed_error, *forked, *loader_failed, *writer_failed;   /* the last three make an error: of a cache, and of a key of one */
    PyObject *is_interrupt;                                   /* of an exception: whether it came from outside of what raised it */
    PyObject *until_free, *until_over;                        /* of waiting: they wait */
    PyObject *held_get, *held_set, *held_reset;               /* the methods of the context variable that says which calls this one is inside */
    PyObject *none;                                           /* what is cached for the None of a function whose results are cached */
    PyObject *absent;                                         /* what is cached where a loader has found nothing, if that is remembered */
    uint64_t forks;                                           /* of this process and those before it, since it was loaded */
};
extern struct shared the;

typedef struct Flight Flight;
typedef struct Call Call;
typedef struct stripe stripe;

/* A key that the core knows by a number, with what is cached at it. */
typedef struct node {
    PyObject *key, *value;
    uint64_t hash;         /* mixed */
    uint64_t number;
    uint64_t version;      /* 0: nothing is cached */
    int64_t dies, used;    /* when it expires; when it was used last, if that counts */
    int64_t due;           /* when a get has it reloaded */
    struct node *chain;
    Flight *flight;        /* of who has reserved the key */
    uint32_t pins;         /* how many calls have reserved the key or have joined its load */
    bool is_doubtful;      /* the store may have another value: it is as if it had expired */
} node;

/* What a call has out: a reservation, or a join. */
typedef struct seat {
    stripe *at;
    node *node;            /* NULL: it is over */
    uint64_t number;
    uint32_t session;
} seat;

/* A join of which nobody waits for the end any more. Its flight's own call keeps the cache. */
typedef struct abandoned { seat seat; struct abandoned *next; } abandoned;

struct stripe {
    jc_desk desk;
    jc_value hit;
    jc_out out;
    node **buckets;
    size_t bucket_count, node_count;
    node **nodes;          /* by their slots */
    uint64_t *generations;
    uint32_t *free_slots;
    size_t slots, slots_room, free_count;
    uint32_t *sessions;    /* those that are free */
    size_t session_count, sessions_room;
    uint32_t last_session;
    uint64_t last_version;
    uint64_t changes;      /* how many calls have left */
    size_t out_count;
    PyObject *waiters;     /* of who waits for room; a list or NULL */
    bool is_closed;
    bool is_suspended;     /* nothing is kept that a call leaves */
};

typedef struct Stripes {
    PyObject_HEAD
    stripe *stripes;
    size_t count;
    PyObject *name;
    uint64_t forks;        /* when it was made */
    long process;
    uint64_t seed;         /* of the mixing of hashes */
    Call *spare;           /* with a flight */
    PyObject *timer;       /* NULL: the system's monotonic clock */
    PyObject *life_of;     /* of a key and a value; NULL: life */
    PyObject *load, *write, *remove;   /* whom whole calls ask */
    PyObject *reload;      /* of a key whose entry is old: has it reloaded later */
    int64_t life, idle;    /* nanoseconds; ETERNAL; 0 of idle: it doesn't count */
    int64_t refresh_after, absent_for; /* the age of an old entry; how long it is remembered that a loader found nothing; 0: never */
    uint64_t absent_gets;  /* how many gets were told so. The core has counted them as hits */
    bool reads, writes;
    bool is_timed;         /* the clock is read */
    PyObject *weak;
} Stripes;

/* A call that has reserved a key, as others see it. */
struct Flight {
    PyObject_HEAD
    PyObject *value, *error, *waiters, *waits_for;
    abandoned *abandoned;
    uint64_t number, version;
    bool is_over;
    bool is_overtaken;     /* the key was invalidated: what it leaves is dropped, and who begins waits for its end */
};

/* A call that has something out: a reservation, or a load that it has joined. */
struct Call {
    PyObject_HEAD
    Stripes *cache;
    seat seat;
    Flight *flight;
    PyObject *key, *value, *cached;
    uint64_t version;
    int64_t life;
    uint32_t next;
    bool may_load, is_get;
};

typedef struct Blocked {
    PyObject_HEAD
    Stripes *cache;
    stripe *at;
    PyObject *key;
    Flight *flight;        /* NULL: any change of the stripe */
    uint64_t changes;
} Blocked;

/* What a step drops. It is more than one step can: victim's key and value, an expired value, the old value, the key. */
typedef struct leavings { PyObject *objects[12]; int count; } leavings;

/* What a call replies: jc_reply, and a new reference or NULL. */
typedef struct answer { uint32_t reply; PyObject *value; } answer;

/* How a first phase ends. DONE: answer. OUT: call. BLOCKED: at, flight (a new reference or NULL) and changes. RAISED: an exception is set. */
enum kind { RAISED, DONE, OUT, BLOCKED };
typedef struct ended { enum kind kind; answer answer; Call *call; stripe *at; Flight *flight; uint64_t changes; bool is_old; } ended;

static inline void drop(leavings *left, void *object) { if (object != NULL) left->objects[left->count++] = object; }
static inline PyObject *take(PyObject **place) { PyObject *it = *place; *place = NULL; return it; }
static inline PyObject *none_as_null(PyObject *object) { return object == Py_None ? NULL : object; }
static inline PyObject *added(PyObject *object) { Py_XINCREF(object); return object; }

static inline uint64_t number_in(const jc_value *value) {
    uint64_t number = 0;
    if (value->len == EIGHT) memcpy(&number, value->bytes, EIGHT);
    return number;
}

/* A hash of Python is often the key itself, or an address. These are the last steps of SplitMix64, which lose nothing: two mixed hashes are
 * equal if the hashes are. */
static inline uint64_t mixed(const Stripes *self, Py_hash_t hash) {
    uint64_t x = (uint64_t)hash ^ self->seed;
    x = (x ^ x >> 30) * UINT64_C(0xbf58476d1ce4e5b9);
    x = (x ^ x >> 27) * UINT64_C(0x94d049bb133111eb);
    return x ^ x >> 31;
}

/* The upper half of a hash says the stripe, the lower half the bucket. */
static inline stripe *stripe_of(const Stripes *self, uint64_t hash) { return &self->stripes[(hash >> 32) * self->count >> 32]; }
static inline node **bucket_of(const stripe *s, uint64_t hash) { return &s->buckets[hash & (s->bucket_count - 1)]; }
static inline uint32_t slot_of(uint64_t number) { return number & ((1u << SLOT_BITS) - 1); }

static inline bool has_node(const stripe *s, uint64_t number) {
    uint32_t slot = slot_of(number);
    return slot < s->slots && s->nodes[slot] != NULL && s->nodes[slot]->number == number;
}

/* Whether it is the memory that a loader has found nothing. */
static inline bool is_absent(const node *n) { return n->value == the.absent; }

static inline bool has_expired(const Stripes *self, const node *n, int64_t now) {
    if (!self->is_timed) return n->is_doubtful;
    return n->version && (n->is_doubtful || now >= n->dies || (self->idle && !is_absent(n) && now - n->used >= self->idle));
}

/* Whether there is an entry for who looks. */
static inline bool is_seen(const Stripes *self, const node *n, int64_t now) {
    return n->version && !is_absent(n) && !has_expired(self, n, now);
}

/* table.c */
void drop_all(leavings *left);
void wake(PyObject *waiters);
bool find(stripe *s, PyObject *key, uint64_t hash, node **found);
node *add_node(stripe *s, PyObject *key, uint64_t hash);
void release(stripe *s, node *n, leavings *left);
void free_nodes(node *all);
void shut_if_idle(stripe *s, node **all);

/* times.c */
bool read_clock(Stripes *self, int64_t *now);
bool as_life(PyObject *seconds, int64_t *life);
bool given_life(PyObject *seconds, int64_t *life);
void start_life(const Stripes *self, node *n, int64_t life, int64_t now);
bool claim_reload(const Stripes *self, node *n, int64_t now);
bool have_reloaded(Stripes *self, PyObject *key);

/* steps.c */
void *refuse(const Stripes *self, uint32_t code);
void *closed(const Stripes *self);
void *other_value(void);
bool contains(Stripes *self, PyObject *key, uint64_t hash, bool *is_cached);
PyObject *hit(Stripes *self, PyObject *key, uint64_t hash, bool *is_old);
bool uncache(Stripes *self, stripe *s, node *n, leavings *left);
void invalidate(Stripes *self, stripe *s, node *n, leavings *left);
void begin(Stripes *self, uint32_t op, PyObject *key, uint64_t hash, PyObject *value, PyObject *old, int64_t life, ended *end);
bool commit_load(Call *call, PyObject *value, PyObject *error, int64_t life, answer *to);
bool commit_write(Call *call, uint32_t outcome, answer *to);
bool commit_process(Call *call, const jc_processed *done, PyObject *brought, uint64_t version, int64_t life, bool is_unknown, bool is_used, answer *to);
bool withdraw(Call *call);
bool pick_up(Call *call, bool *is_done, answer *to);
bool abandon(Call *call);
void commit_forgotten(Call *call);
bool is_out(const Call *call, uint32_t first, uint32_t last);

/* calls.c */
extern PyType_Spec call_spec, flight_spec, blocked_spec;
PyObject *reply_tuple(answer *said);
PyObject *begun(Stripes *self, PyObject *key, ended *end);
bool has_spare(Stripes *self);
void recycle(Call *call);

/* outside.c */
typedef struct source { PyObject *function, *arguments, *words; } source;   /* whom a load asks; NULL: the cache's loader */
bool life_for(Stripes *self, PyObject *key, PyObject *value, int64_t *life);
bool whole_call(Stripes *self, uint32_t op, PyObject *key, uint64_t hash, PyObject *value, PyObject *old, int64_t life, answer *to);
bool get_or_load(Stripes *self, PyObject *key, uint64_t hash, const source *from, answer *to);
bool reload(Stripes *self, PyObject *key, uint64_t hash);

/* whole.c */
bool is_open(Stripes *self);
PyObject *stripes_keys(Stripes *self, PyObject *nothing);
PyObject *stripes_all_keys(Stripes *self, PyObject *nothing);
Py_ssize_t stripes_length(Stripes *self);
PyObject *stripes_expire(Stripes *self, PyObject *nothing);
PyObject *stripes_stats(Stripes *self, PyObject *nothing);
PyObject *stripes_agrees(Stripes *self, PyObject *nothing);
PyObject *stripes_invalidate_all(Stripes *self, PyObject *nothing);
PyObject *stripes_suspend(Stripes *self, PyObject *nothing);
PyObject *stripes_resume(Stripes *self, PyObject *nothing);
PyObject *stripes_close(Stripes *self, PyObject *nothing);

/* cache.c */
extern PyType_Spec stripes_spec;
bool is_ready(const Stripes *self);
#endif
