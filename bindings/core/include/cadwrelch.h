/* One stripe of a proved read-through, write-through LRU cache (javax.cache's rules), as a machine of phases.
 *
 * The library does no I/O, takes no lock and starts no thread. The host keeps one mutex (or one event loop) a desk, gives a desk to one
 * call at a time, and asks its loader, writer and entry processor between the phases, while the mutex is free. What the library can test
 * it answers with a code, with nothing done. What it can't test is listed at the end under "the host owes". */
#ifndef CADWRELCH_H
#define CADWRELCH_H
#include <stdbool.h>
#include <stddef.h>
#include <stdint.h>
#ifdef __cplusplus
extern "C" {
#endif

/* The version that this header is of: 1,000,000 * major + 1,000 * minor + patch. Before 1.0 the structs may change with the minor number, so
 * a host that loads the library at run time compares jc_version() / 1000 with JC_VERSION / 1000 first. */
enum { JC_VERSION = 2000 };

enum { JC_KEY_MAX = 32, JC_VALUE_MAX = 256, JC_STRIPES_MAX = 64, JC_CAPACITY_MAX = 4096, JC_HISTORY_MIN = 16, JC_HISTORY_MAX = 65536,
       JC_RESERVATIONS_MAX = 64, JC_JOINERS_MAX = 64, JC_OUT_SIZE = 856 /* sizeof(jc_out) */ };

/* A handle. It begins as all zeros; only the library reads or writes its fields. It isn't copied while it is open. */
typedef struct jc_desk { void *at; bool is_open; } jc_desk;

typedef struct jc_shape {
    size_t stripes;      /* 1 to 64: how many stripes the host's cache has. A key is of stripe (sum of its bytes) mod stripes */
    size_t capacity;     /* 1 to 4,096 entries a stripe */
    size_t history;      /* 16 to 65,536 events a generation; the room, 884 bytes each, is taken by jc_open. for a host that
                            reads no event, 3 for each call under way: 64 for 21 of them, 260 for as many as there can be */
    bool read_through;   /* a get of a missing key asks the loader */
    bool write_through;  /* a mutation is written first */
    bool keeps_events;   /* false: a full generation ends by itself, and its events are gone. true: jc_begin answers JC_NEXT_FULL, jc_hit JC_CODE_NONE,
                            and the host reads the events and calls jc_end_generation */
    uint32_t out_size;   /* sizeof(jc_out): jc_open refuses the shape of a host that was compiled with another one (JC_CODE_BAD_ARGUMENT), so that
                            a later library may have a longer jc_out and serve both */
} jc_shape;

typedef struct jc_value { uint32_t len; uint8_t bytes[JC_VALUE_MAX]; } jc_value;   /* only len bytes count, and only they are written */
typedef struct jc_key   { uint32_t len; uint8_t bytes[JC_KEY_MAX]; } jc_key;
typedef struct jc_entry { jc_key key; jc_value value; } jc_entry;

/* On any code but JC_OK nothing was done: a ticket is still out, and is to be committed or withdrawn; nothing was written but, with
 * JC_CODE_MISUSE, to *out. (jc_hit may have ended a full generation, but none of a desk with keeps_events.) */
enum jc_code {
    JC_OK = 0,
    JC_CODE_WRONG_HANDLE = 1, /* it isn't open; of jc_open: it is open already. It is tested first */
    JC_CODE_NO_MEMORY = 2,    /* an allocation failed; nothing was done */
    JC_CODE_BAD_ARGUMENT = 3, /* a key of 0 or over 32 bytes, a value over 256, an unknown operation or answer, a shape out of its limits.
                            It is tested next */
    JC_CODE_MISUSE = 4,       /* see at each function */
    JC_CODE_IN_USE = 5,       /* a ticket or a join is out; of jc_end_generation: it has no event, or an answer is parked */
    JC_CODE_NONE = 6          /* there is no entry, or no such event */
};

enum jc_op { JC_OP_GET = 0, JC_OP_CONTAINS_KEY = 1, JC_OP_PUT = 2, JC_OP_GET_AND_PUT = 3, JC_OP_PUT_IF_ABSENT = 4, JC_OP_REMOVE = 5, JC_OP_REMOVE_IF = 6,
             JC_OP_GET_AND_REMOVE = 7, JC_OP_REPLACE = 8, JC_OP_REPLACE_IF = 9, JC_OP_GET_AND_REPLACE = 10,
             JC_OP_CLEAR_KEY = 11,   /* one key of clear(): no writer is asked */
             JC_OP_LOAD = 12,        /* one key of loadAll: if it has no entry */
             JC_OP_RELOAD = 13,      /* one key of loadAll, in any case */
             JC_OP_INVOKE = 14 };

/* out->next: what the host does next. */
enum jc_next {
    JC_NEXT_DONE = 0,          /* the call is over: reply, code, value, place, moves are there */
    JC_ASK_LOAD = 1,    /* ask the loader for the key, then jc_commit_load(number) */
    JC_ASK_WRITE = 2,  /* have the writer write out->value at the key, then jc_commit_write(number) */
    JC_ASK_DELETE = 3,  /* have the writer delete the key, then jc_commit_write(number) */
    JC_ASK_PROCESS = 4, /* run the processor on the entry: reply is JC_REPLY_VALUE (out->value) or JC_REPLY_NULL (missing); code is 1 if the loader may
                             be asked by its first getValue; then jc_commit_process(number) */
    JC_NEXT_JOINED = 5,        /* another call loads this key: wait for its commit or withdrawal, then jc_pick_up(session, call, key, number) */
    JC_NEXT_REFUSED = 6,       /* nothing was done; reply is a jc_refusal. JC_REFUSAL_BUSY: retry after the next commit, withdrawal or pick-up here */
    JC_NEXT_AGAIN = 7,         /* of jc_pick_up: the load was withdrawn; begin anew */
    JC_NEXT_NOT_YET = 8,       /* of jc_pick_up: the load isn't over; the join is still out. Of jc_sweep: see there */
    JC_NEXT_FULL = 9,          /* with keeps_events: nothing was done; hand out the events, call jc_end_generation, begin (or sweep) anew */
    JC_NEXT_SHUT = 10          /* of jc_begin: nothing was done; call jc_sweep as long as it says JC_NEXT_SHUT, too, then begin anew */
};

enum jc_reply { JC_REPLY_UNIT = 0, JC_REPLY_NO = 1, JC_REPLY_YES = 2, JC_REPLY_NULL = 3, JC_REPLY_VALUE = 4, JC_REPLY_LOADER_FAILED = 5, JC_REPLY_WRITER_FAILED = 6, JC_REPLY_PROCESSOR_FAILED = 7,
                JC_REPLY_OTHER_FAULT = 8 /* a desk never replies it */ };
enum jc_refusal { JC_REFUSAL_HISTORY_FULL = 0 /* only after 2^64 calls */, JC_REFUSAL_BUSY = 1, JC_REFUSAL_TOO_MANY_IN_FLIGHT = 2, JC_REFUSAL_TOO_MANY_JOINERS = 3,
                  JC_REFUSAL_OTHER = 4 /* a desk never gives it */ };

/* out->moves: which values came and went with a step. A host that keeps what values stand for beside the desk (an object table, a slab)
 * counts references by it. It is there after JC_NEXT_DONE of jc_begin and of the commits, after jc_withdraw, jc_invalidate and jc_sweep; 0
 * otherwise. */
enum jc_moves {
    JC_MOVE_STORED = 1,    /* the key's entry has a value now that it hadn't before: the one that this call brought (put, loaded, set) */
    JC_MOVE_REMOVED = 2,    /* out->left: the value that the key's entry had before, and hasn't now (overwritten, removed) */
    JC_MOVE_EVICTED = 4, /* out->victim had out->evicted, and was evicted for this step, or by this sweep */
    JC_MOVE_OWN_EVICTED_FULL = 8,    /* the step's own new entry was evicted at once: all others are reserved (no JC_MOVE_STORED then) */
    JC_MOVE_OWN_EVICTED_MEMORY = 16, /* the same: there was no memory for it */
    JC_MOVE_INVALIDATED = 32 /* the key's entry was evicted, since the key was invalidated (no JC_MOVE_STORED then; JC_MOVE_REMOVED if it had one before) */
};

/* Only the fields that next and reply speak of are written; the others stay as they were. */
typedef struct jc_out {
    uint32_t next, reply, code, place;
    uint32_t shared;     /* of jc_commit_load: how many joiners have this answer parked now. Each keeps the answer's value until it is picked up */
    uint32_t moves;
    uint64_t number;     /* the ticket (JC_ASK_LOAD to JC_ASK_PROCESS), or the load that was joined (JC_NEXT_JOINED) */
    uint64_t call;       /* of jc_begin: the call's number */
    jc_value value;
    jc_value left;
    jc_key victim;
    jc_value evicted;
} jc_out;

/* What a loader and a writer answer. */
enum jc_answer { JC_ANSWER_NOT_ASKED = 0, JC_ANSWER_FOUND = 1, JC_ANSWER_WRITTEN = 1, JC_ANSWER_NOTHING = 2, JC_ANSWER_FAILED = 3 };
/* What a processor did, and what its loader and its writer answered. */
enum jc_effect { JC_EFFECT_KEEP = 0, JC_EFFECT_SET = 1, JC_EFFECT_REMOVE = 2, JC_EFFECT_FAILED = 3, JC_EFFECT_NOT_RUN = 4 /* of an event alone */ };
typedef struct jc_processed {
    uint32_t load, load_code;    /* JC_ANSWER_NOT_ASKED, JC_ANSWER_FOUND (loaded), JC_ANSWER_NOTHING, JC_ANSWER_FAILED (load_code) */
    uint32_t effect, code;       /* its net effect: JC_EFFECT_KEEP, JC_EFFECT_SET (set), JC_EFFECT_REMOVE, JC_EFFECT_FAILED (code) */
    uint32_t write, write_code;  /* with write_through, after JC_EFFECT_SET or JC_EFFECT_REMOVE and no failed load: JC_ANSWER_WRITTEN or JC_ANSWER_FAILED; else JC_ANSWER_NOT_ASKED */
    bool has_outcome;            /* whether outcome is what the processor returned; else null */
    jc_value loaded, set, outcome;
} jc_processed;

typedef struct jc_statistics { uint64_t hits, misses, puts, removals, evictions; } jc_statistics;

/* An event of a generation. Only the fields that count are written: of an eviction kind, key and cause; of a step those values that its
 * operation, its answers and its reply have. A struct begins as all zeros, so that jc_legal finds lengths that fit. */
enum jc_event_kind { JC_EVENT_STEP = 0, JC_EVENT_EVICTION = 1 };
enum jc_cause { JC_CAUSE_ROOM = 0 /* the stripe was full */, JC_CAUSE_MEMORY = 1 /* an allocation for the entry failed */,
                JC_CAUSE_INVALIDATED = 2 /* its key was invalidated: no eviction that is counted */ };
typedef struct jc_flat_event {
    uint32_t kind, session;
    uint64_t call;
    uint32_t op;             /* jc_op */
    bool is_shared;          /* a get that joined a load: shared_with is the place of the step that loaded */
    uint32_t shared_with;
    uint32_t reply, reply_code, cause;
    jc_key key;
    jc_value value, other;   /* as jc_begin's */
    jc_value replied;
    jc_processed outside;    /* what was answered outside; effect is JC_EFFECT_NOT_RUN if no processor ran */
} jc_flat_event;

/* The version of the library. */
uint32_t jc_version(void);

/* Opens a desk over stripe number (from 0) of shape->stripes, with these entries, the first one the most recently used.
 * JC_CODE_BAD_ARGUMENT also: no stripe has this number; a key twice, of another stripe, or more entries than capacity. All arguments are tested
 * before memory is taken: JC_CODE_NO_MEMORY says that they fit. It allocates; so does an insertion of an entry. */
uint32_t jc_open(jc_desk *h, const jc_shape *shape, size_t number, const jc_entry *entries, size_t count);

/* Frees the desk. JC_CODE_IN_USE, and it stays open, while a ticket or a join is out. */
uint32_t jc_close(jc_desk *h);

/* The first phase of the session's next call. JC_CODE_MISUSE: the key is of another stripe, the session has another call out at this desk, or
 * the number of the next call would be 2^64 - 1.
 * A session is whoever has at most one call out: a thread, a task's slot; any number. */
uint32_t jc_begin(jc_desk *h, uint32_t session, uint32_t op, const uint8_t *key, size_t key_len,
                  const uint8_t *value, size_t value_len, const uint8_t *other, size_t other_len, jc_out *out);

/* A get that finds its entry, and nothing else: JC_CODE_NONE says that no call was made (no entry; the generation is full; the key was
 * invalidated, or the desk is shut; misuse): jc_begin then. A full generation may have ended by then, but none of a desk with keeps_events. It evicts nothing. */
uint32_t jc_hit(jc_desk *h, uint32_t session, const uint8_t *key, size_t key_len, jc_value *value);

/* The last phases. A ticket's number serves once: JC_CODE_MISUSE if it isn't out here, or asks for another one. */
uint32_t jc_commit_load(jc_desk *h, uint64_t ticket, uint32_t answer /* JC_ANSWER_FOUND, JC_ANSWER_NOTHING, JC_ANSWER_FAILED */, uint32_t code,
                        const uint8_t *value, size_t value_len, jc_out *out);
uint32_t jc_commit_write(jc_desk *h, uint64_t ticket, uint32_t answer /* JC_ANSWER_WRITTEN, JC_ANSWER_FAILED */, uint32_t code, jc_out *out);
/* JC_CODE_MISUSE also: the loader answered though it may not be asked; the writer was (not) asked though it wasn't (was) due. */
uint32_t jc_commit_process(jc_desk *h, uint64_t ticket, const jc_processed *processed, jc_out *out);
/* Gives a ticket back whose loader, writer or processor was NOT asked: joiners are told to retry. out->moves is 0; or, if its key was
 * invalidated meanwhile and had an entry, JC_MOVE_REMOVED | JC_MOVE_INVALIDATED. Of *out next, moves and left are written. */
uint32_t jc_withdraw(jc_desk *h, uint64_t ticket, jc_out *out);
/* Until it says JC_NEXT_DONE or JC_NEXT_AGAIN, the join is out. */
uint32_t jc_pick_up(jc_desk *h, uint32_t session, uint64_t call, const uint8_t *key, size_t key_len, uint64_t load, jc_out *out);

/* Forgets a key that somebody else has written in the store: no call that begins later is answered from what is cached or reserved of it
 * now. It is no call: it has no session, no number and no event but an eviction, is never refused, waits for nobody, and takes no memory.
 *  - The entry is evicted at once: out->moves is JC_MOVE_REMOVED | JC_MOVE_INVALIDATED, or 0 if there was none.
 *  - If the key is reserved, it is evicted by the commit or the withdrawal of that ticket, whose moves tell it. Until then each call that
 *    begins at the key is JC_REFUSAL_BUSY, and jc_hit says JC_CODE_NONE. Calls that have joined its load are answered.
 *  - out->next is JC_NEXT_DONE, or JC_NEXT_SHUT: the generation has no place for the eviction, and can't end now. Then no call begins until
 *    jc_sweep has evicted all entries whose keys aren't reserved.
 * JC_CODE_MISUSE: the key is of another stripe. Of *out next, moves and left are written. */
uint32_t jc_invalidate(jc_desk *h, const uint8_t *key, size_t key_len, jc_out *out);
/* The same of all keys: those that are reserved as jc_invalidate says; and the desk is shut until jc_sweep has evicted the entries of all
 * others. */
uint32_t jc_invalidate_all(jc_desk *h);
/* Evicts an entry of a desk that is shut, the least recently used one whose key isn't reserved: out->moves is JC_MOVE_EVICTED, or 0. By
 * out->next the host goes on:
 *  - JC_NEXT_SHUT: one was evicted: sweep again.
 *  - JC_NEXT_DONE: none is left, or the desk wasn't shut: calls may begin.
 *  - JC_NEXT_NOT_YET: one is left, and there is no place for its eviction: sweep again after the next commit, withdrawal or pick-up here.
 *  - JC_NEXT_FULL: with keeps_events: hand out the events, call jc_end_generation, sweep again.
 * Of *out next, moves, victim and evicted are written. */
uint32_t jc_sweep(jc_desk *h, jc_out *out);

/* The key's entry. No call is made, and the order of use stays. JC_CODE_NONE: it has none. */
uint32_t jc_peek(jc_desk *h, const uint8_t *key, size_t key_len, jc_value *value);
/* What all events since jc_open count (CacheStatisticsMXBean); constant time. */
uint32_t jc_statistics_of(jc_desk *h, jc_statistics *out);
/* Writes what is cached, the most recently used first, as far as there is room, and how many entries there are. Of a desk that is shut
 * that is also what is to be forgotten: sweep before you open another desk with these entries. */
uint32_t jc_entries(jc_desk *h, jc_entry *out, size_t room, size_t *count);
/* How many events the present generation has; 0 if the desk isn't open. */
size_t jc_events_len(jc_desk *h);
/* Writes the event at a place of the present generation, from 0. JC_CODE_NONE: it has no such place. */
uint32_t jc_event(jc_desk *h, size_t place, jc_flat_event *out);
/* Ends the present generation. JC_CODE_IN_USE: it has no event, or an answer is parked. */
uint32_t jc_end_generation(jc_desk *h);
/* Writes whether these events are a legal history of one stripe of a cache of this shape, which began with these entries. It needs no desk.
 * JC_CODE_BAD_ARGUMENT: an entry or an event says nothing that there is. A shape out of its limits, a key twice, or keys of two stripes are not
 * legal. It takes memory and time as long as the history. */
uint32_t jc_legal(const jc_shape *shape, const jc_entry *opening, size_t opening_count, const jc_flat_event *events, size_t events_count,
                  bool *is_legal);

/* The host owes, and nothing tests:
 *  - a desk is given to one call at a time (its mutex), is zeroed before jc_open, and is not written, copied or freed while open;
 *  - pointers and lengths are those of live memory, and what a call writes overlaps nothing else of the call; a pointer with length 0
 *    isn't NULL;
 *  - bools are 0 or 1;
 *  - what it says of the loader, the writer and the processor is what they answered; between a ticket and its commit they were asked once;
 *    jc_withdraw only if they weren't;
 *  - malloc, realloc and free are one allocator's; no call is made from a signal handler, or in a child after fork. */
#ifdef __cplusplus
}
#endif
#endif
