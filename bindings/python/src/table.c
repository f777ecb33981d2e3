/* Nodes: a key's number in the core, and what stands for it here. */
#include "host.h"

void drop_all(leavings *left) {
    if (left->count == 0) return;
    PyObject *kind, *value, *trace;
    PyErr_Fetch(&kind, &value, &trace);
    while (left->count > 0) Py_DECREF(left->objects[--left->count]);
    PyErr_Restore(kind, value, trace);
}

/* Calls each, with what was raised before kept. Takes the list. */
void wake(PyObject *waiters) {
    if (waiters == NULL) return;
    PyObject *kind, *value, *trace;
    PyErr_Fetch(&kind, &value, &trace);
    for (Py_ssize_t i = 0; i < PyList_Size(waiters); i++) {
        PyObject *waiter = added(PyList_GetItem(waiters, i)), *said = PyObject_CallNoArgs(waiter);
        if (said == NULL) PyErr_WriteUnraisable(waiter);
        Py_XDECREF(said);
        Py_DECREF(waiter);
    }
    Py_DECREF(waiters);
    PyErr_Restore(kind, value, trace);
}

/* The number of the newest node of a hash, or 0. A new node is always the first of its bucket. */
static uint64_t newest(const stripe *s, uint64_t hash) {
    for (node *n = *bucket_of(s, hash); n != NULL; n = n->chain) {
        if (n->hash == hash) return n->number;
    }
    return 0;
}

/* The key's node, or NULL, as the table is when it returns. False: an exception. A comparison may run anything, and change the table: it
 * begins anew if the node that was compared is gone, or if there is a newer one of this hash. */
bool find(stripe *s, PyObject *key, uint64_t hash, node **found) {
    uint64_t first;
anew:
    first = 0;
    for (node *n = *bucket_of(s, hash); n != NULL; n = n->chain) {
        if (n->hash != hash) continue;
        if (n->key != key) {
            uint64_t number = n->number;
            size_t buckets = s->bucket_count;
            PyObject *other = n->key;
            if (first == 0) first = number;
            Py_INCREF(other);
            int is_equal = PyObject_RichCompareBool(other, key, Py_EQ);
            Py_DECREF(other);
            if (is_equal < 0) return false;
            if (!has_node(s, number) || s->bucket_count != buckets) goto anew;
            if (!is_equal) continue;
        }
        *found = n;
        return true;
    }
    if (first != 0 && first != newest(s, hash)) goto anew;
    *found = NULL;
    return true;
}

static bool grow_buckets(stripe *s) {
    size_t count = s->bucket_count * 2;
    node **buckets = PyMem_Calloc(count, sizeof *buckets), **old = s->buckets;
    if (buckets == NULL) return false;
    size_t old_count = s->bucket_count;
    s->buckets = buckets;
    s->bucket_count = count;
    for (size_t i = 0; i < old_count; i++) {
        for (node *n = old[i], *next; n != NULL; n = next) {
            next = n->chain;
            node **bucket = bucket_of(s, n->hash);
            n->chain = *bucket;
            *bucket = n;
        }
    }
    PyMem_Free(old);
    return true;
}

static bool grow_slots(stripe *s) {
    size_t room = s->slots_room == 0 ? 64 : s->slots_room * 2;
    node **nodes = PyMem_Realloc(s->nodes, room * sizeof *nodes);
    if (nodes != NULL) s->nodes = nodes;
    uint64_t *generations = PyMem_Realloc(s->generations, room * sizeof *generations);
    if (generations != NULL) s->generations = generations;
    uint32_t *slots = PyMem_Realloc(s->free_slots, room * sizeof *slots);
    if (slots != NULL) s->free_slots = slots;
    if (nodes == NULL || generations == NULL || slots == NULL) return false;
    s->slots_room = room;
    return true;
}

/* NULL: out of memory, and no exception is set. */
node *add_node(stripe *s, PyObject *key, uint64_t hash) {
    if (s->node_count >= s->bucket_count && !grow_buckets(s)) return NULL;
    if (s->free_count == 0 && s->slots == s->slots_room && !grow_slots(s)) return NULL;
    node *n = PyMem_Calloc(1, sizeof *n);
    if (n == NULL) return NULL;
    uint32_t slot;
    if (s->free_count > 0) {
        slot = s->free_slots[--s->free_count];
    } else {
        slot = (uint32_t)s->slots++;
        s->generations[slot] = 0;
    }
    n->number = slot | ++s->generations[slot] << SLOT_BITS;
    n->key = added(key);
    n->hash = hash;
    node **bucket = bucket_of(s, hash);
    n->chain = *bucket;
    *bucket = n;
    s->nodes[slot] = n;
    s->node_count++;
    return n;
}

/* Takes a node back whose key is neither cached nor reserved nor joined. */
void release(stripe *s, node *n, leavings *left) {
    if (n->version || n->pins) return;
    node **link = bucket_of(s, n->hash);
    while (*link != n) link = &(*link)->chain;
    *link = n->chain;
    s->nodes[slot_of(n->number)] = NULL;
    s->free_slots[s->free_count++] = slot_of(n->number);
    s->node_count--;
    drop(left, n->key);
    PyMem_Free(n);
}

void free_nodes(node *all) {
    while (all != NULL) {
        node *n = all;
        all = n->chain;
        Py_XDECREF(n->key);
        Py_XDECREF(n->value);
        Py_XDECREF(n->flight);
        PyMem_Free(n);
    }
}

/* Takes all nodes out of a closed stripe that has no call out, to be freed when the step is over. */
void shut_if_idle(stripe *s, node **all) {
    if (!s->is_closed || s->out_count != 0 || !s->desk.is_open) return;
    for (size_t slot = 0; slot < s->slots; slot++) {
        node *n = s->nodes[slot];
        if (n == NULL) continue;
        n->chain = *all;
        *all = n;
    }
    memset(s->buckets, 0, s->bucket_count * sizeof *s->buckets);
    s->slots = s->free_count = s->node_count = 0;
    jc_close(&s->desk);
}
