/* What is said of all stripes of a cache, and done at all of them. */
#include "host.h"

bool is_open(Stripes *self) {
    if (!is_ready(self)) return false;
    if (!self->stripes[0].is_closed) return true;
    closed(self);
    return false;
}

static PyObject *keys_of(Stripes *self, bool with_absent) {
    int64_t now;
    PyObject *keys = read_clock(self, &now) ? PyList_New(0) : NULL;
    if (keys != NULL && !is_open(self)) Py_CLEAR(keys);
    for (size_t i = 0; keys != NULL && i < self->count; i++) {
        stripe *s = &self->stripes[i];
        for (size_t slot = 0; keys != NULL && slot < s->slots; slot++) {
            node *n = s->nodes[slot];
            if (n == NULL || !n->version || !(with_absent || is_seen(self, n, now))) continue;
            if (PyList_Append(keys, n->key) < 0) Py_CLEAR(keys);
        }
    }
    return keys;
}

PyObject *stripes_keys(Stripes *self, PyObject *nothing) {
    (void)nothing;
    return keys_of(self, false);
}

/* With those of which nobody sees an entry. */
PyObject *stripes_all_keys(Stripes *self, PyObject *nothing) {
    (void)nothing;
    return keys_of(self, true);
}

Py_ssize_t stripes_length(Stripes *self) {
    int64_t now;
    Py_ssize_t length = 0;
    if (!read_clock(self, &now) || !is_open(self)) return -1;
    for (size_t i = 0; i < self->count; i++) {
        stripe *s = &self->stripes[i];
        for (size_t slot = 0; slot < s->slots; slot++) {
            node *n = s->nodes[slot];
            if (n != NULL && is_seen(self, n, now)) length++;
        }
    }
    return length;
}

/* Uncaches all that has expired and isn't reserved, each as a step of its own, and says how many. */
PyObject *stripes_expire(Stripes *self, PyObject *nothing) {
    (void)nothing;
    int64_t now;
    size_t count = 0;
    if (!read_clock(self, &now) || !is_open(self)) return NULL;
    for (size_t i = 0; i < self->count; i++) {
        stripe *s = &self->stripes[i];
        for (size_t slot = 0; slot < s->slots && !s->is_closed; slot++) {
            node *n = s->nodes[slot];
            leavings left = {.count = 0};
            if (n == NULL || !has_expired(self, n, now)) continue;
            bool was_entry = !is_absent(n);
            if (!uncache(self, s, n, &left)) continue;
            release(s, n, &left);
            if (was_entry) count++;
            drop_all(&left);
        }
    }
    return PyLong_FromSize_t(count);
}

PyObject *stripes_stats(Stripes *self, PyObject *nothing) {
    (void)nothing;
    jc_statistics sum = {0};
    if (!is_open(self)) return NULL;
    for (size_t i = 0; i < self->count; i++) {
        jc_statistics of;
        uint32_t code = jc_statistics_of(&self->stripes[i].desk, &of);
        if (code != JC_OK) return refuse(self, code);
        sum.hits += of.hits, sum.misses += of.misses, sum.puts += of.puts, sum.removals += of.removals, sum.evictions += of.evictions;
    }
    sum.hits -= self->absent_gets, sum.misses += self->absent_gets;
    return Py_BuildValue("{sKsKsKsKsK}", "hits", sum.hits, "misses", sum.misses, "puts", sum.puts, "removals", sum.removals, "evictions", sum.evictions);
}

static bool stripe_agrees(stripe *s) {
    if (s->out_count != 0) return false;
    if (s->is_closed) return s->node_count == 0;
    size_t count = 0;
    jc_entry one, *entries = PyMem_Calloc(s->node_count + 1, sizeof *entries);
    if (entries == NULL || jc_entries(&s->desk, &one, 0, &count) != JC_OK || count != s->node_count) { PyMem_Free(entries); return false; }
    bool agrees = jc_entries(&s->desk, entries, count, &count) == JC_OK;
    for (size_t i = 0; agrees && i < count; i++) {
        uint64_t number = 0;
        memcpy(&number, entries[i].key.bytes, EIGHT);
        node *n = has_node(s, number) ? s->nodes[slot_of(number)] : NULL;
        agrees = n != NULL && n->version != 0 && n->version == number_in(&entries[i].value) && n->pins == 0 && n->flight == NULL;
    }
    PyMem_Free(entries);
    return agrees;
}

/* For tests: whether nodes and core have the same entries, and nothing else is there. */
PyObject *stripes_agrees(Stripes *self, PyObject *nothing) {
    (void)nothing;
    for (size_t i = 0; i < self->count; i++) {
        if (!stripe_agrees(&self->stripes[i])) Py_RETURN_FALSE;
    }
    Py_RETURN_TRUE;
}

/* What forgets without asking the store. */

PyObject *stripes_invalidate_all(Stripes *self, PyObject *nothing) {
    (void)nothing;
    if (!is_ready(self)) return NULL;
    for (size_t i = 0; i < self->count; i++) {
        stripe *s = &self->stripes[i];
        for (size_t slot = 0; slot < s->slots && !s->is_closed; slot++) {
            node *n = s->nodes[slot];
            leavings left = {.count = 0};
            if (n == NULL) continue;
            invalidate(self, s, n, &left);
            release(s, n, &left);
            drop_all(&left);
        }
    }
    Py_RETURN_NONE;
}

static PyObject *set_suspended(Stripes *self, bool is_suspended) {
    if (!is_ready(self)) return NULL;
    for (size_t i = 0; i < self->count; i++) self->stripes[i].is_suspended = is_suspended;
    return stripes_invalidate_all(self, NULL);
}

PyObject *stripes_suspend(Stripes *self, PyObject *nothing) {
    (void)nothing;
    return set_suspended(self, true);
}

PyObject *stripes_resume(Stripes *self, PyObject *nothing) {
    (void)nothing;
    return set_suspended(self, false);
}

/* How it ends. */

/* Hands a list of waiters over. An append runs no Python code, but may fail: then they are woken at the end of what they wait for. */
static void hand_over(PyObject *lists, PyObject **waiters) {
    if (*waiters == NULL) return;
    if (PyList_Append(lists, *waiters) == 0) Py_CLEAR(*waiters);
    else PyErr_Clear();
}

/* Later calls are refused; calls under way end. */
PyObject *stripes_close(Stripes *self, PyObject *nothing) {
    (void)nothing;
    node *all = NULL;
    PyObject *lists = PyList_New(0);
    if (lists == NULL) return NULL;
    for (size_t i = 0; i < self->count; i++) {
        stripe *s = &self->stripes[i];
        s->is_closed = true;
        for (size_t slot = 0; slot < s->slots; slot++) {
            Flight *flight = s->nodes[slot] == NULL ? NULL : s->nodes[slot]->flight;
            if (flight != NULL) hand_over(lists, &flight->waiters);
        }
        hand_over(lists, &s->waiters);
        shut_if_idle(s, &all);
    }
    free_nodes(all);
    for (Py_ssize_t i = 0; i < PyList_Size(lists); i++) wake(added(PyList_GetItem(lists, i)));
    Py_DECREF(lists);
    Py_RETURN_NONE;
}
