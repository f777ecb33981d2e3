/* The type Stripes, which Cache inherits and AsyncCache has. */
#include "host.h"
#include <unistd.h>

/* Whether calls may begin. In another process they could wait for threads that are not there. */
bool is_ready(const Stripes *self) {
    if (self->count > 0 && self->forks == the.forks) return true;
    if (self->count == 0) { PyErr_SetString(PyExc_RuntimeError, "the cache has not been made"); return false; }
    PyObject *error = PyObject_CallFunction(the.forked, "Oll", self->name, self->process, (long)getpid());
    if (error != NULL) PyErr_SetObject((PyObject *)Py_TYPE(error), error);
    Py_XDECREF(error);
    return false;
}

static bool is_value(PyObject *value) {
    if (value != Py_None) return true;
    PyErr_SetString(PyExc_ValueError, "None is no value: it says that there is none");
    return false;
}

static bool hash_of(const Stripes *self, PyObject *key, uint64_t *hash) {
    if (!is_ready(self)) return false;
    Py_hash_t plain = PyObject_Hash(key);
    if (plain == -1) return false;
    *hash = mixed(self, plain);
    return true;
}

/* How it is made. */

static bool is_within(const char *what, Py_ssize_t given, Py_ssize_t least, Py_ssize_t most) {
    if (given >= least && given <= most) return true;
    PyErr_Format(PyExc_ValueError, "%s is %zd: it has to be a number from %zd to %zd", what, given, least, most);
    return false;
}

static bool take_seed(Stripes *self) {
    PyObject *os = PyImport_ImportModule("os");
    PyObject *bytes = os == NULL ? NULL : PyObject_CallMethod(os, "urandom", "i", (int)sizeof self->seed);
    const char *at = bytes == NULL ? NULL : PyBytes_AsString(bytes);
    if (at != NULL) memcpy(&self->seed, at, sizeof self->seed);
    Py_XDECREF(bytes);
    Py_XDECREF(os);
    return at != NULL;
}

/* An age or a time that is longer than 0; None: 0. */
static bool as_age(const char *name, PyObject *given, int64_t *age) {
    if (!as_life(given, age)) return false;
    if (*age == ETERNAL) *age = 0;
    else if (*age == 0) { PyErr_Format(PyExc_ValueError, "%s is %R: it has to be longer than 0", name, given); return false; }
    return true;
}

static bool take_times(Stripes *self, PyObject *ttl, PyObject *tti, PyObject *timer) {
    bool asks = PyCallable_Check(ttl);
    if (!as_life(asks ? Py_None : ttl, &self->life) || !as_age("tti", tti, &self->idle)) return false;
    self->is_timed = asks || self->life != ETERNAL || self->idle != 0 || self->refresh_after != 0 || self->absent_for != 0;
    if (asks) self->life_of = added(ttl);
    self->timer = added(none_as_null(timer));
    return true;
}

static bool open_stripe(const Stripes *self, stripe *s, const jc_shape *shape) {
    static const jc_entry none;
    s->buckets = PyMem_Calloc(FIRST_BUCKETS, sizeof *s->buckets);
    if (s->buckets == NULL) { PyErr_NoMemory(); return false; }
    s->bucket_count = FIRST_BUCKETS;
    uint32_t code = jc_open(&s->desk, shape, 0, &none, 0);
    if (code != JC_OK) refuse(self, code);
    return code == JC_OK;
}

/* The capacity is dealt to the stripes: they have as much, but for what is left over. */
static bool open_stripes(Stripes *self, size_t count, size_t capacity, jc_shape *shape) {
    self->stripes = PyMem_Calloc(count, sizeof *self->stripes);
    if (self->stripes == NULL) { PyErr_NoMemory(); return false; }
    for (size_t i = 0; i < count; i++) {
        shape->capacity = capacity / count + (i < capacity % count);
        if (!open_stripe(self, &self->stripes[i], shape)) {
            PyMem_Free(self->stripes[i].buckets);
            return false;
        }
        self->count++;
    }
    return true;
}

static int stripes_init(Stripes *self, PyObject *arguments, PyObject *words) {
    static char *names[] = {"name", "stripes", "capacity", "history", "reads", "writes", "ttl", "tti", "timer", "load", "write", "remove", "refresh_after",
                            "absent_for", "reload", NULL};
    Py_ssize_t count, capacity, history;
    int reads, writes;
    PyObject *name;
    PyObject *ttl = Py_None, *tti = Py_None, *timer = Py_None, *load = Py_None, *write = Py_None, *remove = Py_None, *refresh_after = Py_None,
             *absent_for = Py_None, *reload = Py_None;
    if (!PyArg_ParseTupleAndKeywords(arguments, words, "Unnnpp|OOOOOOOOO", names, &name, &count, &capacity, &history, &reads, &writes, &ttl, &tti, &timer,
                                     &load, &write, &remove, &refresh_after, &absent_for, &reload)) return -1;
    if (self->stripes != NULL) { PyErr_SetString(PyExc_RuntimeError, "it is made already"); return -1; }
    if (!is_within("stripes", count, 1, STRIPES_MAX) || !is_within("capacity", capacity, count, count * JC_CAPACITY_MAX) ||
        !is_within("history", history, JC_HISTORY_MIN, JC_HISTORY_MAX) ||
        !as_age("refresh_after", refresh_after, &self->refresh_after) || !as_age("absent_for", absent_for, &self->absent_for) || !take_times(self, ttl, tti, timer) || !take_seed(self)) return -1;
    self->name = added(name);
    self->forks = the.forks;
    self->process = (long)getpid();
    self->load = added(load);
    self->write = added(write);
    self->remove = added(remove);
    self->reload = added(reload);
    self->reads = reads;
    self->writes = writes;
    /* A key's number says nothing of its stripe, which is chosen by its hash: each desk is a cache of one stripe. */
    jc_shape shape = {.stripes = 1, .history = (size_t)history, .read_through = reads, .write_through = writes,
                      .keeps_events = false, .out_size = sizeof(jc_out)};
    return open_stripes(self, (size_t)count, (size_t)capacity, &shape) ? 0 : -1;
}

/* What the collector asks. */

static int stripes_traverse(Stripes *self, visitproc visit, void *arg) {
    Py_VISIT(Py_TYPE(self));
    Py_VISIT(self->timer);
    Py_VISIT(self->life_of);
    Py_VISIT(self->load);
    Py_VISIT(self->write);
    Py_VISIT(self->remove);
    Py_VISIT(self->reload);
    Py_VISIT(self->spare);
    for (size_t i = 0; i < self->count; i++) {
        stripe *s = &self->stripes[i];
        Py_VISIT(s->waiters);
        for (size_t slot = 0; slot < s->slots; slot++) {
            if (s->nodes[slot] == NULL) continue;
            Py_VISIT(s->nodes[slot]->key);
            Py_VISIT(s->nodes[slot]->value);
            Py_VISIT(s->nodes[slot]->flight);
        }
    }
    return 0;
}

static int stripes_clear(Stripes *self) {
    node *all = NULL;
    for (size_t i = 0; i < self->count; i++) {
        stripe *s = &self->stripes[i];
        s->is_closed = true;
        Py_CLEAR(s->waiters);
        shut_if_idle(s, &all);
    }
    free_nodes(all);
    Py_CLEAR(self->spare);
    Py_CLEAR(self->timer);
    Py_CLEAR(self->life_of);
    Py_CLEAR(self->load);
    Py_CLEAR(self->write);
    Py_CLEAR(self->remove);
    Py_CLEAR(self->reload);
    return 0;
}

static void stripes_dealloc(PyObject *object) {
    Stripes *self = (Stripes *)object;
    PyTypeObject *kind = Py_TYPE(object);
    PyObject_GC_UnTrack(object);
    if (self->weak != NULL) PyObject_ClearWeakRefs(object);
    stripes_clear(self);
    for (size_t i = 0; i < self->count; i++) {
        stripe *s = &self->stripes[i];
        PyMem_Free(s->buckets);
        PyMem_Free(s->nodes);
        PyMem_Free(s->generations);
        PyMem_Free(s->free_slots);
        PyMem_Free(s->sessions);
    }
    PyMem_Free(self->stripes);
    Py_XDECREF(self->name);
    ((freefunc)PyType_GetSlot(kind, Py_tp_free))(object);
    Py_DECREF(kind);
}

/* Arguments of a call by place or by name. places: how many may come by place; needed: how many must be there. */
typedef struct signature { const char *text; const char *names[4]; int count, places, needed; } signature;

static int place_of(const signature *expected, PyObject *name) {
    for (int i = 0; i < expected->count; i++) {
        if (PyUnicode_CompareWithASCIIString(name, expected->names[i]) == 0) return i;
    }
    return -1;
}

static bool parse(const signature *expected, PyObject *const *given, Py_ssize_t count, PyObject *names, PyObject **to) {
    bool is_right = count <= expected->places;
    for (int i = 0; is_right && i < count; i++) to[i] = given[i];
    for (Py_ssize_t i = 0; is_right && names != NULL && i < PyTuple_Size(names); i++) {
        int place = place_of(expected, PyTuple_GetItem(names, i));
        is_right = place >= 0 && to[place] == NULL;
        if (is_right) to[place] = given[count + i];
    }
    for (int i = 0; is_right && i < expected->needed; i++) is_right = to[i] != NULL;
    if (!is_right) PyErr_Format(PyExc_TypeError, "the call is %s", expected->text);
    return is_right;
}

/* Reads. */

/* The value of a key; NULL with an exception. None: the store has none. */
static PyObject *get(Stripes *self, PyObject *key) {
    uint64_t hash;
    answer said;
    bool is_old;
    if (!hash_of(self, key, &hash)) return NULL;
    PyObject *value = hit(self, key, hash, &is_old);
    if (is_old && !have_reloaded(self, key)) Py_CLEAR(value);
    if (value != NULL || PyErr_Occurred()) return value;
    if (!whole_call(self, JC_OP_GET, key, hash, NULL, NULL, AS_THE_CACHE_SAYS, &said)) return NULL;
    return said.value != NULL ? said.value : added(Py_None);
}

static PyObject *stripes_get(Stripes *self, PyObject *const *given, Py_ssize_t count, PyObject *names) {
    static const signature expected = {"get(key, default=None)", {"key", "default"}, 2, 2, 1};
    if (count == 1 && names == NULL) return get(self, given[0]);
    PyObject *to[2] = {NULL, NULL};
    if (!parse(&expected, given, count, names, to)) return NULL;
    PyObject *value = get(self, to[0]);
    if (value != Py_None || to[1] == NULL) return value;
    Py_DECREF(value);
    return added(to[1]);
}

static PyObject *stripes_subscript(Stripes *self, PyObject *key) {
    PyObject *value = get(self, key);
    if (value != Py_None) return value;
    Py_DECREF(value);
    PyErr_SetObject(PyExc_KeyError, key);
    return NULL;
}

static PyObject *stripes_hit(Stripes *self, PyObject *key) {
    uint64_t hash;
    if (!hash_of(self, key, &hash)) return NULL;
    PyObject *value = hit(self, key, hash, NULL);
    return value != NULL || PyErr_Occurred() ? value : added(Py_None);
}

/* _look(key): as get, but nobody is asked and nothing is waited for. NotImplemented: nothing was done. */
static PyObject *stripes_look(Stripes *self, PyObject *key) {
    uint64_t hash;
    bool is_old;
    if (!hash_of(self, key, &hash)) return NULL;
    PyObject *value = hit(self, key, hash, &is_old);
    if (is_old && !have_reloaded(self, key)) Py_CLEAR(value);
    return value != NULL || PyErr_Occurred() ? value : added(Py_NotImplemented);
}

/* _reload(key): see reload. */
static PyObject *stripes_reload(Stripes *self, PyObject *key) {
    uint64_t hash;
    if (!hash_of(self, key, &hash) || !reload(self, key, hash)) return NULL;
    Py_RETURN_NONE;
}

static int stripes_contains(Stripes *self, PyObject *key) {
    uint64_t hash;
    bool is_cached;
    return hash_of(self, key, &hash) && contains(self, key, hash, &is_cached) ? is_cached : -1;
}

/* _get_or_load(key, function, arguments, words): see get_or_load. */
static PyObject *stripes_get_or_load(Stripes *self, PyObject *arguments) {
    uint64_t hash;
    answer said;
    source from = {NULL, NULL, NULL};
    PyObject *key;
    if (!PyArg_ParseTuple(arguments, "OOOO", &key, &from.function, &from.arguments, &from.words) || !hash_of(self, key, &hash)) return NULL;
    return get_or_load(self, key, hash, &from, &said) ? said.value : NULL;
}

/* Changes. */

static bool put(Stripes *self, PyObject *key, PyObject *value, int64_t life) {
    uint64_t hash;
    answer said;
    if (!is_value(value) || !hash_of(self, key, &hash) || !whole_call(self, JC_OP_PUT, key, hash, value, NULL, life, &said)) return false;
    Py_XDECREF(said.value);
    return true;
}

static PyObject *stripes_put(Stripes *self, PyObject *const *given, Py_ssize_t count, PyObject *names) {
    static const signature expected = {"put(key, value, *, ttl=None)", {"key", "value", "ttl"}, 3, 2, 2};
    PyObject *to[3] = {NULL, NULL, NULL};
    int64_t life;
    if (!parse(&expected, given, count, names, to) || !given_life(to[2], &life) || !put(self, to[0], to[1], life)) return NULL;
    Py_RETURN_NONE;
}

static int stripes_ass_subscript(Stripes *self, PyObject *key, PyObject *value) {
    uint64_t hash;
    answer said;
    if (value != NULL) return put(self, key, value, AS_THE_CACHE_SAYS) ? 0 : -1;
    if (!hash_of(self, key, &hash) || !whole_call(self, JC_OP_REMOVE, key, hash, NULL, NULL, AS_THE_CACHE_SAYS, &said)) return -1;
    Py_XDECREF(said.value);
    return 0;
}

static PyObject *stripes_invalidate(Stripes *self, PyObject *key) {
    uint64_t hash;
    node *n;
    leavings left = {.count = 0};
    if (!hash_of(self, key, &hash)) return NULL;
    stripe *s = stripe_of(self, hash);
    if (!find(s, key, hash, &n)) return NULL;
    if (n != NULL && !s->is_closed) {
        invalidate(self, s, n, &left);
        release(s, n, &left);
        drop_all(&left);
    }
    Py_RETURN_NONE;
}

/* Arguments of a call of any operation: _begin and _call. */
typedef struct operation { unsigned op; PyObject *key, *value, *old; uint64_t hash; int64_t life; } operation;

static bool parse_operation(Stripes *self, PyObject *arguments, operation *to) {
    PyObject *span = Py_None;
    to->value = to->old = Py_None;
    if (!PyArg_ParseTuple(arguments, "IO|OOO", &to->op, &to->key, &to->value, &to->old, &span) || !given_life(span, &to->life)) return false;
    to->value = none_as_null(to->value);
    to->old = none_as_null(to->old);
    return hash_of(self, to->key, &to->hash);
}

static PyObject *stripes_begin(Stripes *self, PyObject *arguments) {
    operation it;
    ended end;
    if (!parse_operation(self, arguments, &it)) return NULL;
    begin(self, it.op, it.key, it.hash, it.value, it.old, it.life, &end);
    if (!end.is_old || have_reloaded(self, it.key)) return begun(self, it.key, &end);
    Py_XDECREF(end.answer.value);
    return NULL;
}

static PyObject *stripes_call(Stripes *self, PyObject *arguments) {
    operation it;
    answer said;
    if (!parse_operation(self, arguments, &it)) return NULL;
    return whole_call(self, it.op, it.key, it.hash, it.value, it.old, it.life, &said) ? reply_tuple(&said) : NULL;
}

static PyObject *stripes_closed(Stripes *self, void *nothing) {
    (void)nothing;
    return PyBool_FromLong(self->count == 0 || self->stripes[0].is_closed);
}

static PyObject *stripes_suspended(Stripes *self, void *nothing) {
    (void)nothing;
    return PyBool_FromLong(self->count > 0 && self->stripes[0].is_suspended);
}

static PyObject *stripes_is_foreign(Stripes *self, void *nothing) {
    (void)nothing;
    return PyBool_FromLong(self->forks != the.forks);
}

static PyObject *stripes_reduce(Stripes *self, PyObject *nothing) {
    (void)self, (void)nothing;
    PyErr_SetString(PyExc_TypeError, "a cache is neither copied nor pickled: it has calls under way and what its loader and writer have open");
    return NULL;
}

/* The type. */

#define FAST(function) (PyCFunction)(void (*)(void))(function)

static PyMethodDef stripes_methods[] = {
    {"get", FAST(stripes_get), METH_FASTCALL | METH_KEYWORDS,
     "get($self, /, key, default=None)\n--\n\n"
     "The value of a key: the cached one, or what the loader finds, which is cached then; or the default (JCache: get).\n\n"
     "It waits while the loader runs. A get of a key that is being loaded waits for that load, and has its value or its LoaderError; one of\n"
     "a key that isn't cached and is being changed waits for the change. After a LoaderError the key is as it was, and free."},
    {"hit", (PyCFunction)stripes_hit, METH_O,
     "hit($self, key, /)\n--\n\n"
     "The value that is cached, or None. It counts as a use and as a hit. Nobody is asked, nothing is waited for, a miss isn't counted."},
    {"put", FAST(stripes_put), METH_FASTCALL | METH_KEYWORDS,
     "put($self, /, key, value, *, ttl=None)\n--\n\n"
     "Writes a value and caches it (JCache: put); ttl: its seconds to live, if they are others than the cache's.\n\n"
     "It waits for calls that have the key, and while the writer runs. After a WriterError the entry is as it was. If the writer was\n"
     "interrupted (by what isn't an Exception) nobody knows what the store has, and the key isn't cached."},
    {"_look", (PyCFunction)stripes_look, METH_O, "_look(key): what get finds at once, or NotImplemented."},
    {"_reload", (PyCFunction)stripes_reload, METH_O, "_reload(key): has the loader asked again, if no other call has the key."},
    {"_begin", (PyCFunction)stripes_begin, METH_VARARGS,
     "_begin(op, key, value=None, old=None, ttl=None): (reply, value), a Call, or a Blocked."},
    {"_call", (PyCFunction)stripes_call, METH_VARARGS,
     "_call(op, key, value=None, old=None, ttl=None): (reply, value) of a whole call."},
    {"_get_or_load", (PyCFunction)stripes_get_or_load, METH_VARARGS,
     "_get_or_load(key, function, arguments, words): a get whose loader is this function, for None of which NONE is cached."},
    {"keys", (PyCFunction)stripes_keys, METH_NOARGS,
     "keys($self, /)\n--\n\nThe keys that are cached, as a list, stripe by stripe. It isn't one moment of the whole cache if other threads change it."},
    {"_all_keys", (PyCFunction)stripes_all_keys, METH_NOARGS, "_all_keys(): keys(), and those of entries that nobody sees."},
    {"expire", (PyCFunction)stripes_expire, METH_NOARGS,
     "expire($self, /)\n--\n\nUncaches all that has expired, but for keys that a call has, and says how many. It waits for nobody."},
    {"stats", (PyCFunction)stripes_stats, METH_NOARGS,
     "stats($self, /)\n--\n\nHits, misses, puts, removals and evictions since the cache was made, as a dict (JCache: CacheStatisticsMXBean)."},
    {"invalidate", (PyCFunction)stripes_invalidate, METH_O,
     "invalidate($self, key, /)\n--\n\n"
     "Forgets a key, because the store has another value by now: the store isn't asked. It waits for nobody. If a call has reserved the key, its\n"
     "entry is dropped as that call ends, and calls that begin before wait for that end. So what begins after this has returned is answered\n"
     "nothing that was read before, by no load either. Of a closed cache it does nothing."},
    {"invalidate_all", (PyCFunction)stripes_invalidate_all, METH_NOARGS,
     "invalidate_all($self, /)\n--\n\nThe same as invalidate, of all keys."},
    {"suspend", (PyCFunction)stripes_suspend, METH_NOARGS,
     "suspend($self, /)\n--\n\n"
     "Forgets all keys, as invalidate_all does, and keeps nothing until resume(): each call asks the store, or joins a load that began since."},
    {"resume", (PyCFunction)stripes_resume, METH_NOARGS,
     "resume($self, /)\n--\n\nForgets all keys once more, and keeps what is read and written from now on."},
    {"close", (PyCFunction)stripes_close, METH_NOARGS,
     "close($self, /)\n--\n\n"
     "Later calls, and those that wait to begin, raise ClosedError; calls under way end as they would (JCache: close). It waits for nobody,\n"
     "and may be called again."},
    {"_agrees", (PyCFunction)stripes_agrees, METH_NOARGS, "For tests."},
    {"__reduce__", (PyCFunction)stripes_reduce, METH_NOARGS, "A cache is neither copied nor pickled."},
    {NULL, NULL, 0, NULL},
};
static PyMemberDef stripes_members[] = {
    {"name", T_OBJECT, offsetof(Stripes, name), READONLY, "What errors call it."},
    {"_reads", T_BOOL, offsetof(Stripes, reads), READONLY, NULL},
    {"_writes", T_BOOL, offsetof(Stripes, writes), READONLY, NULL},
    {"__weaklistoffset__", T_PYSSIZET, offsetof(Stripes, weak), READONLY, NULL},
    {NULL, 0, 0, 0, NULL},
};
static PyGetSetDef stripes_getset[] = {
    {"closed", (getter)stripes_closed, NULL, "Whether the cache was closed.", NULL},
    {"_is_foreign", (getter)stripes_is_foreign, NULL, "Whether it is of another process.", NULL},
    {"suspended", (getter)stripes_suspended, NULL, "Whether it keeps nothing: see suspend.", NULL},
    {NULL, NULL, NULL, NULL, NULL},
};
static PyType_Slot stripes_slots[] = {
    {Py_tp_doc, "The stripes of a cache."},
    {Py_tp_init, stripes_init}, {Py_tp_methods, stripes_methods}, {Py_tp_members, stripes_members}, {Py_tp_getset, stripes_getset},
    {Py_tp_traverse, stripes_traverse}, {Py_tp_clear, stripes_clear}, {Py_tp_dealloc, stripes_dealloc},
    {Py_mp_subscript, stripes_subscript}, {Py_mp_ass_subscript, stripes_ass_subscript}, {Py_mp_length, stripes_length},
    {Py_sq_contains, stripes_contains}, {0, NULL},
};
PyType_Spec stripes_spec = {"cadwrelch._core.Stripes", sizeof(Stripes), 0, Py_TPFLAGS_DEFAULT | Py_TPFLAGS_BASETYPE | Py_TPFLAGS_HAVE_GC, stripes_slots};
