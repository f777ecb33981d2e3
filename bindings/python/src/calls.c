/* What a call has out, as objects of Python: Call, Flight, Blocked. */
#include "host.h"

static void object_dealloc(PyObject *object, inquiry clear) {
    PyTypeObject *kind = Py_TYPE(object);
    PyObject_GC_UnTrack(object);
    clear(object);
    ((freefunc)PyType_GetSlot(kind, Py_tp_free))(object);
    Py_DECREF(kind);
}

/* What a step replies. Takes the value. */
PyObject *reply_tuple(answer *said) {
    PyObject *made = Py_BuildValue("IO", (unsigned)said->reply, said->value == NULL ? Py_None : said->value);
    Py_CLEAR(said->value);
    return made;
}

/* How a first phase ended, as an object: (reply, value), a Call or a Blocked. */
PyObject *begun(Stripes *self, PyObject *key, ended *end) {
    switch (end->kind) {
    case RAISED: return NULL;
    case DONE: return reply_tuple(&end->answer);
    case OUT: return (PyObject *)end->call;
    default: {
        Blocked *made = (Blocked *)PyType_GenericAlloc(the.blocked, 0);
        if (made == NULL) { Py_XDECREF(end->flight); return NULL; }
        made->cache = (Stripes *)added((PyObject *)self);
        made->at = end->at;
        made->key = added(key);
        made->flight = end->flight;
        made->changes = end->changes;
        return (PyObject *)made;
    }
    }
}

/* Spares: the objects that a step may have to hand out. */

bool has_spare(Stripes *self) {
    if (self->spare != NULL) return true;
    Call *call = (Call *)PyType_GenericAlloc(the.call, 0);
    if (call == NULL) return false;
    call->flight = (Flight *)PyType_GenericAlloc(the.flight, 0);
    if (call->flight == NULL) { Py_DECREF(call); return false; }
    if (self->spare != NULL) Py_DECREF(call);   /* a finalizer has made one meanwhile */
    else self->spare = call;
    return true;
}

static void empty_flight(Flight *flight) {
    Py_CLEAR(flight->value);
    Py_CLEAR(flight->error);
    Py_CLEAR(flight->waiters);
    Py_CLEAR(flight->waits_for);
}

static void empty_call(Call *call) {
    Py_CLEAR(call->key);
    Py_CLEAR(call->value);
    Py_CLEAR(call->cached);
}

/* Takes a call that is over. If nobody else has it, it is the next spare. */
void recycle(Call *call) {
    Flight *flight = call->flight;
    Stripes *cache = call->cache;
    if (Py_REFCNT(call) > 1 || Py_REFCNT(flight) > 1 || call->seat.node != NULL) { Py_DECREF(call); return; }
    empty_call(call);
    empty_flight(flight);
    if (cache->spare != NULL || Py_REFCNT(call) > 1 || Py_REFCNT(flight) > 1) { Py_DECREF(call); return; }
    flight->number = flight->version = 0;
    flight->is_over = flight->is_overtaken = false;
    cache->spare = call;
    call->cache = NULL;
    Py_DECREF(cache);
}

/* Calls. */

static PyObject *call_commit_load(Call *call, PyObject *arguments) {
    PyObject *value, *error = Py_None, *span = Py_None;
    int64_t life;
    answer said;
    if (!PyArg_ParseTuple(arguments, "O|OO", &value, &error, &span) || !given_life(span, &life) ||
        !commit_load(call, none_as_null(value), none_as_null(error), life, &said)) return NULL;
    return reply_tuple(&said);
}

static PyObject *call_commit_write(Call *call, PyObject *arguments) {
    unsigned outcome;
    answer said;
    if (!PyArg_ParseTuple(arguments, "I", &outcome) || !commit_write(call, outcome, &said)) return NULL;
    return reply_tuple(&said);
}

static void give(jc_value *to, uint64_t number) { to->len = EIGHT; memcpy(to->bytes, &number, EIGHT); }

static PyObject *call_commit_process(Call *call, PyObject *arguments) {
    unsigned load, effect, write;
    PyObject *loaded, *value, *brought = NULL, *span = Py_None;
    int is_used = 0;
    int64_t life;
    answer said;
    if (!PyArg_ParseTuple(arguments, "IOIOI|Op", &load, &loaded, &effect, &value, &write, &span, &is_used) || !given_life(span, &life) ||
        !is_out(call, JC_ASK_PROCESS, JC_ASK_PROCESS)) return NULL;
    stripe *s = call->seat.at;
    uint64_t version = 0;
    jc_processed done;
    memset(&done, 0, sizeof done);
    done.load = load, done.effect = effect, done.write = write == UNKNOWN ? JC_ANSWER_FAILED : write;
    done.load_code = done.code = done.write_code = 1;
    if (load == JC_ANSWER_FOUND) { brought = loaded; give(&done.loaded, version = ++s->last_version); }
    if (effect == JC_EFFECT_SET) { brought = value; give(&done.set, version = ++s->last_version); }
    return commit_process(call, &done, brought, version, life, write == UNKNOWN, is_used, &said) ? reply_tuple(&said) : NULL;
}

static PyObject *call_withdraw(Call *call, PyObject *nothing) {
    (void)nothing;
    if (!withdraw(call)) return NULL;
    Py_RETURN_NONE;
}

static PyObject *call_pick_up(Call *call, PyObject *nothing) {
    (void)nothing;
    bool is_done;
    answer said;
    if (!pick_up(call, &is_done, &said)) return NULL;
    if (!is_done) Py_RETURN_NONE;
    return reply_tuple(&said);
}

static PyObject *call_abandon(Call *call, PyObject *nothing) {
    (void)nothing;
    if (!is_out(call, JC_NEXT_JOINED, JC_NEXT_JOINED)) return NULL;
    if (!abandon(call)) return PyErr_NoMemory();
    Py_RETURN_NONE;
}

/* Ends a call that is forgotten while it has something out: its host has not ended it. Nothing here takes a reference of the call. */
static void call_finalize(Call *call) {
    if (call->seat.node == NULL || call->cache == NULL) return;
    PyObject *kind, *value, *trace;
    PyErr_Fetch(&kind, &value, &trace);
    if (call->next == JC_NEXT_JOINED) {
        abandon(call);
    } else {
        /* No Exception: those that have joined begin anew. */
        if (call->next == JC_ASK_LOAD && call->flight->error == NULL)
            call->flight->error = PyObject_CallFunction(PyExc_GeneratorExit, "s", "the call that loads was forgotten");
        commit_forgotten(call);
    }
    if (PyErr_Occurred()) PyErr_WriteUnraisable(NULL);
    PyErr_Restore(kind, value, trace);
}

static PyObject *call_forget(Call *call, PyObject *nothing) {
    (void)nothing;
    call_finalize(call);
    Py_RETURN_NONE;
}

static PyObject *call_is_over(Call *call, void *nothing) {
    (void)nothing;
    return PyBool_FromLong(call->seat.node == NULL);
}

static int call_traverse(Call *call, visitproc visit, void *arg) {
    Py_VISIT(Py_TYPE(call));
    Py_VISIT(call->cache);
    Py_VISIT(call->flight);
    Py_VISIT(call->key);
    Py_VISIT(call->value);
    Py_VISIT(call->cached);
    return 0;
}

static int call_clear(Call *call) {
    Py_CLEAR(call->cache);
    Py_CLEAR(call->flight);
    empty_call(call);
    return 0;
}

static void call_dealloc(PyObject *call) {
    PyObject_GC_UnTrack(call);
    call_finalize((Call *)call);
    object_dealloc(call, (inquiry)call_clear);
}

static PyMethodDef call_methods[] = {
    {"commit_load", (PyCFunction)call_commit_load, METH_VARARGS,
     "commit_load(value, error=None, ttl=None): the last phase of a call whose loader was asked."},
    {"commit_write", (PyCFunction)call_commit_write, METH_VARARGS,
     "commit_write(outcome): the last phase of a call whose writer was asked. WRITTEN, FAILED, or UNKNOWN: then the key is cleared."},
    {"commit_process", (PyCFunction)call_commit_process, METH_VARARGS,
     "commit_process(load, loaded, effect, value, write, ttl=None, is_used=False): the last phase of a call whose processor ran, and has looked at the value."},
    {"withdraw", (PyCFunction)call_withdraw, METH_NOARGS, "Gives up a call that has asked nobody."},
    {"pick_up", (PyCFunction)call_pick_up, METH_NOARGS, "Of a load that was joined and is over: what it replies, or None to begin anew."},
    {"abandon", (PyCFunction)call_abandon, METH_NOARGS, "Nobody waits for a load that was joined."},
    {"forget", (PyCFunction)call_forget, METH_NOARGS,
     "Ends a call that is still out, of which nobody knows what it has asked: a load has failed, a write may have been made."},
    {NULL, NULL, 0, NULL},
};
static PyMemberDef call_members[] = {
    {"cache", T_OBJECT, offsetof(Call, cache), READONLY, "The stripes at which it is out."},
    {"next", T_UINT, offsetof(Call, next), READONLY, "What its host does next."},
    {"key", T_OBJECT, offsetof(Call, key), READONLY, "The key, as the cache has it."},
    {"value", T_OBJECT, offsetof(Call, value), READONLY, "What is to be written."},
    {"cached", T_OBJECT, offsetof(Call, cached), READONLY, "What was cached when it began, or None."},
    {"may_load", T_BOOL, offsetof(Call, may_load), READONLY, "Whether a processor may ask the loader."},
    {"flight", T_OBJECT, offsetof(Call, flight), READONLY, "Its reservation, or that of the load that it has joined."},
    {NULL, 0, 0, 0, NULL},
};
static PyGetSetDef call_getset[] = {
    {"is_over", (getter)call_is_over, NULL, "Whether it has nothing out any more.", NULL},
    {NULL, NULL, NULL, NULL, NULL},
};
static PyType_Slot call_slots[] = {
    {Py_tp_doc, "A call that has something out: a reservation, or a load that it has joined."},
    {Py_tp_methods, call_methods}, {Py_tp_members, call_members}, {Py_tp_getset, call_getset}, {Py_tp_traverse, call_traverse}, {Py_tp_clear, call_clear},
    {Py_tp_finalize, call_finalize}, {Py_tp_dealloc, call_dealloc}, {0, NULL},
};
PyType_Spec call_spec = {"cadwrelch._core.Call", sizeof(Call), 0,
                         Py_TPFLAGS_DEFAULT | Py_TPFLAGS_HAVE_GC | Py_TPFLAGS_DISALLOW_INSTANTIATION, call_slots};

/* Flights. */

static PyObject *add_to(PyObject **waiters, PyObject *waiter) {
    if (*waiters == NULL) {
        PyObject *made = PyList_New(0);
        if (made == NULL) return NULL;
        if (*waiters == NULL) *waiters = made; else Py_DECREF(made);
    }
    if (PyList_Append(*waiters, waiter) < 0) return NULL;
    Py_RETURN_TRUE;
}

static PyObject *flight_add_waiter(Flight *flight, PyObject *waiter) {
    if (flight->is_over) Py_RETURN_FALSE;
    PyObject *said = add_to(&flight->waiters, waiter);
    if (said == NULL || !flight->is_over) return said;
    Py_DECREF(said);
    Py_RETURN_FALSE;
}

static int flight_traverse(Flight *flight, visitproc visit, void *arg) {
    Py_VISIT(Py_TYPE(flight));
    Py_VISIT(flight->value);
    Py_VISIT(flight->error);
    Py_VISIT(flight->waiters);
    Py_VISIT(flight->waits_for);
    return 0;
}

static int flight_clear(Flight *flight) {
    empty_flight(flight);
    return 0;
}

static void flight_dealloc(PyObject *flight) { object_dealloc(flight, (inquiry)flight_clear); }

static PyMethodDef flight_methods[] = {
    {"add_waiter", (PyCFunction)flight_add_waiter, METH_O, "Has this called once when the call is over, or its cache is closed. False: it is over."},
    {NULL, NULL, 0, NULL},
};
static PyMemberDef flight_members[] = {
    {"is_over", T_BOOL, offsetof(Flight, is_over), READONLY, "Whether it has ended."},
    {"is_overtaken", T_BOOL, offsetof(Flight, is_overtaken), READONLY, "Whether its key was invalidated meanwhile."},
    {"value", T_OBJECT, offsetof(Flight, value), READONLY, "What was loaded, or None."},
    {"error", T_OBJECT, offsetof(Flight, error), READONLY, "Why the load failed, or None."},
    {"waits_for", T_OBJECT, offsetof(Flight, waits_for), 0, "The flight that its owner waits for, or None."},
    {NULL, 0, 0, 0, NULL},
};
static PyType_Slot flight_slots[] = {
    {Py_tp_doc, "A call that has reserved a key, as others see it."},
    {Py_tp_methods, flight_methods}, {Py_tp_members, flight_members}, {Py_tp_traverse, flight_traverse}, {Py_tp_clear, flight_clear},
    {Py_tp_dealloc, flight_dealloc}, {0, NULL},
};
PyType_Spec flight_spec = {"cadwrelch._core.Flight", sizeof(Flight), 0,
                           Py_TPFLAGS_DEFAULT | Py_TPFLAGS_HAVE_GC | Py_TPFLAGS_DISALLOW_INSTANTIATION, flight_slots};

/* What a refused call waits for. */

static PyObject *blocked_add_waiter(Blocked *blocked, PyObject *waiter) {
    stripe *s = blocked->at;
    if (s->is_closed) Py_RETURN_FALSE;
    if (blocked->flight != NULL) return flight_add_waiter(blocked->flight, waiter);
    if (s->changes != blocked->changes) Py_RETURN_FALSE;
    PyObject *said = add_to(&s->waiters, waiter);
    if (said == NULL || (s->changes == blocked->changes && !s->is_closed)) return said;
    Py_DECREF(said);
    Py_RETURN_FALSE;
}

static int blocked_traverse(Blocked *blocked, visitproc visit, void *arg) {
    Py_VISIT(Py_TYPE(blocked));
    Py_VISIT(blocked->cache);
    Py_VISIT(blocked->key);
    Py_VISIT(blocked->flight);
    return 0;
}

static int blocked_clear(Blocked *blocked) {
    Py_CLEAR(blocked->cache);
    Py_CLEAR(blocked->key);
    Py_CLEAR(blocked->flight);
    return 0;
}

static void blocked_dealloc(PyObject *blocked) { object_dealloc(blocked, (inquiry)blocked_clear); }

static PyMethodDef blocked_methods[] = {
    {"add_waiter", (PyCFunction)blocked_add_waiter, METH_O, "Has this called once when it may be tried again. False: it may be now."},
    {NULL, NULL, 0, NULL},
};
static PyMemberDef blocked_members[] = {
    {"cache", T_OBJECT, offsetof(Blocked, cache), READONLY, "The stripes that have refused it."},
    {"key", T_OBJECT, offsetof(Blocked, key), READONLY, "The key at which it was refused."},
    {"flight", T_OBJECT, offsetof(Blocked, flight), READONLY, "Who has the key, or None: the stripe has no room."},
    {NULL, 0, 0, 0, NULL},
};
static PyType_Slot blocked_slots[] = {
    {Py_tp_doc, "A call that was refused, with nothing done."},
    {Py_tp_methods, blocked_methods}, {Py_tp_members, blocked_members}, {Py_tp_traverse, blocked_traverse}, {Py_tp_clear, blocked_clear},
    {Py_tp_dealloc, blocked_dealloc}, {0, NULL},
};
PyType_Spec blocked_spec = {"cadwrelch._core.Blocked", sizeof(Blocked), 0,
                            Py_TPFLAGS_DEFAULT | Py_TPFLAGS_HAVE_GC | Py_TPFLAGS_DISALLOW_INSTANTIATION, blocked_slots};
