/* Whole calls of a thread: phases, and the loader or the writer between them. Who has to wait does it in Python (waiting.py). */
#include "host.h"

/* How long a value lives that comes in now, if the cache asks a callable for it. False: that has raised. */
bool life_for(Stripes *self, PyObject *key, PyObject *value, int64_t *life) {
    if (self->life_of == NULL) return true;
    PyObject *span = PyObject_CallFunctionObjArgs(self->life_of, key, value, NULL);
    bool is_right = span != NULL && as_life(span, life);
    Py_XDECREF(span);
    return is_right;
}

/* Notes that what runs from now on is inside this call. It returns what let_go takes. */
static PyObject *hold(Flight *flight) {
    PyObject *held = PyObject_CallNoArgs(the.held_get), *own = NULL, *all = NULL, *token = NULL;
    if (held != NULL) own = PyTuple_Pack(1, flight);
    if (own != NULL) all = PyTuple_Size(held) == 0 ? added(own) : PySequence_Concat(held, own);
    if (all != NULL) token = PyObject_CallFunctionObjArgs(the.held_set, all, NULL);
    Py_XDECREF(all);
    Py_XDECREF(own);
    Py_XDECREF(held);
    return token;
}

/* What was raised stays so. */
static void let_go(PyObject *token) {
    PyObject *kind, *value, *trace;
    PyErr_Fetch(&kind, &value, &trace);
    PyObject *said = PyObject_CallFunctionObjArgs(the.held_reset, token, NULL);
    if (said == NULL) PyErr_WriteUnraisable(the.held_reset);
    Py_XDECREF(said);
    Py_DECREF(token);
    PyErr_Restore(kind, value, trace);
}

/* Takes what was raised, as an object with its traceback. */
static PyObject *caught(void) {
    PyObject *kind, *value, *trace;
    PyErr_Fetch(&kind, &value, &trace);
    PyErr_NormalizeException(&kind, &value, &trace);
    if (trace != NULL) PyException_SetTraceback(value, trace);
    Py_XDECREF(kind);
    Py_XDECREF(trace);
    return value;
}

static void raise(PyObject *error) { PyErr_SetObject((PyObject *)Py_TYPE(error), error); }

/* Whether it is a failure of what raised it, of which others are told. If not it is an interrupt, or the end of the program. */
static bool is_failure(PyObject *error) {
    if (!PyErr_GivenExceptionMatches(error, PyExc_Exception)) return false;
    PyObject *said = PyObject_CallFunctionObjArgs(the.is_interrupt, error, NULL);
    bool is_interrupt = said == NULL || said == Py_True;
    if (said == NULL) PyErr_Clear();
    Py_XDECREF(said);
    return !is_interrupt;
}

/* Raises the error of a key that this function makes, from its cause. */
static void raise_from(PyObject *failed, PyObject *key, const Stripes *self, PyObject *cause) {
    PyObject *error = PyObject_CallFunctionObjArgs(failed, key, self->name, NULL);
    if (error == NULL) return;
    PyException_SetCause(error, added(cause));
    raise(error);
    Py_DECREF(error);
}

/* Loads. */

static PyObject *ask_loader(Stripes *self, PyObject *key, const source *from) {
    if (from == NULL) return PyObject_CallFunctionObjArgs(self->load, key, NULL);
    PyObject *found = PyObject_Call(from->function, from->arguments, from->words);
    if (found != Py_None) return found;
    Py_DECREF(found);
    return added(the.none);
}

/* The loader's answer, and how long it lives. NULL: an exception. */
static PyObject *loaded(Stripes *self, Call *call, const source *from, int64_t *life) {
    PyObject *value = ask_loader(self, call->key, from);
    if (value != NULL && value != Py_None && !life_for(self, call->key, value, life)) Py_CLEAR(value);
    return value;
}

/* Raises why a load failed. Whose results are cached gets the function's own exception. */
static bool load_failed(const Call *call, PyObject *error, const source *from) {
    if (from != NULL) raise(error);
    else raise_from(the.loader_failed, call->key, call->cache, error);
    return false;
}

static bool load(Stripes *self, Call *call, const source *from, PyObject *token, answer *to) {
    int64_t life = AS_THE_CACHE_SAYS;
    PyObject *value = loaded(self, call, from, &life);
    let_go(token);
    if (value != NULL) {
        bool is_done = commit_load(call, none_as_null(value), NULL, life, to);
        if (is_done && from != NULL && to->value == NULL) to->value = added(value);
        Py_DECREF(value);
        return is_done;
    }
    PyObject *error = caught();
    if (commit_load(call, NULL, error, life, to)) {
        if (is_failure(error)) load_failed(call, error, from);
        else raise(error);
    }
    Py_DECREF(error);
    return false;
}

/* Waits for a load that was joined. False with no exception: it is to begin anew. */
static bool join(Call *call, const source *from, answer *to) {
    bool is_done;
    PyObject *said = PyObject_CallFunctionObjArgs(the.until_over, call, NULL);
    if (said == NULL) return false;
    Py_DECREF(said);
    if (!pick_up(call, &is_done, to) || !is_done) return false;
    if (to->reply != JC_REPLY_LOADER_FAILED) return true;
    PyObject *error = call->flight->error;
    if (error == NULL) return PyErr_NoMemory() != NULL;
    return (from == NULL || is_failure(error)) && load_failed(call, error, from);
}

/* Writes. */

static PyObject *ask_writer(Stripes *self, Call *call) {
    if (call->next == JC_ASK_WRITE) return PyObject_CallFunctionObjArgs(self->write, call->key, call->value, NULL);
    return PyObject_CallFunctionObjArgs(self->remove, call->key, NULL);
}

static bool write_out(Stripes *self, Call *call, PyObject *token, answer *to) {
    PyObject *said = ask_writer(self, call);
    let_go(token);
    if (said != NULL) {
        bool is_done = commit_write(call, JC_ANSWER_WRITTEN, to);
        Py_DECREF(said);
        return is_done;
    }
    /* An interrupt may have come after the store was changed. */
    PyObject *error = caught();
    if (commit_write(call, is_failure(error) ? JC_ANSWER_FAILED : UNKNOWN, to)) {
        Py_CLEAR(to->value);
        if (is_failure(error)) raise_from(the.writer_failed, call->key, self, error);
        else raise(error);
    }
    Py_DECREF(error);
    return false;
}

/* Whole calls. */

static bool wait_until_free(Stripes *self, PyObject *key, ended *end) {
    PyObject *blocked = begun(self, key, end);
    if (blocked == NULL) return false;
    PyObject *said = PyObject_CallFunctionObjArgs(the.until_free, blocked, NULL);
    Py_DECREF(blocked);
    Py_XDECREF(said);
    return said != NULL;
}

/* Withdraws a call that could ask nobody, and keeps what was raised. */
static void give_up(Call *call) {
    PyObject *kind, *value, *trace;
    PyErr_Fetch(&kind, &value, &trace);
    if (!withdraw(call)) PyErr_WriteUnraisable((PyObject *)call);
    PyErr_Restore(kind, value, trace);
}

/* Takes a call that has something out to its end. False with no exception: it is to begin anew. */
static bool finish(Stripes *self, Call *call, const source *from, answer *to) {
    bool is_done = false;
    if (call->next == JC_NEXT_JOINED) {
        is_done = join(call, from, to);
    } else {
        PyObject *token = hold(call->flight);
        if (token == NULL) give_up(call);
        else is_done = call->next == JC_ASK_LOAD ? load(self, call, from, token, to) : write_out(self, call, token, to);
    }
    recycle(call);
    return is_done;
}

/* A whole call of an operation that runs no processor. A cache that asks how long values live is asked first. */
bool whole_call(Stripes *self, uint32_t op, PyObject *key, uint64_t hash, PyObject *value, PyObject *old, int64_t life, answer *to) {
    ended end;
    if (value != NULL && life == AS_THE_CACHE_SAYS && !life_for(self, key, value, &life)) return false;
    for (;;) {
        begin(self, op, key, hash, value, old, life, &end);
        switch (end.kind) {
        case RAISED: return false;
        case DONE:
            *to = end.answer;
            if (!end.is_old || have_reloaded(self, key)) return true;
            Py_CLEAR(to->value);
            return false;
        case OUT:
            if (finish(self, end.call, NULL, to)) return true;
            if (PyErr_Occurred()) return false;
            break;
        case BLOCKED:
            if (!wait_until_free(self, key, &end)) return false;
        }
    }
}

/* Reloads a key. It waits for nobody: if another call has the key, or there is no room, nothing is done. */
bool reload(Stripes *self, PyObject *key, uint64_t hash) {
    ended end;
    answer said = {0, NULL};
    begin(self, JC_OP_RELOAD, key, hash, NULL, NULL, AS_THE_CACHE_SAYS, &end);
    if (end.kind == OUT && !finish(self, end.call, NULL, &said) && PyErr_Occurred()) return false;
    if (end.kind == BLOCKED) Py_XDECREF(end.flight);
    Py_XDECREF(said.value);
    return end.kind != RAISED;
}

/* Of a load of another call that this one has waited for: whether it has an answer for this one, too. */
static bool shared(Flight *flight, answer *to, bool *is_right) {
    if (!flight->is_over || flight->is_overtaken) return false;
    *is_right = flight->value != NULL;
    if (*is_right) *to = (answer){.reply = JC_REPLY_VALUE, .value = added(flight->value)};
    else if (flight->error == NULL || !is_failure(flight->error)) return false;
    else raise(flight->error);
    return true;
}

/* The value of a key: the cached one, or what this function returns, whose call is the load of the key. Without read-through a get asks
 * nobody: a loadAll of the key follows it, which waits for another load instead of joining it. */
bool get_or_load(Stripes *self, PyObject *key, uint64_t hash, const source *from, answer *to) {
    uint32_t op = JC_OP_GET;
    ended end;
    for (;;) {
        begin(self, op, key, hash, NULL, NULL, AS_THE_CACHE_SAYS, &end);
        switch (end.kind) {
        case RAISED: return false;
        case DONE:
            *to = end.answer;
            if (to->value != NULL) return true;
            op = op == JC_OP_GET ? JC_OP_LOAD : JC_OP_GET;
            break;
        case OUT:
            if (finish(self, end.call, from, to)) return true;
            if (PyErr_Occurred()) return false;
            break;
        case BLOCKED: {
            PyObject *flight = added((PyObject *)end.flight);
            bool is_right = wait_until_free(self, key, &end), is_over = !is_right;
            if (is_right && flight != NULL) is_over = shared((Flight *)flight, to, &is_right);
            Py_XDECREF(flight);
            if (is_over) return is_right;
        }
        }
    }
}
