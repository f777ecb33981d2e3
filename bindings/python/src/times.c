/* The clock of a cache, and how long what is cached lives. */
#include "host.h"
#include <time.h>

bool read_clock(Stripes *self, int64_t *now) {
    *now = 0;
    if (!self->is_timed) return true;
    if (self->timer == NULL) {
        struct timespec time;
        clock_gettime(CLOCK_MONOTONIC, &time);
        *now = time.tv_sec * INT64_C(1000000000) + time.tv_nsec;
        return true;
    }
    PyObject *said = PyObject_CallNoArgs(self->timer);
    if (said == NULL) return false;
    double seconds = PyFloat_AsDouble(said);
    Py_DECREF(said);
    if (seconds == -1.0 && PyErr_Occurred()) return false;
    if (!(seconds > -4e9 && seconds < 4e9)) { PyErr_SetString(PyExc_ValueError, "the timer says no seconds"); return false; }
    *now = (int64_t)(seconds * 1e9);
    return true;
}

/* Seconds as nanoseconds; None: for ever. */
bool as_life(PyObject *seconds, int64_t *life) {
    *life = ETERNAL;
    if (seconds == NULL || seconds == Py_None) return true;
    double span = PyFloat_AsDouble(seconds);
    if (span == -1.0 && PyErr_Occurred()) return false;
    if (!(span >= 0)) { PyErr_Format(PyExc_ValueError, "a time to live is %R: it has to be 0 or more seconds", seconds); return false; }
    if (span < 9e9) *life = (int64_t)(span * 1e9);
    return true;
}

/* A given life of an argument: None says that it is the cache's. */
bool given_life(PyObject *seconds, int64_t *life) {
    *life = AS_THE_CACHE_SAYS;
    return seconds == NULL || seconds == Py_None || as_life(seconds, life);
}

static int64_t later(int64_t now, int64_t span) { return span == ETERNAL || (now > 0 && span >= ETERNAL - now) ? ETERNAL : now + span; }

void start_life(const Stripes *self, node *n, int64_t life, int64_t now) {
    if (is_absent(n)) life = self->absent_for;
    else if (life == AS_THE_CACHE_SAYS) life = self->life;
    n->dies = later(now, life);
    n->used = now;
    n->due = self->refresh_after == 0 || is_absent(n) ? ETERNAL : later(now, self->refresh_after);
}

/* Whether an entry that a get has found is old. If its reload comes to nothing, the next one is due as late as if it hadn't. */
bool claim_reload(const Stripes *self, node *n, int64_t now) {
    if (self->refresh_after == 0 || now < n->due) return false;
    n->due = later(now, self->refresh_after);
    return true;
}

/* Has an old entry reloaded, later and by others. False: an exception, of a signal's handler. */
bool have_reloaded(Stripes *self, PyObject *key) {
    PyObject *said = PyObject_CallFunctionObjArgs(self->reload, key, NULL);
    Py_XDECREF(said);
    return said != NULL;
}
