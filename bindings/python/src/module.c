/* The module. */
#include "host.h"
#include <stdlib.h>

struct shared the;

static PyTypeObject *add_type(PyObject *module, const char *name, PyTypeObject **type, PyType_Spec *spec) {
    if (*type == NULL) *type = (PyTypeObject *)PyType_FromSpec(spec);
    if (*type == NULL || PyModule_AddObjectRef(module, name, (PyObject *)*type) < 0) return NULL;
    return *type;
}

static bool add_types(PyObject *module) {
    return add_type(module, "Stripes", &the.stripes, &stripes_spec) && add_type(module, "Call", &the.call, &call_spec) &&
           add_type(module, "Flight", &the.flight, &flight_spec) && add_type(module, "Blocked", &the.blocked, &blocked_spec);
}

static const struct { const char *name; long value; } constants[] = {
    {"GET", JC_OP_GET}, {"CONTAINS_KEY", JC_OP_CONTAINS_KEY}, {"PUT", JC_OP_PUT}, {"GET_AND_PUT", JC_OP_GET_AND_PUT}, {"PUT_IF_ABSENT", JC_OP_PUT_IF_ABSENT},
    {"REMOVE", JC_OP_REMOVE}, {"REMOVE_IF", JC_OP_REMOVE_IF}, {"GET_AND_REMOVE", JC_OP_GET_AND_REMOVE}, {"REPLACE", JC_OP_REPLACE},
    {"REPLACE_IF", JC_OP_REPLACE_IF}, {"GET_AND_REPLACE", JC_OP_GET_AND_REPLACE}, {"CLEAR_KEY", JC_OP_CLEAR_KEY}, {"LOAD", JC_OP_LOAD},
    {"RELOAD", JC_OP_RELOAD}, {"INVOKE", JC_OP_INVOKE}, {"ASK_LOAD", JC_ASK_LOAD}, {"ASK_WRITE", JC_ASK_WRITE},
    {"ASK_DELETE", JC_ASK_DELETE}, {"ASK_PROCESS", JC_ASK_PROCESS}, {"JOINED", JC_NEXT_JOINED}, {"YES", JC_REPLY_YES},
    {"LOADER_FAILED", JC_REPLY_LOADER_FAILED}, {"NOT_ASKED", JC_ANSWER_NOT_ASKED}, {"FOUND", JC_ANSWER_FOUND}, {"WRITTEN", JC_ANSWER_WRITTEN}, {"NOTHING", JC_ANSWER_NOTHING},
    {"FAILED", JC_ANSWER_FAILED}, {"UNKNOWN", UNKNOWN}, {"KEEP", JC_EFFECT_KEEP}, {"SET", JC_EFFECT_SET}, {"EFFECT_REMOVE", JC_EFFECT_REMOVE},
    {"EFFECT_FAILED", JC_EFFECT_FAILED}, {"STRIPES_MAX", STRIPES_MAX}, {"CAPACITY_MAX", JC_CAPACITY_MAX}, {"HISTORY_MIN", JC_HISTORY_MIN}, {"HISTORY_MAX", JC_HISTORY_MAX}, {"VERSION", JC_VERSION},
};

static bool add_constants(PyObject *module) {
    for (size_t i = 0; i < sizeof constants / sizeof constants[0]; i++) {
        if (PyModule_AddIntConstant(module, constants[i].name, constants[i].value) < 0) return false;
    }
    return true;
}

/* An attribute of a module of the package, by dots. A new reference. */
static PyObject *taken_from(const char *module, const char *first, const char *second) {
    PyObject *object = PyImport_ImportModule(module), *found = object == NULL ? NULL : PyObject_GetAttrString(object, first);
    Py_XDECREF(object);
    if (second == NULL || found == NULL) return found;
    object = found;
    found = PyObject_GetAttrString(object, second);
    Py_DECREF(object);
    return found;
}

static bool take_names(void) {
    static const struct { PyObject **at; const char *module, *first, *second; } names[] = {
        {&the.closed_error, "cadwrelch.errors", "ClosedError", NULL},
        {&the.forked, "cadwrelch.errors", "forked", NULL},
        {&the.is_interrupt, "cadwrelch.errors", "is_interrupt", NULL},
        {&the.loader_failed, "cadwrelch.errors", "loader_failed", NULL},
        {&the.writer_failed, "cadwrelch.errors", "writer_failed", NULL},
        {&the.none, "cadwrelch._none", "NONE", NULL},
        {&the.until_free, "cadwrelch.waiting", "until_free", NULL},
        {&the.until_over, "cadwrelch.waiting", "until_over", NULL},
        {&the.held_get, "cadwrelch.waiting", "HELD", "get"},
        {&the.held_set, "cadwrelch.waiting", "HELD", "set"},
        {&the.held_reset, "cadwrelch.waiting", "HELD", "reset"},
    };
    for (size_t i = 0; i < sizeof names / sizeof names[0]; i++) {
        PyObject *found = taken_from(names[i].module, names[i].first, names[i].second);
        if (found == NULL) return false;
        Py_XDECREF(*names[i].at);
        *names[i].at = found;
    }
    if (the.absent == NULL) the.absent = PyObject_CallNoArgs((PyObject *)&PyBaseObject_Type);
    return the.absent != NULL;
}

/* The objects of `the` belong to one interpreter. */
static bool is_main_interpreter(void) {
    if (PyInterpreterState_GetID(PyInterpreterState_Get()) == 0) return true;
    PyErr_SetString(PyExc_ImportError, "cadwrelch is for the main interpreter: a subinterpreter can't import it "
                                       "(under mod_wsgi set WSGIApplicationGroup %{GLOBAL})");
    return false;
}

static bool is_right_core(void) {
    uint32_t version = jc_version();
    if (version / 1000 == JC_VERSION / 1000) return true;
    PyErr_Format(PyExc_ImportError, "this module was compiled for the core %d.%d.x, and has the core %u.%u.%u in it: build it again with the "
                                    "libcadwrelch.a and the cadwrelch.h of one version",
                 JC_VERSION / 1000000, JC_VERSION / 1000 % 1000, version / 1000000, version / 1000 % 1000, version % 1000);
    return false;
}

static int execute(PyObject *module) {
    bool is_right = is_main_interpreter() && is_right_core() && take_names() && add_types(module) && add_constants(module) &&
                    PyModule_AddObjectRef(module, "NONE", the.none) == 0;
    return is_right ? 0 : -1;
}

static PyObject *forked(PyObject *module, PyObject *nothing) {
    (void)module, (void)nothing;
    the.forks++;
    Py_RETURN_NONE;
}

/* From 3.12 on a module says whether several interpreters may have it: slot 3, with NULL, says no. Earlier versions don't know the slot, and
 * the limited API of 3.10 doesn't name it. */
enum { MULTIPLE_INTERPRETERS = 3 };
static PyModuleDef_Slot module_slots[] = {{Py_mod_exec, execute}, {0, NULL}, {0, NULL}};
static PyMethodDef module_methods[] = {
    {"forked", forked, METH_NOARGS, "forked($module, /)\n--\n\nNotes that this is another process now: the caches that there are refuse calls."},
    {NULL, NULL, 0, NULL},
};
static PyModuleDef module_def = {PyModuleDef_HEAD_INIT, "_core", "The stripes of a cache, over the proved core.", 0, module_methods, module_slots, NULL, NULL, NULL};

static bool has_the_slot(void) {
    char *end;
    long major = strtol(Py_GetVersion(), &end, 10);
    return major > 3 || (major == 3 && *end == '.' && strtol(end + 1, NULL, 10) >= 12);
}

PyMODINIT_FUNC PyInit__core(void) {
    if (has_the_slot()) module_slots[1].slot = MULTIPLE_INTERPRETERS;
    return PyModuleDef_Init(&module_def);
}
