/* rest.c: what is rare of the objects of the module `re`, whose types cannot be changed: each calls the function of the same name
 * of a class of Python. Those of the package itself have these functions as members. */
#include "core.h"

/* Calls a function of the class of Python with an object and more arguments. */
static PyObject *forward(PyObject *self, const char *name, PyObject *given, PyObject *named)
{
    struct state *state = PyModule_GetState(PyType_GetModule(Py_TYPE(self)));
    PyObject *rest = Py_TYPE(self) == state->re_pattern_type ? state->re_pattern_rest : state->re_match_rest;
    PyObject *function = PyObject_GetAttrString(rest, name), *first = PyTuple_Pack(1, self);
    PyObject *arguments = first == NULL || given == NULL ? Py_XNewRef(first) : PySequence_Concat(first, given);
    PyObject *result = function == NULL || arguments == NULL ? NULL : PyObject_Call(function, arguments, named);

    Py_XDECREF(function);
    Py_XDECREF(first);
    Py_XDECREF(arguments);
    return result;
}

#define FORWARD(function, name)                                                             \
    static PyObject *function(PyObject *self, PyObject *given, PyObject *named)             \
    {                                                                                       \
        return forward(self, name, given, named);                                           \
    }

FORWARD(forward_key, "_key")
FORWARD(forward_reading, "_reading")
FORWARD(forward_reduce, "__reduce__")
FORWARD(forward_scanner, "scanner")
FORWARD(forward_template, "_template")
FORWARD(forward_templates, "_templates")
FORWARD(forward_twin, "_twin")
FORWARD(forward_whole, "_whole")
FORWARD(forward_expand, "expand")

PyObject *rest_repr(PyObject *self)
{
    return forward(self, "__repr__", NULL, NULL);
}

Py_hash_t rest_hash(PyObject *self)
{
    PyObject *number = forward(self, "__hash__", NULL, NULL);
    Py_hash_t hash = number == NULL ? -1 : PyLong_AsSsize_t(number);

    Py_XDECREF(number);
    return hash == -1 && !PyErr_Occurred() ? -2 : hash;
}

PyObject *rest_compare(PyObject *self, PyObject *other, int how)
{
    PyObject *arguments, *is_same;

    if (how != Py_EQ && how != Py_NE)
        return Py_NewRef(Py_NotImplemented);
    arguments = PyTuple_Pack(1, other);
    is_same = arguments == NULL ? NULL : forward(self, "__eq__", arguments, NULL);
    Py_XDECREF(arguments);
    if (how == Py_EQ || is_same == NULL || is_same == Py_NotImplemented)
        return is_same;
    Py_DECREF(is_same);
    return Py_NewRef(is_same == Py_True ? Py_False : Py_True);
}

static PyObject *itself(PyObject *self, PyObject *unused)
{
    (void)unused;
    return Py_NewRef(self);
}

#define NAMED(function) (PyCFunction)(void (*)(void))function, METH_VARARGS | METH_KEYWORDS
#define COPIES                                                                                                      \
    {"__copy__", itself, METH_NOARGS, NULL}, {"__deepcopy__", itself, METH_O, NULL},                                \
    {"__class_getitem__", Py_GenericAlias, METH_O | METH_CLASS, "See PEP 585."}

PyMethodDef rest_of_patterns[] = {
    COPIES,
    {"scanner", NAMED(forward_scanner), "scanner($self, string, pos=0, endpos=sys.maxsize)\n--\n\nThe matches one by one."},
    {"__reduce__", NAMED(forward_reduce), NULL},
    {"_key", NAMED(forward_key), NULL},
    {"_reading", NAMED(forward_reading), NULL},
    {"_template", NAMED(forward_template), NULL},
    {"_templates", NAMED(forward_templates), NULL},
    {"_twin", NAMED(forward_twin), NULL},
    {"_whole", NAMED(forward_whole), NULL},
    {NULL, NULL, 0, NULL},
};

PyMethodDef rest_of_matches[] = {
    COPIES,
    {"expand", NAMED(forward_expand), "expand($self, template)\n--\n\nThe template with each reference to a group replaced."},
    {NULL, NULL, 0, NULL},
};

/* Writes two lists of methods one after the other. */
void join_methods(PyMethodDef *into, const PyMethodDef *first, const PyMethodDef *second)
{
    for (; first->ml_name != NULL; first++)
        *into++ = *first;
    for (; second->ml_name != NULL; second++)
        *into++ = *second;
    *into = (PyMethodDef){NULL, NULL, 0, NULL};
}

/* `_serve(pattern class, match class)`: the classes whose functions are called. */
PyObject *serve(PyObject *module, PyObject *given)
{
    struct state *state = PyModule_GetState(module);
    PyObject *patterns, *matches;

    if (!PyArg_ParseTuple(given, "OO", &patterns, &matches))
        return NULL;
    Py_XDECREF(state->re_pattern_rest);
    Py_XDECREF(state->re_match_rest);
    state->re_pattern_rest = Py_NewRef(patterns);
    state->re_match_rest = Py_NewRef(matches);
    return Py_NewRef(Py_None);
}
