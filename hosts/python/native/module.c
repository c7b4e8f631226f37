/* module.c: the module `fancy._core`. */
#include "core.h"

/* `_help(functions)`: takes the functions of Python, in the order of `enum help`. */
static PyObject *take_help(PyObject *module, PyObject *functions)
{
    struct state *state = PyModule_GetState(module);

    for (int i = 0; i < HELPS; i++) {
        PyObject *older = state->help[i];
        PyObject *function = PySequence_GetItem(functions, i);
        if (function == NULL)
            return NULL;
        state->help[i] = function;
        Py_XDECREF(older);
    }
    return Py_NewRef(Py_None);
}

/* `_compiled(pattern, flags=0)`: what `compile` gives, of the last patterns without a call of it. */
static PyObject *compiled(PyObject *module, PyObject *const *given, Py_ssize_t count)
{
    struct state *state = PyModule_GetState(module);
    bool is_kept = count == 2 && PyUnicode_CheckExact(given[0]) && PyLong_CheckExact(given[1]) && PyObject_Not(given[1]) == 1;
    PyObject *pattern = is_kept && state->kept != NULL ? PyDict_GetItemWithError(state->kept, given[0]) : NULL;

    if (pattern != NULL)
        return Py_NewRef(pattern);
    if (count != 2 || PyErr_Occurred())
        return NULL;
    pattern = PyObject_CallFunctionObjArgs(state->help[HELP_COMPILE], given[0], given[1], NULL);
    if (pattern == NULL || !is_kept || state->kept == NULL)
        return pattern;
    if (PyDict_Size(state->kept) >= PATTERNS_KEPT)
        PyDict_Clear(state->kept);
    if (PyDict_SetItem(state->kept, given[0], pattern) < 0)
        Py_CLEAR(pattern);
    return pattern;
}

/* `_re_pattern(..)`: a pattern of the module `re`, of the arguments of new_pattern. */
static PyObject *re_pattern(PyObject *module, PyObject *given, PyObject *named)
{
    struct state *state = PyModule_GetState(module);

    return new_pattern(state->re_pattern_type, given, named);
}

/* `_forget()`: lets go of what is kept of the last calls. */
static PyObject *forget(PyObject *module, PyObject *unused)
{
    struct state *state = PyModule_GetState(module);

    (void)unused;
    if (state->kept != NULL)
        PyDict_Clear(state->kept);
    forget_texts(state);
    return Py_NewRef(Py_None);
}

static PyMethodDef methods[] = {
    {"_help", take_help, METH_O, NULL},
    {"_compiled", (PyCFunction)(void (*)(void))compiled, METH_FASTCALL, NULL},
    {"_re_pattern", (PyCFunction)(void (*)(void))re_pattern, METH_VARARGS | METH_KEYWORDS, NULL},
    {"_found", found_rows, METH_VARARGS, NULL},
    {"_serve", serve, METH_VARARGS, NULL},
    {"_forget", forget, METH_NOARGS, NULL},
    {NULL, NULL, 0, NULL},
};

static int begin(PyObject *module)
{
    struct state *state = PyModule_GetState(module);

    state->kept = PyDict_New();
    return state->kept != NULL && make_matches(module, state) && make_patterns(module, state) ? 0 : -1;
}

static int visit(PyObject *module, visitproc visit, void *arg)
{
    struct state *state = PyModule_GetState(module);

    for (int i = 0; i < HELPS; i++)
        Py_VISIT(state->help[i]);
    for (int i = 0; i < TEXTS_KEPT; i++)
        Py_VISIT(state->places[i].string);
    Py_VISIT(state->pattern_type);
    Py_VISIT(state->match_type);
    Py_VISIT(state->re_pattern_type);
    Py_VISIT(state->re_match_type);
    Py_VISIT(state->matches_type);
    Py_VISIT(state->re_pattern_rest);
    Py_VISIT(state->re_match_rest);
    Py_VISIT(state->kept);
    return 0;
}

static int clear(PyObject *module)
{
    struct state *state = PyModule_GetState(module);

    for (int i = 0; i < HELPS; i++)
        Py_CLEAR(state->help[i]);
    forget_texts(state);
    Py_CLEAR(state->re_pattern_rest);
    Py_CLEAR(state->re_match_rest);
    Py_CLEAR(state->kept);
    return 0;
}

static void end(void *module)
{
    struct state *state = PyModule_GetState(module);

    clear(module);
    Py_CLEAR(state->pattern_type);
    Py_CLEAR(state->match_type);
    Py_CLEAR(state->re_pattern_type);
    Py_CLEAR(state->re_match_type);
    Py_CLEAR(state->matches_type);
}

/* Python's own lock is needed: without a slot that says otherwise, a Python without the lock turns it on for this module. */
static PyModuleDef_Slot slots[] = {
    {Py_mod_exec, begin},
    {0, NULL},
};

static PyModuleDef definition = {
    PyModuleDef_HEAD_INIT, "fancy._core", "The objects of the package fancy, in C.", sizeof(struct state),
    methods, slots, visit, clear, end,
};

PyMODINIT_FUNC PyInit__core(void)
{
    return PyModuleDef_Init(&definition);
}
