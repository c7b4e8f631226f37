/* scanning.c: the matches of a scanner, of the rows that the library wrote for fancy/_scanner.py. */
#include "core.h"

/* The match of a row, whose pattern is one of these; NULL with an error. */
static PyObject *match_of_row(struct state *state, PyObject *patterns, const struct range *range, const size_t *row, size_t width)
{
    PyObject *object = row[FANCY_ROW_PATTERN] < (size_t)PyTuple_Size(patterns)
                           ? PyTuple_GetItem(patterns, (Py_ssize_t)row[FANCY_ROW_PATTERN]) : NULL;
    const size_t *spans = row + FANCY_ROW_SPANS;
    bool is_sound = object != NULL && (Py_TYPE(object) == state->pattern_type || Py_TYPE(object) == state->re_pattern_type);
    size_t groups = is_sound ? ((Pattern *)object)->groups : 0;

    is_sound = is_sound && FANCY_ROW_WIDTH(groups) <= width;
    is_sound = is_sound && (((Pattern *)object)->reads == READS_STR) == (range->text.bytes == NULL);
    for (size_t i = 0; is_sound && i < 2 * groups; i++)
        is_sound = spans[i] == FANCY_UNSET || spans[i] <= range->text.length;
    if (is_sound)
        return new_match((Pattern *)object, range, spans, groups);
    if (!PyErr_Occurred())
        PyErr_SetString(PyExc_ValueError, "a row is of no pattern of the scanner, or not of the string");
    return NULL;
}

/* A row as the named tuple of its pattern's index, its match, and the index of what stopped, or None. */
static PyObject *tuple_of_row(PyTypeObject *kind, const size_t *row, PyObject *match)
{
    newfunc new_tuple = (newfunc)PyType_GetSlot(&PyTuple_Type, Py_tp_new);
    size_t stopped = row[FANCY_ROW_STOPPED];
    PyObject *three = Py_BuildValue("nNN", (Py_ssize_t)row[FANCY_ROW_PATTERN], match,
                                    stopped == FANCY_UNSET ? Py_NewRef(Py_None) : PyLong_FromSize_t(stopped));
    PyObject *arguments = three == NULL ? NULL : PyTuple_Pack(1, three);
    PyObject *tuple = arguments == NULL ? NULL : new_tuple(kind, arguments, NULL);

    Py_XDECREF(three);
    Py_XDECREF(arguments);
    return tuple;
}

/* `_found(address, count, width, patterns, string, reads, pos, endpos, kind)`: the rows at an address, as a list of named tuples. */
PyObject *found_rows(PyObject *module, PyObject *given)
{
    struct state *state = PyModule_GetState(module);
    unsigned long long address;
    Py_ssize_t count, width;
    PyObject *patterns, *string, *pos, *endpos, *kind, *list;
    struct range range;
    int reads;

    if (!PyArg_ParseTuple(given, "KnnO!OiOOO!", &address, &count, &width, &PyTuple_Type, &patterns, &string, &reads, &pos, &endpos,
                          &PyType_Type, &kind))
        return NULL;
    if (!PyType_IsSubtype((PyTypeObject *)kind, &PyTuple_Type) || width < FANCY_ROW_SPANS)
        return PyErr_Format(PyExc_TypeError, "no tuple, or no row");
    if (!range_of(state, string, (enum reads)reads, pos, endpos, &range))
        return NULL;
    list = PyList_New(0);
    for (const size_t *row = (const size_t *)(uintptr_t)address; list != NULL && count > 0; row += width, count--) {
        PyObject *match = match_of_row(state, patterns, &range, row, (size_t)width);
        PyObject *tuple = match == NULL ? NULL : tuple_of_row((PyTypeObject *)kind, row, match);
        if (tuple == NULL || PyList_Append(list, tuple) < 0)
            Py_CLEAR(list);
        Py_XDECREF(tuple);
    }
    close_text(&range.text);
    return list;
}
