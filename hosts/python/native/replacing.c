/* replacing.c: sub and subn. The new text is written as UTF-8; a lone surrogate of a replacement is written as UTF-8 would have
 * it, and read back so. */
#include "core.h"

struct writing {
    char *bytes;
    size_t length, room;
};

static bool write_bytes(struct writing *writing, const char *bytes, size_t length)
{
    if (length > writing->room - writing->length) {
        size_t room = writing->length + length + writing->room / 2 + 256;
        char *longer = room < (size_t)PY_SSIZE_T_MAX ? PyMem_Realloc(writing->bytes, room) : NULL;
        if (longer == NULL) {
            PyErr_NoMemory();
            return false;
        }
        writing->bytes = longer;
        writing->room = room;
    }
    if (length > 0)
        memcpy(writing->bytes + writing->length, bytes, length);
    writing->length += length;
    return true;
}

static bool write_string(struct writing *writing, PyObject *string)
{
    Py_ssize_t length;
    const char *utf8;
    PyObject *encoded;
    char *bytes;
    bool is_written;

    if (PyBytes_Check(string))
        return PyBytes_AsStringAndSize(string, &bytes, &length) == 0 && write_bytes(writing, bytes, (size_t)length);
    utf8 = PyUnicode_AsUTF8AndSize(string, &length);
    if (utf8 != NULL)
        return write_bytes(writing, utf8, (size_t)length);
    if (!PyErr_ExceptionMatches(PyExc_UnicodeEncodeError))
        return false;
    PyErr_Clear();
    encoded = PyUnicode_AsEncodedString(string, "utf-8", "surrogatepass");
    is_written = encoded != NULL && PyBytes_AsStringAndSize(encoded, &bytes, &length) == 0
                 && write_bytes(writing, bytes, (size_t)length);
    Py_XDECREF(encoded);
    return is_written;
}

/* A part of the text that is searched. */
static bool write_piece(struct writing *writing, const struct text *text, size_t start, size_t end)
{
    PyObject *string;
    bool is_written;

    if (end <= start)
        return true;
    if (text->bytes == NULL && !text->is_mapped)
        return write_bytes(writing, text->utf8 + start, end - start);
    string = piece(text, start, end);
    is_written = string != NULL && write_string(writing, string);
    Py_XDECREF(string);
    return is_written;
}

static PyObject *written(const struct writing *writing, const struct text *text)
{
    if (text->bytes != NULL)
        return PyBytes_FromStringAndSize(writing->bytes, (Py_ssize_t)writing->length);
    return PyUnicode_DecodeUTF8(writing->bytes, (Py_ssize_t)writing->length, "surrogatepass");
}

/* ---- templates */

/* The bytes of a text or of `bytes`, if it has no backslash; NULL without an error if it has, or is something else. */
static const char *plain_text(Pattern *pattern, PyObject *repl, Py_ssize_t *length)
{
    const char *text = NULL;
    char *bytes;

    if (pattern->reads == READS_STR && PyUnicode_Check(repl))
        text = PyUnicode_AsUTF8AndSize(repl, length);
    else if (pattern->reads != READS_STR && PyBytes_Check(repl) && PyBytes_AsStringAndSize(repl, &bytes, length) == 0)
        text = bytes;
    PyErr_Clear();
    return text == NULL || memchr(text, '\\', (size_t)*length) != NULL ? NULL : text;
}

/* The parts of a template, a new reference: of the last one, or what Python reads. A text without a backslash is its own one
 * part, and is given as NULL without an error. */
static PyObject *parts_of(Pattern *pattern, PyObject *repl)
{
    Py_ssize_t length;
    PyObject *parts;

    if (plain_text(pattern, repl, &length) != NULL)
        return NULL;
    if (pattern->template == repl)
        return Py_NewRef(pattern->parts);
    parts = PyObject_CallFunctionObjArgs(pattern->state->help[HELP_TEMPLATE], (PyObject *)pattern, repl, NULL);
    if (parts != NULL && (PyUnicode_CheckExact(repl) || PyBytes_CheckExact(repl))) {
        PyObject *older = pattern->template, *older_parts = pattern->parts;
        pattern->template = Py_NewRef(repl);
        pattern->parts = Py_NewRef(parts);
        Py_XDECREF(older);
        Py_XDECREF(older_parts);
    }
    return parts;
}

/* Whether the parts ask for another group than 0. */
static bool ask_for_groups(PyObject *parts)
{
    for (Py_ssize_t i = 0; parts != NULL && i < PyTuple_Size(parts); i++) {
        PyObject *part = PyTuple_GetItem(parts, i);
        if (PyTuple_Check(part) || (PyLong_Check(part) && PyLong_AsLong(part) != 0))
            return true;
    }
    return false;
}

static bool write_group(struct writing *writing, const struct list *list, const size_t *spans, PyObject *number)
{
    size_t at = 2 * (size_t)PyLong_AsSsize_t(number);

    if (at >= list->width || spans[at] == FANCY_UNSET)
        return true;
    return write_piece(writing, &list->range.text, spans[at], spans[at + 1]);
}

/* The group of several with one name that is meant: the first that is set. */
static PyObject *group_meant(PyObject *numbers, const struct list *list, const size_t *spans)
{
    for (Py_ssize_t i = 0; i < PyTuple_Size(numbers); i++) {
        size_t at = 2 * (size_t)PyLong_AsSsize_t(PyTuple_GetItem(numbers, i));
        if (at < list->width && spans[at] != FANCY_UNSET)
            return PyTuple_GetItem(numbers, i);
    }
    return NULL;
}

static bool write_parts(struct writing *writing, const struct list *list, const size_t *spans, PyObject *parts)
{
    for (Py_ssize_t i = 0; i < PyTuple_Size(parts); i++) {
        PyObject *part = PyTuple_GetItem(parts, i);
        if (PyUnicode_Check(part) || PyBytes_Check(part)) {
            if (!write_string(writing, part))
                return false;
            continue;
        }
        if (PyTuple_Check(part))
            part = group_meant(part, list, spans);
        if (part != NULL && !write_group(writing, list, spans, part))
            return false;
    }
    return true;
}

/* Writes a string of the caller's, of the same kind as the text. */
static bool write_new(struct writing *writing, const struct text *text, PyObject *string)
{
    PyObject *view, *bytes;
    bool is_written;

    if (text->bytes == NULL && PyUnicode_Check(string))
        return write_string(writing, string);
    if (text->bytes == NULL || PyUnicode_Check(string)) {
        PyErr_Format(PyExc_TypeError, "a replacement is %s, not %R", text->bytes == NULL ? "a string" : "bytes",
                     (PyObject *)Py_TYPE(string));
        return false;
    }
    view = PyMemoryView_FromObject(string);
    bytes = view == NULL ? NULL : PyBytes_FromObject(view);
    is_written = bytes != NULL && write_string(writing, bytes);
    Py_XDECREF(view);
    Py_XDECREF(bytes);
    return is_written;
}

/* Writes what a function of the caller's says of a match. None is nothing. */
static bool write_answer(struct writing *writing, struct list *list, const size_t *spans, PyObject *function)
{
    PyObject *match = new_match(list->pattern, &list->range, spans, list->width / 2);
    PyObject *answer = match == NULL ? NULL : PyObject_CallFunctionObjArgs(function, match, NULL);
    bool is_written = answer != NULL;

    Py_XDECREF(match);
    if (is_written && answer != Py_None)
        is_written = write_new(writing, &list->range.text, answer);
    Py_XDECREF(answer);
    return is_written;
}

/* ---- all of it */

/* Writes the new text of each match and what is between. Gives how many matches there were, or -1 with an error. */
static Py_ssize_t write_all(struct writing *writing, struct list *list, PyObject *repl, PyObject *parts, bool is_function)
{
    const struct text *text = &list->range.text;
    const size_t *spans;
    size_t end = 0;
    Py_ssize_t count = 0;

    while ((spans = next_row(list)) != NULL) {
        size_t start = spans[0], next = spans[1];
        if (!write_piece(writing, text, end, start))
            return -1;
        if (is_function ? !write_answer(writing, list, spans, repl)
            : parts != NULL ? !write_parts(writing, list, spans, parts) : !write_string(writing, repl))
            return -1;
        end = next;
        count++;
    }
    if (PyErr_Occurred() || (count > 0 && !write_piece(writing, text, end, text->length)))
        return -1;
    return count;
}

PyObject *replaced(Pattern *pattern, PyObject *repl, PyObject *string, PyObject *limit, bool with_count)
{
    bool is_function = PyCallable_Check(repl);
    PyObject *parts = is_function ? NULL : parts_of(pattern, repl), *text = NULL;
    struct writing writing = {NULL, 0, 0};
    struct range range;
    struct list list;
    Py_ssize_t most, count = -1;

    if (parts == NULL && PyErr_Occurred())
        return NULL;
    if (read_count(limit, &most) && range_of(pattern->state, string, pattern->reads, NULL, NULL, &range)) {
        if (open_list(&list, pattern, &range, most, pattern->groups > 1 && (is_function || ask_for_groups(parts)), 0))
            count = write_all(&writing, &list, repl, parts, is_function);
        close_list(&list);
        if (count == 0)
            text = range.text.bytes != NULL ? piece(&range.text, 0, range.text.length) : PyUnicode_FromObject(string);
        else if (count > 0)
            text = written(&writing, &range.text);
        close_text(&range.text);
    }
    PyMem_Free(writing.bytes);
    Py_XDECREF(parts);
    return with_count && text != NULL ? Py_BuildValue("Nn", text, count) : text;
}
