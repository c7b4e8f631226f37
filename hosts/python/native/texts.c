/* texts.c: texts of a caller, as UTF-8, and where a place of the caller's lies in it.
 *
 * The text of a `str` is its own: PyUnicode_AsUTF8AndSize gives it without running code of its class, and the string keeps it.
 * A lone surrogate has no UTF-8; U+D800 to U+DFFF are searched as U+10F800 to U+10FFFF. The text of `bytes` is what
 * fancy_bytes.h reads of them. All else that has a buffer is copied first, since others may write to it meanwhile. */
#include "core.h"

static bool is_ascii(const struct text *text)
{
    return text->length == (size_t)text->characters;
}

/* ---- what is kept of a text */

void drop_kept(struct text *text)
{
    struct kept *kept = text->kept;

    text->kept = NULL;
    if (--kept->uses > 0)
        return;
    fancy_bytes_free(&kept->read);
    Py_XDECREF(kept->copy);
    Py_XDECREF(kept->view);
    PyMem_Free(kept);
}

static struct kept *new_kept(void)
{
    struct kept *kept = PyMem_Calloc(1, sizeof *kept);

    if (kept == NULL)
        PyErr_NoMemory();
    else
        kept->uses = 1;
    return kept;
}

/* What was kept of a string that was read so; NULL without an error if that is nothing. */
static struct kept *recalled(struct state *state, PyObject *string, enum reads reads)
{
    for (int i = 0; i < TEXTS_KEPT; i++)
        if (state->places[i].string == string && state->places[i].reads == reads) {
            state->places[i].kept->uses++;
            return state->places[i].kept;
        }
    return NULL;
}

static void forget_place(struct places *places)
{
    struct places older = *places;
    struct text text = {.kept = older.kept};

    *places = (struct places){NULL, READS_STR, NULL};
    /* may run code of the caller's, which may come here again: last */
    close_text(&text);
    Py_XDECREF(older.string);
}

/* Keeps what was read of a string, in place of what was kept longest. */
static void remember(struct state *state, PyObject *string, enum reads reads, struct kept *kept)
{
    struct places *places = &state->places[state->next_places];

    state->next_places = (state->next_places + 1) % TEXTS_KEPT;
    forget_place(places);
    kept->uses++;
    *places = (struct places){Py_NewRef(string), reads, kept};
}

void forget_texts(struct state *state)
{
    for (int i = 0; i < TEXTS_KEPT; i++)
        forget_place(&state->places[i]);
}

/* ---- strings */

/* Copies UTF-8 in which lone surrogates are sequences of three bytes, ED A0 80 to ED BF BF, each as one of four: F4 8F, and the
 * last two. Gives how many bytes that are; 0 if one of these is there already. */
static size_t copy_mapped(const char *bytes, size_t length, char *into)
{
    size_t size = 0;

    for (size_t at = 0; at < length; at++) {
        unsigned char here = (unsigned char)bytes[at], next = at + 1 < length ? (unsigned char)bytes[at + 1] : 0;
        unsigned char second = at + 2 < length ? (unsigned char)bytes[at + 2] : 0;
        if (here == 0xF4 && next == 0x8F && second >= 0xA0)
            return 0;
        if (here == 0xED && next >= 0xA0) {
            into[size++] = (char)0xF4;
            here = 0x8F;
        }
        into[size++] = (char)here;
    }
    return size;
}

/* Where each 128th byte of a text is, in characters. */
static bool write_index(struct kept *kept, const char *utf8, size_t length, size_t characters)
{
    size_t count = length / FANCY_BYTES_STEP + 1;
    size_t *before = malloc(count * sizeof *before);

    kept->read = (struct fancy_bytes){utf8, length, NULL, characters, FANCY_LATIN1, kept->read.own, before};
    if (before == NULL) {
        PyErr_NoMemory();
        return false;
    }
    before[0] = 0;
    for (size_t i = 1; i < count; i++)
        before[i] = before[i - 1] + fancy_bytes_beginnings(utf8 + (i - 1) * FANCY_BYTES_STEP, FANCY_BYTES_STEP);
    return true;
}

/* Reads a string with lone surrogates; the error that says so is set. */
static bool read_mapped(PyObject *string, struct text *text)
{
    PyObject *type, *fault, *trace, *encoded;
    size_t size;

    PyErr_Fetch(&type, &fault, &trace);
    encoded = PyUnicode_AsEncodedString(string, "utf-8", "surrogatepass");
    text->kept = encoded == NULL ? NULL : new_kept();
    if (text->kept != NULL) {
        size_t length = (size_t)PyBytes_Size(encoded);
        const char *bytes = PyBytes_AsString(encoded);
        char *own = text->kept->read.own = malloc(length / 3 * 4 + 3);
        size = own == NULL ? 0 : copy_mapped(bytes, length, own);
        if (own == NULL)
            PyErr_NoMemory();
        else if (size > 0 && write_index(text->kept, own, size, (size_t)PyUnicode_GetLength(string)))
            *text = (struct text){string, own, size, PyUnicode_GetLength(string), NULL, true, text->kept};
    }
    Py_XDECREF(encoded);
    if (text->is_mapped) {
        Py_XDECREF(type), Py_XDECREF(fault), Py_XDECREF(trace);
        return true;
    }
    if (PyErr_Occurred())
        Py_XDECREF(type), Py_XDECREF(fault), Py_XDECREF(trace);
    else
        PyErr_Restore(type, fault, trace);
    close_text(text);
    return false;
}

static bool text_of_str(struct state *state, PyObject *string, struct text *text)
{
    Py_ssize_t length;

    *text = (struct text){string, PyUnicode_AsUTF8AndSize(string, &length), 0, PyUnicode_GetLength(string), NULL, false, NULL};
    if (text->utf8 != NULL) {
        text->length = (size_t)length;
        return true;
    }
    if (!PyErr_ExceptionMatches(PyExc_UnicodeEncodeError))
        return false;
    text->kept = recalled(state, string, READS_STR);
    if (text->kept == NULL) {
        if (!read_mapped(string, text))
            return false;
        remember(state, string, READS_STR, text->kept);
        return true;
    }
    PyErr_Clear();
    text->utf8 = text->kept->read.text;
    text->length = text->kept->read.text_length;
    text->is_mapped = true;
    return true;
}

/* ---- bytes */

static void raise_type(PyObject *string, bool is_wanted_str)
{
    bool is_str = PyUnicode_Check(string);
    PyObject *view = is_str ? NULL : PyMemoryView_FromObject(string), *name;

    PyErr_Clear();
    if (is_str || (view != NULL && is_wanted_str)) {
        PyErr_Format(PyExc_TypeError, "cannot use a %s pattern on a %s object", is_str ? "bytes" : "string",
                     is_str ? "string" : "bytes-like");
    } else if ((name = PyObject_GetAttrString((PyObject *)Py_TYPE(string), "__name__")) != NULL) {
        PyErr_Format(PyExc_TypeError, "expected string or bytes-like object, got %R", name);
        Py_DECREF(name);
    }
    Py_XDECREF(view);
}

/* A copy of a buffer, and a view that keeps its size while it is used. */
static bool copy_buffer(PyObject *string, struct kept *kept)
{
    PyObject *is_whole;

    kept->view = PyUnicode_Check(string) ? NULL : PyMemoryView_FromObject(string);
    is_whole = kept->view == NULL ? NULL : PyObject_GetAttrString(kept->view, "c_contiguous");
    if (is_whole == Py_True)
        kept->copy = PyBytes_FromObject(kept->view);
    Py_XDECREF(is_whole);
    if (kept->copy == NULL && (!PyErr_Occurred() || !PyErr_ExceptionMatches(PyExc_MemoryError)))
        raise_type(string, false);
    return kept->copy != NULL;
}

static bool text_of_bytes(struct state *state, PyObject *string, enum reads reads, struct text *text)
{
    bool is_bytes = PyBytes_Check(string);
    struct kept *kept = NULL;
    Py_ssize_t length;
    char *bytes;

    *text = (struct text){string, NULL, 0, 0, NULL, false, NULL};
    if (is_bytes && PyBytes_AsStringAndSize(string, &bytes, &length) < 0)
        return false;
    if (is_bytes && length < LONG_BYTES && fancy_bytes_ascii(bytes, (size_t)length) == (size_t)length) {
        *text = (struct text){string, bytes, (size_t)length, length, bytes, false, NULL};
        return true;
    }
    if (is_bytes)
        kept = recalled(state, string, reads);
    if (kept == NULL) {
        text->kept = kept = new_kept();
        if (kept == NULL || (!is_bytes && (!copy_buffer(string, kept) || PyBytes_AsStringAndSize(kept->copy, &bytes, &length) < 0))) {
            close_text(text);
            return false;
        }
        if (!fancy_bytes_read(&kept->read, bytes, (size_t)length, reads == READS_UTF8 ? FANCY_LOSSY : FANCY_LATIN1)) {
            PyErr_NoMemory();
            close_text(text);
            return false;
        }
        if (is_bytes && length >= LONG_BYTES)
            remember(state, string, reads, kept);
    }
    *text = (struct text){string, kept->read.text, kept->read.text_length, (Py_ssize_t)kept->read.length, kept->read.bytes, false, kept};
    return true;
}

/* Reads a string of the caller's, until close_text. */
bool text_of(struct state *state, PyObject *string, enum reads reads, struct text *text)
{
    if (reads != READS_STR)
        return text_of_bytes(state, string, reads, text);
    if (PyUnicode_CheckExact(string) || PyUnicode_Check(string))
        return text_of_str(state, string, text);
    raise_type(string, true);
    return false;
}

/* ---- places */

/* Takes what finds places in a long text of a string, until close_text. */
bool take_index(struct state *state, struct text *text)
{
    if (text->kept != NULL || is_ascii(text) || text->length < 2 * FANCY_BYTES_STEP)
        return true;
    text->kept = recalled(state, text->string, READS_STR);
    if (text->kept != NULL)
        return true;
    text->kept = new_kept();
    if (text->kept == NULL || !write_index(text->kept, text->utf8, text->length, (size_t)text->characters)) {
        close_text(text);
        return false;
    }
    remember(state, text->string, READS_STR, text->kept);
    return true;
}

static struct fancy_bytes short_read(const struct text *text)
{
    return (struct fancy_bytes){text->utf8, text->length, text->bytes, (size_t)text->characters, FANCY_LATIN1, NULL, NULL};
}

/* The place of the character that begins at a byte. */
Py_ssize_t place_in(const struct text *text, size_t byte)
{
    struct fancy_bytes read;

    if (is_ascii(text))
        return (Py_ssize_t)byte;
    if (text->kept != NULL)
        return (Py_ssize_t)fancy_bytes_offset(&text->kept->read, byte);
    read = short_read(text);
    return (Py_ssize_t)fancy_bytes_offset(&read, byte);
}

/* The byte where the character at a place begins, of a place that the text has. */
static size_t byte_in(const struct text *text, Py_ssize_t place)
{
    struct fancy_bytes read;

    if (text->kept != NULL)
        return fancy_bytes_place(&text->kept->read, (size_t)place);
    if (is_ascii(text))
        return (size_t)place;
    read = short_read(text);
    return fancy_bytes_place(&read, (size_t)place);
}

/* ---- parts */

/* The place that a caller names, or the nearest that the text has. */
static bool clipped(PyObject *number, Py_ssize_t characters, Py_ssize_t *place)
{
    Py_ssize_t named = PyNumber_AsSsize_t(number, NULL);

    if (named == -1 && PyErr_Occurred())
        return false;
    *place = named < 0 ? 0 : named > characters ? characters : named;
    return true;
}

/* The part of a string from pos to endpos, each of which may be NULL; until close_text of its text. */
bool range_of(struct state *state, PyObject *string, enum reads reads, PyObject *pos, PyObject *endpos, struct range *range)
{
    struct text *text = &range->text;

    if (!text_of(state, string, reads, text))
        return false;
    range->pos = 0;
    range->endpos = text->characters;
    range->start = 0;
    range->end = text->length;
    if (pos == NULL && endpos == NULL)
        return true;
    if ((pos != NULL && !clipped(pos, text->characters, &range->pos))
        || (endpos != NULL && !clipped(endpos, text->characters, &range->endpos)) || !take_index(state, text)) {
        close_text(text);
        return false;
    }
    range->start = byte_in(text, range->pos);
    range->end = byte_in(text, range->endpos);
    return true;
}

/* The bytes from one to another of a caller's object with a buffer, as it is now. */
PyObject *slice_of_bytes(PyObject *string, Py_ssize_t start, Py_ssize_t end)
{
    PyObject *view, *flat, *part, *slice;

    if (PyBytes_Check(string)) {
        if (start == 0 && end == PyBytes_Size(string) && PyBytes_CheckExact(string))
            return Py_NewRef(string);
        return PyBytes_FromStringAndSize(PyBytes_AsString(string) + start, end - start);
    }
    view = PyMemoryView_FromObject(string);
    flat = view == NULL ? NULL : PyObject_CallMethod(view, "cast", "s", "B");
    part = flat == NULL ? NULL : PySequence_GetSlice(flat, start, end);
    slice = part == NULL ? NULL : PyBytes_FromObject(part);
    Py_XDECREF(view);
    Py_XDECREF(flat);
    Py_XDECREF(part);
    return slice;
}

/* The text between two bytes; empty if the second comes first. */
PyObject *piece(const struct text *text, size_t start, size_t end)
{
    if (end <= start)
        return text->bytes != NULL ? PyBytes_FromStringAndSize("", 0) : PyUnicode_FromStringAndSize("", 0);
    if (text->bytes != NULL) {
        Py_ssize_t first = place_in(text, start), last = place_in(text, end);
        if (first == 0 && last == text->characters && PyBytes_CheckExact(text->string))
            return Py_NewRef(text->string);
        return PyBytes_FromStringAndSize(text->bytes + first, last - first);
    }
    if (is_ascii(text))
        return PyUnicode_Substring(text->string, (Py_ssize_t)start, (Py_ssize_t)end);
    if (text->is_mapped)
        return PyUnicode_Substring(text->string, place_in(text, start), place_in(text, end));
    return PyUnicode_DecodeUTF8(text->utf8 + start, (Py_ssize_t)(end - start), NULL);
}
