/* programs.c: the calls of the library, with programs that are compiled once, and lists of all matches.
 *
 * A search in a short text holds Python's lock, and so it may use the first program of a pattern: no other does then. A search
 * in a long text lets the lock go, with a copy that no other search has. */
#include "core.h"

/* Asks Python for the addresses, at the first call. */
bool load(struct state *state)
{
    void *calls[LIBRARY_CALLS];
    PyObject *addresses;

    if (state->is_loaded)
        return true;
    addresses = PyObject_CallFunctionObjArgs(state->help[HELP_ADDRESSES], NULL);
    if (addresses == NULL)
        return false;
    for (int i = 0; i < LIBRARY_CALLS; i++) {
        PyObject *address = PySequence_GetItem(addresses, i);
        calls[i] = address == NULL ? NULL : PyLong_AsVoidPtr(address);
        Py_XDECREF(address);
        if (calls[i] == NULL) {
            Py_DECREF(addresses);
            if (!PyErr_Occurred())
                PyErr_SetString(PyExc_ImportError, "a call of the library has no address");
            return false;
        }
    }
    Py_DECREF(addresses);
    _Static_assert(sizeof calls == sizeof state->library, "an address for each call");
    memcpy(&state->library, calls, sizeof calls);
    state->is_loaded = true;
    return true;
}

/* ---- faults */

/* Raises what a function of Python makes of an outcome. */
static PyObject *raise_by(struct state *state, enum help help, PyObject *first, PyObject *second, struct fancy_outcome outcome)
{
    PyObject *fault;

    if (outcome.code == FANCY_MEMORY)
        return PyErr_NoMemory();
    fault = PyObject_CallFunction(state->help[help], "OO(kKKKK)", first, second, (unsigned long)outcome.code,
                                  (unsigned long long)outcome.byte, (unsigned long long)outcome.group,
                                  (unsigned long long)outcome.count, (unsigned long long)outcome.next);
    if (fault != NULL) {
        PyErr_SetObject((PyObject *)Py_TYPE(fault), fault);
        Py_DECREF(fault);
    }
    return NULL;
}

PyObject *raise_fault(Pattern *pattern, struct fancy_outcome outcome)
{
    return raise_by(pattern->state, HELP_FAULT, pattern->pattern, Py_None, outcome);
}

/* ---- programs */

/* Compiles a text with the options of the programs. On an error they hold nothing. */
bool compile_with(struct state *state, struct programs *programs, PyObject *text)
{
    struct fancy_outcome outcome;
    Py_ssize_t length;
    const char *utf8 = PyUnicode_AsUTF8AndSize(text, &length);
    PyObject *options;

    if (utf8 == NULL)
        return false;
    outcome = state->library.compile(utf8, (size_t)length, &programs->options, &programs->first);
    if (outcome.code == FANCY_OK)
        return true;
    options = PyBytes_FromStringAndSize((const char *)&programs->options, sizeof programs->options);
    if (options != NULL)
        raise_by(state, HELP_REFUSAL, text, options, outcome);
    Py_XDECREF(options);
    return false;
}

/* Compiles a text with the bytes of options. */
bool compile_programs(struct state *state, struct programs *programs, PyObject *text, PyObject *options)
{
    Py_ssize_t size;
    char *bytes;

    if (PyBytes_AsStringAndSize(options, &bytes, &size) < 0)
        return false;
    if (size != sizeof programs->options) {
        PyErr_SetString(PyExc_ImportError, "the extension was built for other options than the library has");
        return false;
    }
    memcpy(&programs->options, bytes, sizeof programs->options);
    return compile_with(state, programs, text);
}

void free_programs(struct state *state, struct programs *programs)
{
    while (programs->idle != NULL) {
        struct handle *handle = programs->idle;
        programs->idle = handle->next;
        state->library.release(&handle->program);
        PyMem_Free(handle);
    }
    if (state->is_loaded)
        state->library.release(&programs->first);
}

/* A copy that no other search has; NULL with an error if there is no memory. */
static struct handle *take(Pattern *pattern, struct programs *programs)
{
    struct handle *handle = programs->idle;
    struct fancy_outcome outcome;

    if (handle != NULL) {
        programs->idle = handle->next;
        return handle;
    }
    handle = PyMem_Calloc(1, sizeof *handle);
    if (handle == NULL) {
        PyErr_NoMemory();
        return NULL;
    }
    outcome = pattern->state->library.clone(&programs->first, &handle->program);
    if (outcome.code != FANCY_OK) {
        PyMem_Free(handle);
        raise_fault(pattern, outcome);
        return NULL;
    }
    return handle;
}

static void give_back(struct programs *programs, struct handle *handle)
{
    handle->next = programs->idle;
    programs->idle = handle;
}

/* ---- one match */

/* What is searched for in a text with lone surrogates, borrowed; NULL with an error. */
Pattern *twin_of(Pattern *pattern)
{
    PyObject *twin, *older;

    if (pattern->twin == NULL) {
        twin = PyObject_CallFunctionObjArgs(pattern->state->help[HELP_TWIN], (PyObject *)pattern, NULL);
        if (twin == NULL)
            return NULL;
        /* None stands for itself, so that there is no ring */
        older = pattern->twin;
        pattern->twin = Py_NewRef(twin == (PyObject *)pattern ? Py_None : twin);
        Py_DECREF(twin);
        Py_XDECREF(older);
    }
    return pattern->twin == Py_None ? pattern : (Pattern *)pattern->twin;
}

/* The first match: 1 with its spans, in bytes, 0 if there is none, -1 with an error. */
int find(Pattern *pattern, struct programs *programs, const struct range *range, bool is_anchored, size_t *spans)
{
    const struct library *library = &pattern->state->library;
    const char *text = range->text.utf8;
    size_t end = range->end, room = 2 * pattern->groups;
    struct fancy_outcome outcome;

    if (end - range->start < LONG_TEXT) {
        programs->options.pos = range->start;
        programs->options.anchored = is_anchored;
        outcome = library->find(&programs->first, text, end, &programs->options, spans, room);
    } else {
        struct handle *handle = take(pattern, programs);
        struct fancy_options options = programs->options;
        if (handle == NULL)
            return -1;
        options.pos = range->start;
        options.anchored = is_anchored;
        Py_BEGIN_ALLOW_THREADS
        outcome = library->find(&handle->program, text, end, &options, spans, room);
        Py_END_ALLOW_THREADS
        give_back(programs, handle);
    }
    if (outcome.code == FANCY_OK)
        return 1;
    if (outcome.code == FANCY_NO_MATCH)
        return 0;
    raise_fault(pattern, outcome);
    return -1;
}

/* ---- all matches */

/* Begins a list of at most `limit` matches, none of them if it is negative, with all groups or group 0 alone. There is room
 * for so many at first, and then for twice as many in each call, so there are few calls. */
bool open_list(struct list *list, Pattern *pattern, const struct range *range, Py_ssize_t limit, bool with_groups, size_t room)
{
    list->pattern = pattern;
    list->searched = searched_in(pattern, &range->text);
    list->range = *range;
    list->cursor = (struct fancy_cursor){range->start, 0, false};
    list->limit = limit;
    list->width = with_groups || pattern->is_adjacent ? 2 * pattern->groups : 2;
    list->room = room > 0 ? room : OWN_NUMBERS / list->width;
    list->count = list->at = 0;
    list->outcome.code = FANCY_OK;
    list->has_more = range->pos <= range->endpos && limit > 0;
    list->numbers = list->own;
    return list->searched != NULL;
}

void close_list(struct list *list)
{
    if (list->numbers != list->own)
        PyMem_Free(list->numbers);
    list->numbers = list->own;
    list->count = list->at = 0;
    list->has_more = false;
}

/* Searches for the next matches. */
static struct fancy_outcome search_on(struct list *list, struct fancy_program *program, const struct fancy_options *options,
                                      size_t numbers)
{
    const struct library *library = &list->pattern->state->library;
    const struct range *range = &list->range;

    if (list->width == 2)
        return library->find_all(program, range->text.utf8, range->end, options, &list->cursor, list->numbers, numbers);
    return library->captures_all(program, range->text.utf8, range->end, options, &list->cursor, list->numbers, numbers);
}

/* Makes room for so many numbers; what was in it is not kept. */
static bool make_room(struct list *list, size_t numbers)
{
    if (numbers <= OWN_NUMBERS)
        return true;
    size_t *longer = PyMem_Realloc(list->numbers == list->own ? NULL : list->numbers, numbers * sizeof *longer);
    if (longer == NULL) {
        PyErr_NoMemory();
        return false;
    }
    list->numbers = longer;
    return true;
}

/* Compiles the program of matches that are not empty, at its first call. */
static bool compile_advance(Pattern *pattern)
{
    if (pattern->has_advance)
        return true;
    pattern->advance.options = pattern->search.options;
    pattern->advance.options.not_empty = true;
    pattern->has_advance = compile_with(pattern->state, &pattern->advance, pattern->text);
    return pattern->has_advance;
}

/* Reads the next of adjacent matches into memory: after an empty match one that begins there and is not empty, or else the
 * first one behind. */
static bool fill_adjacent(struct list *list)
{
    Pattern *pattern = list->searched;
    struct range range = list->range;
    int found = 0;

    if (!make_room(list, list->width))
        return false;
    range.start = list->cursor.pos;
    if (list->cursor.has_last) {
        found = compile_advance(pattern) ? find(pattern, &pattern->advance, &range, true, list->numbers) : -1;
        if (found == 0 && range.start < range.end)
            do
                range.start++;
            while (range.start < range.end && (range.text.utf8[range.start] & 0xC0) == 0x80);
        else if (found == 0)
            list->has_more = false;
    }
    if (found == 0 && list->has_more)
        found = find(pattern, &pattern->search, &range, false, list->numbers);
    if (found < 0)
        return false;
    list->at = 0;
    list->count = (size_t)found;
    list->has_more = found && --list->limit > 0;
    if (found)
        list->cursor = (struct fancy_cursor){list->numbers[1], 0, list->numbers[0] == list->numbers[1]};
    list->outcome.code = FANCY_NO_MATCH;
    return true;
}

/* Reads the next matches into memory. */
static bool fill(struct list *list)
{
    struct programs *programs = &list->searched->search;
    struct fancy_options options = programs->options;
    size_t most = MOST_NUMBERS / list->width, room = list->room < 1 ? 1 : list->room;

    if (room > (size_t)list->limit)
        room = (size_t)list->limit;
    if (!make_room(list, room * list->width))
        return false;
    options.anchored = false;
    if (list->range.end - list->range.start < LONG_TEXT) {
        list->outcome = search_on(list, &programs->first, &options, room * list->width);
    } else {
        struct handle *handle = take(list->searched, programs);
        if (handle == NULL)
            return false;
        Py_BEGIN_ALLOW_THREADS
        list->outcome = search_on(list, &handle->program, &options, room * list->width);
        Py_END_ALLOW_THREADS
        give_back(programs, handle);
    }
    list->at = 0;
    list->count = list->outcome.count;
    list->limit -= (Py_ssize_t)list->count;
    list->has_more = list->outcome.code == FANCY_OK && list->limit > 0;
    list->room = 2 * room < most ? 2 * room : most;
    return true;
}

/* The spans of the next match, in bytes; NULL behind the last, with an error if that is why there is none. They hold until
 * the next call. */
const size_t *next_row(struct list *list)
{
    if (list->at == list->count) {
        if (list->has_more && !(list->pattern->is_adjacent ? fill_adjacent(list) : fill(list))) {
            list->has_more = false;
            return NULL;
        }
        if (list->at == list->count) {
            struct fancy_outcome outcome = list->outcome;
            list->outcome.code = FANCY_NO_MATCH;
            if (outcome.code != FANCY_OK && outcome.code != FANCY_NO_MATCH)
                raise_fault(list->pattern, outcome);
            return NULL;
        }
    }
    return list->numbers + list->width * list->at++;
}
