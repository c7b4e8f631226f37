/* matches.c: the objects of a match. Its spans are in bytes of the text at first, and in characters from when they are asked
 * for; those of bytes are the caller's from the first. */
#include "core.h"

/* Makes the spans those of the caller. */
static void place_all(Match *match, const struct text *text)
{
    for (Py_ssize_t i = 0; i < Py_SIZE(match); i++)
        if (match->spans[i] >= 0)
            match->spans[i] = place_in(text, (size_t)match->spans[i]);
    match->is_placed = true;
}

PyObject *new_match(Pattern *pattern, const struct range *range, const size_t *spans, size_t groups)
{
    const struct text *text = &range->text;
    Match *match = PyObject_GC_NewVar(Match, pattern->match_type, (Py_ssize_t)(2 * groups));

    if (match == NULL)
        return NULL;
    match->pattern = (Pattern *)Py_NewRef((PyObject *)pattern);
    match->string = Py_NewRef(range->text.string);
    match->pos = range->pos;
    match->endpos = range->endpos;
    /* FANCY_UNSET is -1 */
    memcpy(match->spans, spans, 2 * groups * sizeof *spans);
    match->is_placed = text->length == (size_t)text->characters;
    /* of what is no plain string, the text does not last as long as the match */
    if (!match->is_placed && (text->is_mapped || text->bytes != NULL))
        place_all(match, text);
    /* else it is in no ring of references */
    if (!PyUnicode_CheckExact(match->string) && !PyBytes_CheckExact(match->string))
        PyObject_GC_Track(match);
    return (PyObject *)match;
}

static int visit_match(Match *match, visitproc visit, void *arg)
{
    Py_VISIT(Py_TYPE(match));
    Py_VISIT(match->pattern);
    Py_VISIT(match->string);
    return 0;
}

static void free_match(Match *match)
{
    PyTypeObject *type = Py_TYPE(match);

    PyObject_GC_UnTrack(match);
    Py_XDECREF(match->pattern);
    Py_XDECREF(match->string);
    PyObject_GC_Del(match);
    Py_DECREF(type);
}

/* ---- groups */

static size_t groups_of(const Match *match)
{
    return (size_t)Py_SIZE(match) / 2;
}

/* The number of a group with this name: of several the first that is set; -1 if there is none, with an error if there is. */
static Py_ssize_t number_of_name(const Match *match, PyObject *name)
{
    PyObject *plain = PyUnicode_FromObject(name), *numbers;
    Py_ssize_t first = -1;

    if (plain == NULL)
        return -1;
    numbers = PyDict_GetItemWithError(match->pattern->numbers, plain);
    Py_DECREF(plain);
    for (Py_ssize_t i = 0; numbers != NULL && i < PyTuple_Size(numbers); i++) {
        Py_ssize_t number = PyLong_AsSsize_t(PyTuple_GetItem(numbers, i));
        if (match->spans[2 * number] >= 0)
            return number;
        first = i == 0 ? number : first;
    }
    return first;
}

/* The number of the group that a caller names; -1 with an error. */
static Py_ssize_t number_of(const Match *match, PyObject *group)
{
    Py_ssize_t number = -1;

    if (PyUnicode_Check(group))
        number = number_of_name(match, group);
    else if (PyIndex_Check(group))
        number = PyNumber_AsSsize_t(group, NULL);
    if (number >= 0 && (size_t)number < groups_of(match))
        return number;
    if (!PyErr_Occurred())
        PyErr_SetString(PyExc_IndexError, "no such group");
    return -1;
}

static PyObject *text_of_group(const Match *match, Py_ssize_t number, PyObject *unset)
{
    Py_ssize_t start = match->spans[2 * number], end = match->spans[2 * number + 1];
    struct text text;

    if (start < 0)
        return Py_NewRef(unset);
    if (end < start)
        end = start;
    if (match->pattern->reads != READS_STR)
        return slice_of_bytes(match->string, start, end);
    if (match->is_placed)
        return PyUnicode_Substring(match->string, start, end);
    /* it was searched, so its UTF-8 is there */
    return text_of(match->pattern->state, match->string, READS_STR, &text) ? piece(&text, (size_t)start, (size_t)end) : NULL;
}

static PyObject *text_of_named(const Match *match, PyObject *group)
{
    Py_ssize_t number = number_of(match, group);

    return number < 0 ? NULL : text_of_group(match, number, Py_None);
}

/* Makes the spans those in characters. */
static bool place_spans(Match *match)
{
    struct text text;

    if (match->is_placed)
        return true;
    if (!text_of(match->pattern->state, match->string, READS_STR, &text) || !take_index(match->pattern->state, &text))
        return false;
    /* code of the caller's may have run, and have asked for the same */
    if (!match->is_placed)
        place_all(match, &text);
    close_text(&text);
    return true;
}

static PyObject *span_of(const Match *match, Py_ssize_t number)
{
    PyObject *start = PyLong_FromSsize_t(match->spans[2 * number]), *end = PyLong_FromSsize_t(match->spans[2 * number + 1]);
    PyObject *span = start != NULL && end != NULL ? PyTuple_Pack(2, start, end) : NULL;

    Py_XDECREF(start);
    Py_XDECREF(end);
    return span;
}

/* ---- methods */

static PyObject *match_item(Match *match, PyObject *group)
{
    return text_of_named(match, group);
}

static PyObject *match_group(Match *match, PyObject *const *given, Py_ssize_t count)
{
    PyObject *texts;

    if (count < 2)
        return count == 0 ? text_of_group(match, 0, Py_None) : text_of_named(match, given[0]);
    texts = PyTuple_New(count);
    for (Py_ssize_t i = 0; texts != NULL && i < count; i++) {
        PyObject *text = text_of_named(match, given[i]);
        if (text == NULL)
            Py_CLEAR(texts);
        else
            PyTuple_SetItem(texts, i, text);
    }
    return texts;
}

/* What a caller wants for a group that is not set: the one argument of groups and groupdict. */
static PyObject *read_default(PyObject *const *given, Py_ssize_t count, PyObject *names)
{
    static const char *const known[] = {"default"};
    PyObject *unset = NULL;

    if (!read_arguments(given, count, names, known, 0, 1, &unset))
        return NULL;
    return unset == NULL ? Py_None : unset;
}

static PyObject *match_groups(Match *match, PyObject *const *given, Py_ssize_t count, PyObject *names)
{
    PyObject *unset = read_default(given, count, names), *texts;
    Py_ssize_t groups = (Py_ssize_t)groups_of(match);

    texts = unset == NULL ? NULL : PyTuple_New(groups - 1);
    for (Py_ssize_t number = 1; texts != NULL && number < groups; number++) {
        PyObject *text = text_of_group(match, number, unset);
        if (text == NULL)
            Py_CLEAR(texts);
        else
            PyTuple_SetItem(texts, number - 1, text);
    }
    return texts;
}

static PyObject *match_groupdict(Match *match, PyObject *const *given, Py_ssize_t count, PyObject *names)
{
    PyObject *unset = read_default(given, count, names), *texts, *name, *numbers;
    Py_ssize_t at = 0;

    texts = unset == NULL ? NULL : PyDict_New();
    while (texts != NULL && PyDict_Next(match->pattern->numbers, &at, &name, &numbers)) {
        Py_ssize_t number = number_of(match, name);
        PyObject *text = number < 0 ? NULL : text_of_group(match, number, unset);
        if (text == NULL || PyDict_SetItem(texts, name, text) < 0)
            Py_CLEAR(texts);
        Py_XDECREF(text);
    }
    return texts;
}

/* The group that a caller names as the one argument, 0 without one; -1 with an error. Its spans are in characters then. */
static Py_ssize_t read_group(Match *match, PyObject *const *given, Py_ssize_t count)
{
    if (count > 1) {
        PyErr_Format(PyExc_TypeError, "expected at most 1 argument, got %zd", count);
        return -1;
    }
    if (!place_spans(match))
        return -1;
    return count == 0 ? 0 : number_of(match, given[0]);
}

static PyObject *match_start(Match *match, PyObject *const *given, Py_ssize_t count)
{
    Py_ssize_t number = read_group(match, given, count);

    return number < 0 ? NULL : PyLong_FromSsize_t(match->spans[2 * number]);
}

static PyObject *match_end(Match *match, PyObject *const *given, Py_ssize_t count)
{
    Py_ssize_t number = read_group(match, given, count);

    return number < 0 ? NULL : PyLong_FromSsize_t(match->spans[2 * number + 1]);
}

static PyObject *match_span(Match *match, PyObject *const *given, Py_ssize_t count)
{
    Py_ssize_t number = read_group(match, given, count);

    return number < 0 ? NULL : span_of(match, number);
}

static PyObject *match_regs(Match *match, void *unused)
{
    Py_ssize_t groups = (Py_ssize_t)groups_of(match);
    PyObject *regs = place_spans(match) ? PyTuple_New(groups) : NULL;

    (void)unused;
    for (Py_ssize_t number = 0; regs != NULL && number < groups; number++) {
        PyObject *span = span_of(match, number);
        if (span == NULL)
            Py_CLEAR(regs);
        else
            PyTuple_SetItem(regs, number, span);
    }
    return regs;
}

/* ---- the group that closed last */

/* Asks Python when the groups close, at the first call. */
static bool read_closings(Pattern *pattern)
{
    PyObject *numbers;
    struct closing *closings;

    if (pattern->closings != NULL)
        return true;
    numbers = PyObject_CallFunctionObjArgs(pattern->state->help[HELP_CLOSINGS], (PyObject *)pattern, NULL);
    if (numbers == NULL)
        return false;
    closings = PyMem_Calloc(pattern->groups, sizeof *closings);
    if (closings == NULL)
        PyErr_NoMemory();
    for (size_t i = 0; closings != NULL && i < 3 * pattern->groups; i++) {
        PyObject *number = PySequence_GetItem(numbers, (Py_ssize_t)i);
        ((Py_ssize_t *)closings)[i] = number == NULL ? 0 : PyLong_AsSsize_t(number);
        Py_XDECREF(number);
    }
    Py_DECREF(numbers);
    if (PyErr_Occurred()) {
        PyMem_Free(closings);
        return false;
    }
    /* another thread may have been first */
    PyMem_Free(pattern->closings);
    pattern->closings = closings;
    return true;
}

/* Whether a group closes after another: in a later loop; in the same, if it ends or else begins further on in the text, or later
 * in the pattern. */
static bool is_later(const Match *match, size_t group, size_t other)
{
    const struct closing *a = &match->pattern->closings[group], *b = &match->pattern->closings[other];
    const Py_ssize_t *span_a = match->spans + 2 * group, *span_b = match->spans + 2 * other;

    if (a->loop != b->loop)
        return a->loop > b->loop;
    if (span_a[1] != span_b[1])
        return span_a[1] > span_b[1];
    return span_a[0] != span_b[0] ? span_a[0] > span_b[0] : a->closed > b->closed;
}

/* The group that closed last, 0 if none is set, -1 with an error. It is the last one in the pattern, of those in one loop the
 * one that ends last in the text, or else begins last, and of those in one another the outer one. */
static Py_ssize_t match_last(const Match *match)
{
    size_t last = 0, outer, groups = groups_of(match);
    const struct closing *closings;
    bool are_several = false;

    for (size_t group = 1; group < groups; group++) {
        if (match->spans[2 * group] < 0)
            continue;
        are_several = last != 0;
        if (are_several && !read_closings(match->pattern))
            return -1;
        if (!are_several || is_later(match, group, last))
            last = group;
    }
    closings = match->pattern->closings;
    outer = last;
    for (size_t group = 1; are_several && group < groups; group++)
        if (match->spans[2 * group] >= 0 && closings[group].opened <= closings[last].closed
            && closings[group].closed > closings[outer].closed)
            outer = group;
    return (Py_ssize_t)outer;
}

static PyObject *match_lastindex(Match *match, void *unused)
{
    Py_ssize_t last = match_last(match);

    (void)unused;
    if (last <= 0)
        return last < 0 ? NULL : Py_NewRef(Py_None);
    return PyLong_FromSsize_t(last);
}

static PyObject *match_lastgroup(Match *match, void *unused)
{
    Py_ssize_t last = match_last(match);
    PyObject *name;

    (void)unused;
    if (last <= 0)
        return last < 0 ? NULL : Py_NewRef(Py_None);
    name = PyTuple_GetItem(match->pattern->names, last);
    Py_XINCREF(name);
    return name;
}

/* ---- the type */

static PyMethodDef methods[] = {
    {"group", (PyCFunction)(void (*)(void))match_group, METH_FASTCALL,
     "group(*groups)\n--\n\nThe text of a group, or None if it is not set; a tuple of several. Group 0, the default, is the match."},
    {"groups", (PyCFunction)(void (*)(void))match_groups, METH_FASTCALL | METH_KEYWORDS,
     "groups($self, default=None)\n--\n\nThe texts of all groups from 1 on, with the default for a group that is not set."},
    {"groupdict", (PyCFunction)(void (*)(void))match_groupdict, METH_FASTCALL | METH_KEYWORDS,
     "groupdict($self, default=None)\n--\n\nThe text of each name, with the default for a group that is not set."},
    {"start", (PyCFunction)(void (*)(void))match_start, METH_FASTCALL,
     "start($self, group=0, /)\n--\n\nWhere a group begins; -1 if it is not set."},
    {"end", (PyCFunction)(void (*)(void))match_end, METH_FASTCALL,
     "end($self, group=0, /)\n--\n\nWhere a group ends; -1 if it is not set."},
    {"span", (PyCFunction)(void (*)(void))match_span, METH_FASTCALL,
     "span($self, group=0, /)\n--\n\nStart and end of a group; (-1, -1) if it is not set."},
    {NULL, NULL, 0, NULL},
};

static PyMemberDef members[] = {
    {"re", T_OBJECT_EX, offsetof(Match, pattern), READONLY, "The pattern."},
    {"string", T_OBJECT_EX, offsetof(Match, string), READONLY, "The string."},
    {"pos", T_PYSSIZET, offsetof(Match, pos), READONLY, "Where the range begins that was searched."},
    {"endpos", T_PYSSIZET, offsetof(Match, endpos), READONLY, "Where the range ends that was searched."},
    {NULL, 0, 0, 0, NULL},
};

static PyGetSetDef getters[] = {
    {"regs", (getter)match_regs, NULL, "Start and end of each group from 0 on; (-1, -1) if a group is not set.", NULL},
    {"lastindex", (getter)match_lastindex, NULL, "The number of the group that closed last; None if none is set.", NULL},
    {"lastgroup", (getter)match_lastgroup, NULL, "The name of the group `lastindex`, or None.", NULL},
    {NULL, NULL, NULL, NULL, NULL},
};

static PyType_Slot slots[] = {
    {Py_tp_dealloc, free_match}, {Py_tp_traverse, visit_match}, {Py_tp_methods, methods}, {Py_tp_members, members},
    {Py_tp_getset, getters},     {Py_mp_subscript, match_item}, {0, NULL},
};

#define FLAGS Py_TPFLAGS_DEFAULT | Py_TPFLAGS_HAVE_GC | Py_TPFLAGS_DISALLOW_INSTANTIATION

static PyType_Spec spec = {"fancy.Match", sizeof(Match), sizeof(Py_ssize_t), FLAGS, slots};

static PyMethodDef re_methods[MOST_METHODS];

static PyType_Slot re_slots[] = {
    {Py_tp_dealloc, free_match}, {Py_tp_traverse, visit_match}, {Py_tp_methods, re_methods}, {Py_tp_members, members},
    {Py_tp_getset, getters},     {Py_mp_subscript, match_item}, {Py_tp_repr, rest_repr},
    {Py_tp_doc, "The result of re.match() and re.search().\nMatch objects always have a boolean value of True."}, {0, NULL},
};

static PyType_Spec re_spec = {"fancy.re.Match", sizeof(Match), sizeof(Py_ssize_t), FLAGS | Py_TPFLAGS_IMMUTABLETYPE, re_slots};

bool make_matches(PyObject *module, struct state *state)
{
    join_methods(re_methods, methods, rest_of_matches);
    state->match_type = (PyTypeObject *)PyType_FromModuleAndSpec(module, &spec, NULL);
    state->re_match_type = (PyTypeObject *)PyType_FromModuleAndSpec(module, &re_spec, NULL);
    return state->match_type != NULL && state->re_match_type != NULL
           && PyModule_AddObjectRef(module, "Match", (PyObject *)state->match_type) == 0
           && PyModule_AddObjectRef(module, "ReMatch", (PyObject *)state->re_match_type) == 0;
}
