/* patterns.c: the objects of a pattern, and the iterator over its matches. */
#include "core.h"

/* ---- arguments */

/* Reads arguments that may have names: `count` by place, and those of `names` behind them. What is left out is NULL. */
bool read_arguments(PyObject *const *given, Py_ssize_t count, PyObject *names, const char *const *known, Py_ssize_t least,
                    Py_ssize_t most, PyObject **arguments)
{
    Py_ssize_t named;

    if (count > most) {
        PyErr_Format(PyExc_TypeError, "expected at most %zd arguments, got %zd", most, count);
        return false;
    }
    for (Py_ssize_t i = 0; i < most; i++)
        arguments[i] = i < count ? given[i] : NULL;
    if (names == NULL && count >= least)
        return true;
    named = names == NULL ? 0 : PyTuple_Size(names);
    for (Py_ssize_t i = 0; i < named; i++) {
        PyObject *name = PyTuple_GetItem(names, i);
        Py_ssize_t at = 0;
        while (at < most && PyUnicode_CompareWithASCIIString(name, known[at]) != 0)
            at++;
        if (at == most || arguments[at] != NULL) {
            PyErr_Format(PyExc_TypeError, "the argument %R is not known, or is given twice", name);
            return false;
        }
        arguments[at] = given[count + i];
    }
    for (Py_ssize_t i = 0; i < least; i++)
        if (arguments[i] == NULL) {
            PyErr_Format(PyExc_TypeError, "the argument '%s' is missing", known[i]);
            return false;
        }
    return true;
}

/* How many matches a caller wants at most; 0, and NULL, are all. */
bool read_count(PyObject *number, Py_ssize_t *count)
{
    *count = number == NULL ? 0 : PyNumber_AsSsize_t(number, NULL);
    if (*count == -1 && PyErr_Occurred())
        return false;
    if (*count == 0)
        *count = PY_SSIZE_T_MAX;
    return true;
}

static bool read_range(Pattern *pattern, PyObject *const *given, Py_ssize_t count, PyObject *names, struct range *range)
{
    static const char *const known[] = {"string", "pos", "endpos"};
    PyObject *arguments[3];

    if (names == NULL && count == 1)
        return range_of(pattern->state, given[0], pattern->reads, NULL, NULL, range);
    return read_arguments(given, count, names, known, 1, 3, arguments)
           && range_of(pattern->state, arguments[0], pattern->reads, arguments[1], arguments[2], range);
}

/* ---- making and freeing */

/* The name of a group, or None. */
static PyObject *name_of(Pattern *pattern, size_t group)
{
    struct fancy_program *program = &pattern->search.first;
    char own[128], *name = own;
    size_t length = pattern->state->library.group_name(program, group, own, sizeof own);
    PyObject *text;

    if (length == 0)
        return Py_NewRef(Py_None);
    if (length >= sizeof own) {
        name = PyMem_Malloc(length + 1);
        if (name == NULL)
            return PyErr_NoMemory();
        pattern->state->library.group_name(program, group, name, length + 1);
    }
    text = PyUnicode_DecodeUTF8(name, (Py_ssize_t)length, NULL);
    if (name != own)
        PyMem_Free(name);
    return text;
}

/* The names of all groups as a tuple: those that are given, or else those of the text. */
static PyObject *all_names(Pattern *pattern, PyObject *given)
{
    Py_ssize_t groups = (Py_ssize_t)pattern->groups;
    PyObject *names;

    if (given != Py_None) {
        if (PyTuple_Check(given) && PyTuple_Size(given) == groups)
            return Py_NewRef(given);
        PyErr_SetString(PyExc_ValueError, "there is not one name for each group");
        return NULL;
    }
    names = PyTuple_New(groups);
    for (Py_ssize_t group = 0; names != NULL && group < groups; group++) {
        PyObject *name = name_of(pattern, (size_t)group);
        if (name == NULL)
            Py_CLEAR(names);
        else
            PyTuple_SetItem(names, group, name);
    }
    return names;
}

/* Reads the names of the groups, and asks Python for the numbers of each. */
static bool read_names(Pattern *pattern, PyObject *given)
{
    PyObject *both;

    pattern->names = all_names(pattern, given);
    if (pattern->names == NULL)
        return false;
    both = PyObject_CallFunctionObjArgs(pattern->state->help[HELP_NAMES], pattern->names, NULL);
    if (both == NULL)
        return false;
    pattern->numbers = PySequence_GetItem(both, 0);
    pattern->groupindex = PySequence_GetItem(both, 1);
    Py_DECREF(both);
    return pattern->numbers != NULL && pattern->groupindex != NULL;
}

/* Compiles the text of a new pattern, with the options by name. */
static bool compile(Pattern *pattern, PyObject *given)
{
    struct state *state = pattern->state;
    PyObject *both = PyObject_CallFunctionObjArgs(state->help[HELP_OPTIONS], pattern->flags, given, NULL), *bytes;
    bool is_compiled;

    if (both == NULL)
        return false;
    pattern->options = PySequence_GetItem(both, 0);
    bytes = PySequence_GetItem(both, 1);
    Py_DECREF(both);
    is_compiled = pattern->options != NULL && bytes != NULL && compile_programs(state, &pattern->search, pattern->text, bytes);
    Py_XDECREF(bytes);
    if (is_compiled)
        pattern->groups = state->library.group_count(&pattern->search.first);
    return is_compiled;
}

/* `Pattern(pattern, flags, options, text=None, names=None, adjacent=False, reads=0)`: the text is what is compiled, if that is
 * not the pattern as it is; names and adjacent are of the module `re`. */
PyObject *new_pattern(PyTypeObject *type, PyObject *given, PyObject *named)
{
    static char *known[] = {"pattern", "flags", "options", "text", "names", "adjacent", "reads", NULL};
    PyObject *source, *flags, *options, *text = Py_None, *names = Py_None, *module = PyType_GetModule(type);
    int is_adjacent = 0, reads = READS_STR;
    Pattern *pattern;

    if (module == NULL
        || !PyArg_ParseTupleAndKeywords(given, named, "OOO|OOpi", known, &source, &flags, &options, &text, &names, &is_adjacent,
                                        &reads))
        return NULL;
    pattern = (Pattern *)((allocfunc)PyType_GetSlot(type, Py_tp_alloc))(type, 0);
    if (pattern == NULL)
        return NULL;
    /* the state is the module's, so that lives as long */
    pattern->module = Py_NewRef(module);
    pattern->state = PyModule_GetState(module);
    pattern->match_type = type == pattern->state->re_pattern_type ? pattern->state->re_match_type : pattern->state->match_type;
    pattern->is_adjacent = is_adjacent;
    pattern->reads = (enum reads)reads;
    pattern->flags = Py_NewRef(flags);
    pattern->cache = PyDict_New();
    pattern->text = PyUnicode_FromObject(text == Py_None ? source : text);
    pattern->pattern = Py_NewRef(text == Py_None && pattern->text != NULL ? pattern->text : source);
    if (pattern->cache == NULL || pattern->text == NULL || !load(pattern->state) || !compile(pattern, options)
        || !read_names(pattern, names))
        Py_CLEAR(pattern);
    return (PyObject *)pattern;
}

static int visit_pattern(Pattern *pattern, visitproc visit, void *arg)
{
    Py_VISIT(Py_TYPE(pattern));
    Py_VISIT(pattern->module);
    Py_VISIT(pattern->pattern);
    Py_VISIT(pattern->text);
    Py_VISIT(pattern->flags);
    Py_VISIT(pattern->options);
    Py_VISIT(pattern->cache);
    Py_VISIT(pattern->numbers);
    Py_VISIT(pattern->groupindex);
    Py_VISIT(pattern->names);
    Py_VISIT(pattern->parts);
    Py_VISIT(pattern->twin);
    return 0;
}

/* A ring of references goes through what Python keeps of the pattern. */
static int clear_pattern(Pattern *pattern)
{
    Py_CLEAR(pattern->cache);
    return 0;
}

static void free_pattern(Pattern *pattern)
{
    PyTypeObject *type = Py_TYPE(pattern);
    PyObject *module = pattern->module;

    PyObject_GC_UnTrack(pattern);
    if (pattern->weak != NULL)
        PyObject_ClearWeakRefs((PyObject *)pattern);
    free_programs(pattern->state, &pattern->search);
    free_programs(pattern->state, &pattern->whole);
    free_programs(pattern->state, &pattern->advance);
    PyMem_Free(pattern->closings);
    Py_XDECREF(pattern->pattern);
    Py_XDECREF(pattern->text);
    Py_XDECREF(pattern->flags);
    Py_XDECREF(pattern->options);
    Py_XDECREF(pattern->cache);
    Py_XDECREF(pattern->numbers);
    Py_XDECREF(pattern->groupindex);
    Py_XDECREF(pattern->names);
    Py_XDECREF(pattern->template);
    Py_XDECREF(pattern->parts);
    Py_XDECREF(pattern->twin);
    PyObject_GC_Del(pattern);
    Py_XDECREF(module);
    Py_DECREF(type);
}

/* ---- one match */

/* Compiles the program of fullmatch, at its first call. */
static bool compile_whole(Pattern *pattern)
{
    struct state *state = pattern->state;
    struct programs whole = {FANCY_NOTHING, NULL, {0}};
    PyObject *both, *text, *options;
    bool is_compiled;

    if (pattern->has_whole)
        return true;
    both = PyObject_CallFunctionObjArgs(state->help[HELP_WHOLE], (PyObject *)pattern, NULL);
    if (both == NULL)
        return false;
    text = PySequence_GetItem(both, 0);
    options = PySequence_GetItem(both, 1);
    Py_DECREF(both);
    is_compiled = text != NULL && options != NULL && compile_programs(state, &whole, text, options);
    Py_XDECREF(text);
    Py_XDECREF(options);
    if (!is_compiled)
        return false;
    /* another thread may have been first, and may be searching with it */
    if (pattern->has_whole)
        free_programs(state, &whole);
    else
        pattern->whole = whole;
    pattern->has_whole = true;
    return true;
}

/* The first match, or None. With `is_whole` it has to end where the range does. */
static PyObject *find_in(Pattern *pattern, const struct range *range, bool is_anchored, bool is_whole)
{
    Pattern *searched = searched_in(pattern, &range->text);
    size_t own[OWN_NUMBERS], *spans = own;
    PyObject *match = NULL;
    int found;

    if (range->pos > range->endpos)
        return Py_NewRef(Py_None);
    if (searched == NULL || (is_whole && !compile_whole(searched)))
        return NULL;
    if (2 * pattern->groups > OWN_NUMBERS && (spans = PyMem_Malloc(2 * pattern->groups * sizeof *spans)) == NULL)
        return PyErr_NoMemory();
    found = find(searched, is_whole ? &searched->whole : &searched->search, range, is_anchored, spans);
    if (found == 0 || (found > 0 && is_whole && spans[1] != range->end))
        match = Py_NewRef(Py_None);
    else if (found > 0)
        match = new_match(pattern, range, spans, pattern->groups);
    if (spans != own)
        PyMem_Free(spans);
    return match;
}

static PyObject *one_match(Pattern *pattern, PyObject *const *given, Py_ssize_t count, PyObject *names, bool is_anchored, bool is_whole)
{
    struct range range;
    PyObject *match;

    if (!read_range(pattern, given, count, names, &range))
        return NULL;
    match = find_in(pattern, &range, is_anchored, is_whole);
    close_text(&range.text);
    return match;
}

static PyObject *pattern_search(Pattern *pattern, PyObject *const *given, Py_ssize_t count, PyObject *names)
{
    return one_match(pattern, given, count, names, false, false);
}

static PyObject *pattern_match(Pattern *pattern, PyObject *const *given, Py_ssize_t count, PyObject *names)
{
    return one_match(pattern, given, count, names, true, false);
}

static PyObject *pattern_fullmatch(Pattern *pattern, PyObject *const *given, Py_ssize_t count, PyObject *names)
{
    return one_match(pattern, given, count, names, true, true);
}

/* ---- all matches */

/* What findall and split tell of a match: a group, with "" or None for one that is not set. */
static PyObject *group_text(const struct list *list, const size_t *spans, size_t group, bool has_none)
{
    size_t start = spans[2 * group];

    if (start == FANCY_UNSET)
        return has_none ? Py_NewRef(Py_None) : piece(&list->range.text, 0, 0);
    return piece(&list->range.text, start, spans[2 * group + 1]);
}

/* Appends a new reference, which may be NULL for an error. */
static bool append(PyObject *texts, PyObject *text)
{
    bool is_appended = text != NULL && PyList_Append(texts, text) == 0;

    Py_XDECREF(text);
    return is_appended;
}

/* What findall tells of a match: the match, its one group, or a tuple of its groups. */
static PyObject *found_text(const struct list *list, const size_t *spans)
{
    size_t groups = list->width / 2;
    PyObject *texts;

    if (groups <= 2)
        return group_text(list, spans, groups - 1, false);
    texts = PyTuple_New((Py_ssize_t)groups - 1);
    for (size_t group = 1; texts != NULL && group < groups; group++) {
        PyObject *text = group_text(list, spans, group, false);
        if (text == NULL)
            Py_CLEAR(texts);
        else
            PyTuple_SetItem(texts, (Py_ssize_t)group - 1, text);
    }
    return texts;
}

static PyObject *pattern_findall(Pattern *pattern, PyObject *const *given, Py_ssize_t count, PyObject *names)
{
    struct range range;
    struct list list;
    const size_t *spans;
    PyObject *texts;

    if (!read_range(pattern, given, count, names, &range))
        return NULL;
    texts = open_list(&list, pattern, &range, PY_SSIZE_T_MAX, pattern->groups > 1, 0) ? PyList_New(0) : NULL;
    while (texts != NULL && (spans = next_row(&list)) != NULL)
        if (!append(texts, found_text(&list, spans)))
            Py_CLEAR(texts);
    if (texts != NULL && PyErr_Occurred())
        Py_CLEAR(texts);
    close_list(&list);
    close_text(&range.text);
    return texts;
}

/* Appends what is between the matches, and between two of them the groups of the match. */
static bool append_pieces(PyObject *pieces, struct list *list)
{
    const struct text *text = &list->range.text;
    const size_t *spans;
    size_t end = 0;

    while ((spans = next_row(list)) != NULL) {
        if (!append(pieces, piece(text, end, spans[0])))
            return false;
        for (size_t group = 1; group < list->width / 2; group++)
            if (!append(pieces, group_text(list, spans, group, true)))
                return false;
        end = spans[1];
    }
    return !PyErr_Occurred() && append(pieces, piece(text, end, text->length));
}

static PyObject *pattern_split(Pattern *pattern, PyObject *const *given, Py_ssize_t count, PyObject *names)
{
    static const char *const known[] = {"string", "maxsplit"};
    PyObject *arguments[2], *pieces;
    struct range range;
    struct list list;
    Py_ssize_t most;

    if (!read_arguments(given, count, names, known, 1, 2, arguments) || !read_count(arguments[1], &most)
        || !range_of(pattern->state, arguments[0], pattern->reads, NULL, NULL, &range))
        return NULL;
    pieces = open_list(&list, pattern, &range, most, pattern->groups > 1, 0) ? PyList_New(0) : NULL;
    if (pieces != NULL && !append_pieces(pieces, &list))
        Py_CLEAR(pieces);
    close_list(&list);
    close_text(&range.text);
    return pieces;
}

static PyObject *replace(Pattern *pattern, PyObject *const *given, Py_ssize_t count, PyObject *names, bool with_count)
{
    static const char *const known[] = {"repl", "string", "count"};
    PyObject *arguments[3];

    if (!read_arguments(given, count, names, known, 2, 3, arguments))
        return NULL;
    return replaced(pattern, arguments[0], arguments[1], arguments[2], with_count);
}

static PyObject *pattern_sub(Pattern *pattern, PyObject *const *given, Py_ssize_t count, PyObject *names)
{
    return replace(pattern, given, count, names, false);
}

static PyObject *pattern_subn(Pattern *pattern, PyObject *const *given, Py_ssize_t count, PyObject *names)
{
    return replace(pattern, given, count, names, true);
}

/* ---- the iterator */

typedef struct {
    PyObject_HEAD
    struct list list;
    /* a thread lets the lock go in it */
    bool is_busy;
} Matches;

static PyObject *pattern_finditer(Pattern *pattern, PyObject *const *given, Py_ssize_t count, PyObject *names)
{
    struct range range;
    Matches *matches;

    if (!read_range(pattern, given, count, names, &range))
        return NULL;
    matches = PyObject_GC_New(Matches, pattern->state->matches_type);
    if (matches == NULL) {
        close_text(&range.text);
        return NULL;
    }
    Py_INCREF((PyObject *)pattern);
    Py_INCREF(range.text.string);
    matches->is_busy = false;
    if (!open_list(&matches->list, pattern, &range, PY_SSIZE_T_MAX, pattern->groups > 1, 1))
        Py_CLEAR(matches);
    else
        PyObject_GC_Track(matches);
    return (PyObject *)matches;
}

static PyObject *next_match(Matches *matches)
{
    struct list *list = &matches->list;
    const size_t *spans;

    if (matches->is_busy) {
        PyErr_SetString(PyExc_ValueError, "the iterator is searching in another thread");
        return NULL;
    }
    matches->is_busy = true;
    spans = next_row(list);
    matches->is_busy = false;
    return spans == NULL ? NULL : new_match(list->pattern, &list->range, spans, list->width / 2);
}

static int visit_matches(Matches *matches, visitproc visit, void *arg)
{
    Py_VISIT(Py_TYPE(matches));
    Py_VISIT(matches->list.pattern);
    Py_VISIT(matches->list.range.text.string);
    return 0;
}

static void free_matches(Matches *matches)
{
    PyTypeObject *type = Py_TYPE(matches);

    PyObject_GC_UnTrack(matches);
    close_list(&matches->list);
    close_text(&matches->list.range.text);
    Py_DECREF(matches->list.pattern);
    Py_DECREF(matches->list.range.text.string);
    PyObject_GC_Del(matches);
    Py_DECREF(type);
}

static PyType_Slot matches_slots[] = {
    {Py_tp_dealloc, free_matches}, {Py_tp_traverse, visit_matches}, {Py_tp_iter, PyObject_SelfIter},
    {Py_tp_iternext, next_match},  {0, NULL},
};

static PyType_Spec matches_spec = {
    "fancy._core.Matches", sizeof(Matches), 0,
    Py_TPFLAGS_DEFAULT | Py_TPFLAGS_HAVE_GC | Py_TPFLAGS_DISALLOW_INSTANTIATION, matches_slots,
};

/* ---- the type */

static PyObject *pattern_groups(Pattern *pattern, void *unused)
{
    (void)unused;
    return PyLong_FromSize_t(pattern->groups - 1);
}

/* How many copies are idle. */
static PyObject *pattern_idle(Pattern *pattern, void *unused)
{
    size_t count = 0;

    (void)unused;
    for (const struct handle *handle = pattern->search.idle; handle != NULL; handle = handle->next)
        count++;
    return PyLong_FromSize_t(count);
}

#define WITH_NAMES(function) (PyCFunction)(void (*)(void))function, METH_FASTCALL | METH_KEYWORDS
#define RANGE "($self, string, pos=0, endpos=sys.maxsize)\n--\n\n"

static PyMethodDef methods[] = {
    {"search", WITH_NAMES(pattern_search), "search" RANGE "The first match that begins at pos or later, or None."},
    {"match", WITH_NAMES(pattern_match), "match" RANGE "The match that begins at pos, or None."},
    {"fullmatch", WITH_NAMES(pattern_fullmatch),
     "fullmatch" RANGE "The match that begins at pos and ends at endpos, or None.\n\n"
     "Raises `error` if the pattern calls itself as a whole, as by `\\g<0>`, and has a lazy loop."},
    {"finditer", WITH_NAMES(pattern_finditer),
     "finditer" RANGE "An iterator over the matches, from left to right. Matches do not overlap, and an empty match directly after\n"
     "another match is left out."},
    {"findall", WITH_NAMES(pattern_findall),
     "findall" RANGE "The texts of all matches. If the pattern has one group, they are the texts of that group; if it has more,\n"
     "tuples of the texts of the groups, with \"\" for a group that is not set."},
    {"split", WITH_NAMES(pattern_split),
     "split($self, string, maxsplit=0)\n--\n\nThe pieces of the string between the matches, and between two of them the groups of\n"
     "the match. At most maxsplit matches split the string, and all do if it is 0."},
    {"sub", WITH_NAMES(pattern_sub),
     "sub($self, repl, string, count=0)\n--\n\nThe string with its matches replaced: the first `count` of them, or all if count is\n"
     "0.\n\nrepl is a template, in which `\\1`, `\\g<1>` and `\\g<name>` are groups, or a function that returns the new text of a\n"
     "match. If the function returns None, the match is removed. Raises `error` if the template cannot be read."},
    {"subn", WITH_NAMES(pattern_subn),
     "subn($self, repl, string, count=0)\n--\n\nWhat `sub` returns, and how many matches were replaced."},
    {NULL, NULL, 0, NULL},
};

static PyMemberDef members[] = {
    {"pattern", T_OBJECT_EX, offsetof(Pattern, pattern), READONLY, "The pattern, as it was given."},
    {"flags", T_OBJECT_EX, offsetof(Pattern, flags), READONLY, "The flags."},
    {"groupindex", T_OBJECT_EX, offsetof(Pattern, groupindex), READONLY, "The number of the first group with each name."},
    {"_text", T_OBJECT_EX, offsetof(Pattern, text), READONLY, NULL},
    {"_options", T_OBJECT_EX, offsetof(Pattern, options), READONLY, NULL},
    {"_names", T_OBJECT_EX, offsetof(Pattern, names), READONLY, NULL},
    {"_cache", T_OBJECT_EX, offsetof(Pattern, cache), READONLY, NULL},
    {"_reads", T_INT, offsetof(Pattern, reads), READONLY, NULL},
    {"_is_adjacent", T_BOOL, offsetof(Pattern, is_adjacent), READONLY, NULL},
    {"__weaklistoffset__", T_PYSSIZET, offsetof(Pattern, weak), READONLY, NULL},
    {NULL, 0, 0, 0, NULL},
};

static PyGetSetDef getters[] = {
    {"groups", (getter)pattern_groups, NULL, "How many groups it has, without group 0.", NULL},
    {"_idle", (getter)pattern_idle, NULL, NULL, NULL},
    {NULL, NULL, NULL, NULL, NULL},
};

static PyType_Slot slots[] = {
    {Py_tp_new, new_pattern},     {Py_tp_dealloc, free_pattern}, {Py_tp_traverse, visit_pattern}, {Py_tp_clear, clear_pattern},
    {Py_tp_methods, methods},     {Py_tp_members, members},      {Py_tp_getset, getters},         {0, NULL},
};

#define FLAGS Py_TPFLAGS_DEFAULT | Py_TPFLAGS_HAVE_GC

static PyType_Spec spec = {"fancy.Pattern", sizeof(Pattern), 0, FLAGS, slots};

static PyMethodDef re_methods[MOST_METHODS];

static PyType_Slot re_slots[] = {
    {Py_tp_dealloc, free_pattern}, {Py_tp_traverse, visit_pattern}, {Py_tp_clear, clear_pattern}, {Py_tp_methods, re_methods},
    {Py_tp_members, members},      {Py_tp_getset, getters},         {Py_tp_repr, rest_repr},      {Py_tp_hash, rest_hash},
    {Py_tp_richcompare, rest_compare}, {Py_tp_doc, "Compiled regular expression object."}, {0, NULL},
};

/* made by `_re_pattern` alone, and not to be changed, as `re` has it */
static PyType_Spec re_spec = {
    "fancy.re.Pattern", sizeof(Pattern), 0, FLAGS | Py_TPFLAGS_DISALLOW_INSTANTIATION | Py_TPFLAGS_IMMUTABLETYPE, re_slots,
};

bool make_patterns(PyObject *module, struct state *state)
{
    join_methods(re_methods, methods, rest_of_patterns);
    state->pattern_type = (PyTypeObject *)PyType_FromModuleAndSpec(module, &spec, NULL);
    state->re_pattern_type = (PyTypeObject *)PyType_FromModuleAndSpec(module, &re_spec, NULL);
    state->matches_type = (PyTypeObject *)PyType_FromModuleAndSpec(module, &matches_spec, NULL);
    return state->pattern_type != NULL && state->re_pattern_type != NULL && state->matches_type != NULL
           && PyModule_AddObjectRef(module, "Pattern", (PyObject *)state->pattern_type) == 0
           && PyModule_AddObjectRef(module, "RePattern", (PyObject *)state->re_pattern_type) == 0;
}
