/* core.h: what the files of the extension share. Python's limited API of 3.10: one build serves all later versions.
 *
 * The extension searches as hosts/python/fancy/_patterns.py does by ctypes, with objects of C. What is rare stays in Python:
 * `struct state` has the functions that this calls for it. The library is called by the addresses that ctypes found, so
 * nothing is linked. Each call of it is made with Python's lock held, unless the text is long: see programs.c.
 */
#ifndef CORE_H
#define CORE_H

#define PY_SSIZE_T_CLEAN
#include <Python.h>
#include <structmember.h>

#include <stdbool.h>
#include <stdint.h>
#include <string.h>

#include "fancy.h"
#include "fancy_bytes.h"
/* the macros for null pointers, which no call here passes */
#undef fancy_compile_pattern
#undef fancy_find
#undef fancy_find_all
#undef fancy_captures_all
#undef fancy_group_name

/* The calls of the library, in the order in which Python names their addresses. */
struct library {
    struct fancy_outcome (*compile)(const char *, size_t, const struct fancy_options *, struct fancy_program *);
    struct fancy_outcome (*clone)(struct fancy_program *, struct fancy_program *);
    void (*release)(struct fancy_program *);
    size_t (*group_count)(const struct fancy_program *);
    size_t (*group_name)(struct fancy_program *, size_t, char *, size_t);
    struct fancy_outcome (*find)(struct fancy_program *, const char *, size_t, const struct fancy_options *, size_t *, size_t);
    struct fancy_outcome (*find_all)(struct fancy_program *, const char *, size_t, const struct fancy_options *,
                                     struct fancy_cursor *, size_t *, size_t);
    struct fancy_outcome (*captures_all)(struct fancy_program *, const char *, size_t, const struct fancy_options *,
                                         struct fancy_cursor *, size_t *, size_t);
};
enum { LIBRARY_CALLS = 8 };

/* The functions of Python, in the order in which they are handed in. */
enum help {
    HELP_ADDRESSES, /* () -> the addresses of the library's calls */
    HELP_OPTIONS,   /* (flags, options by name) -> the options as Python keeps them, and the bytes of their struct */
    HELP_NAMES,     /* (the name of each group, or None) -> the numbers of each name as a dict, and the first as a mapping */
    HELP_REFUSAL,   /* (pattern, bytes of the options, five numbers of an outcome) -> why it was not compiled */
    HELP_FAULT,     /* (pattern or None, five numbers of an outcome) -> why a search has no answer */
    HELP_WHOLE,     /* (pattern object) -> the text and the bytes of the options of the program of fullmatch */
    HELP_CLOSINGS,  /* (pattern object) -> three numbers for each group, one after another: see match_last */
    HELP_TEMPLATE,  /* (pattern object, text) -> the parts of a template: texts, numbers, tuples of numbers */
    HELP_COMPILE,   /* (pattern, flags) -> a pattern object */
    HELP_TWIN,      /* (pattern object) -> what is searched for in texts with lone surrogates: it, or another */
    HELPS
};

/* How the texts of a pattern are read: a `str`; bytes, each of which is a character; bytes that are UTF-8, but for some. */
enum reads { READS_STR, READS_LATIN1, READS_UTF8 };

/* What was read of a string of the caller's, where its own memory is not the text or does not find places. It is freed when
 * nobody uses it. `copy` and `view` are of a buffer that was copied. */
struct kept {
    size_t uses;
    struct fancy_bytes read;
    PyObject *copy, *view;
};

/* A text of which a part is searched; `string` is borrowed from who calls. Places of the caller's are characters of a `str`,
 * or bytes, and then `bytes` is where they are. `is_mapped` says that it has lone surrogates. */
struct text {
    PyObject *string;
    const char *utf8;
    size_t length;
    Py_ssize_t characters;
    const char *bytes;
    bool is_mapped;
    struct kept *kept;
};

/* A string of which something is kept. */
struct places {
    PyObject *string;
    enum reads reads;
    struct kept *kept;
};
enum { TEXTS_KEPT = 8, PATTERNS_KEPT = 512, LONG_BYTES = 1 << 12 };

struct state {
    struct library library;
    bool is_loaded;
    PyObject *help[HELPS];
    /* the objects of the package, and those of its module `re`, which differ in what Python adds to them */
    PyTypeObject *pattern_type, *match_type, *re_pattern_type, *re_match_type;
    PyTypeObject *matches_type;
    /* classes of Python with what the latter do rarely */
    PyObject *re_pattern_rest, *re_match_rest;
    struct places places[TEXTS_KEPT];
    int next_places;
    /* the patterns of the last calls without flags, by their texts */
    PyObject *kept;
};

/* A program that is searched with while Python's lock is not held. */
struct handle {
    struct fancy_program program;
    struct handle *next;
};

/* What one text of a pattern was compiled to. With `first` searches go on that hold Python's lock, so that it is one at a
 * time, and others take a copy of it, of those that are idle. */
struct programs {
    struct fancy_program first;
    struct handle *idle;
    struct fancy_options options;
};

struct closing {
    Py_ssize_t loop, opened, closed;
};

typedef struct {
    PyObject_HEAD
    struct state *state;
    PyObject *module;
    PyTypeObject *match_type;
    /* what the caller gave, and the text that is compiled */
    PyObject *pattern, *text;
    PyObject *flags, *options, *cache, *numbers, *groupindex;
    enum reads reads;
    /* of each group its name, or None */
    PyObject *names;
    PyObject *weak;
    /* with group 0; 0 before it was compiled */
    size_t groups;
    /* how it is searched; for fullmatch; and for matches that are not empty, if `is_adjacent` */
    struct programs search, whole, advance;
    bool has_whole, has_advance;
    /* whether an empty match may follow directly after another, as in `re` */
    bool is_adjacent;
    struct closing *closings;
    /* the last template and its parts */
    PyObject *template, *parts;
    /* what is searched for in texts with lone surrogates, if that is another pattern */
    PyObject *twin;
} Pattern;

typedef struct {
    PyObject_VAR_HEAD
    Pattern *pattern;
    PyObject *string;
    Py_ssize_t pos, endpos;
    /* whether the spans are in characters, and not in bytes */
    bool is_placed;
    Py_ssize_t spans[];
} Match;

/* A part of a text, by characters and by bytes. */
struct range {
    struct text text;
    Py_ssize_t pos, endpos;
    size_t start, end;
};

/* A list of all matches in a range, of which some are in memory. Of adjacent ones `cursor` says where the last one ended, and
 * whether it was empty. */
enum { OWN_NUMBERS = 64, MOST_NUMBERS = 1 << 17, LONG_TEXT = 1 << 14 };
struct list {
    Pattern *pattern, *searched;
    struct range range;
    struct fancy_cursor cursor;
    Py_ssize_t limit;
    size_t width, room, count, at;
    struct fancy_outcome outcome;
    bool has_more;
    size_t *numbers;
    size_t own[OWN_NUMBERS];
};

/* ---- texts.c */

bool text_of(struct state *state, PyObject *string, enum reads reads, struct text *text);
void drop_kept(struct text *text);
bool range_of(struct state *state, PyObject *string, enum reads reads, PyObject *pos, PyObject *endpos, struct range *range);
bool take_index(struct state *state, struct text *text);
Py_ssize_t place_in(const struct text *text, size_t byte);
PyObject *piece(const struct text *text, size_t start, size_t end);
PyObject *slice_of_bytes(PyObject *string, Py_ssize_t start, Py_ssize_t end);
void forget_texts(struct state *state);

/* ---- programs.c */

bool load(struct state *state);
bool compile_programs(struct state *state, struct programs *programs, PyObject *text, PyObject *options);
bool compile_with(struct state *state, struct programs *programs, PyObject *text);
void free_programs(struct state *state, struct programs *programs);
PyObject *raise_fault(Pattern *pattern, struct fancy_outcome outcome);
Pattern *twin_of(Pattern *pattern);
int find(Pattern *pattern, struct programs *programs, const struct range *range, bool is_anchored, size_t *spans);
bool open_list(struct list *list, Pattern *pattern, const struct range *range, Py_ssize_t limit, bool with_groups, size_t room);
const size_t *next_row(struct list *list);
void close_list(struct list *list);

/* Lets go of what a text holds. */
static inline void close_text(struct text *text)
{
    if (text->kept != NULL)
        drop_kept(text);
}

/* What is searched for in a text, borrowed; NULL with an error. */
static inline Pattern *searched_in(Pattern *pattern, const struct text *text)
{
    return text->is_mapped ? twin_of(pattern) : pattern;
}

/* ---- matches.c */

PyObject *new_match(Pattern *pattern, const struct range *range, const size_t *spans, size_t groups);
bool make_matches(PyObject *module, struct state *state);

/* ---- patterns.c */

bool make_patterns(PyObject *module, struct state *state);
PyObject *new_pattern(PyTypeObject *type, PyObject *given, PyObject *named);
bool read_arguments(PyObject *const *given, Py_ssize_t count, PyObject *names, const char *const *known, Py_ssize_t least,
                    Py_ssize_t most, PyObject **arguments);
bool read_count(PyObject *number, Py_ssize_t *count);

/* ---- rest.c */

extern PyMethodDef rest_of_patterns[], rest_of_matches[];
enum { MOST_METHODS = 32 };
void join_methods(PyMethodDef *into, const PyMethodDef *first, const PyMethodDef *second);
PyObject *rest_repr(PyObject *self);
Py_hash_t rest_hash(PyObject *self);
PyObject *rest_compare(PyObject *self, PyObject *other, int how);
PyObject *serve(PyObject *module, PyObject *given);

/* ---- scanning.c */

PyObject *found_rows(PyObject *module, PyObject *given);

/* ---- replacing.c */

PyObject *replaced(Pattern *pattern, PyObject *repl, PyObject *string, PyObject *count, bool with_count);

#endif
