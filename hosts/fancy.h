/* fancy.h: a backtracking regex engine, for programs in C and C++. Kept by hand beside crates/fancy_host/src.
 *
 * A pattern is compiled once and searched for many times:
 *
 *     struct fancy_program program = FANCY_NOTHING;
 *     struct fancy_options options = fancy_default_options();
 *     size_t spans[2];
 *     struct fancy_outcome outcome = fancy_compile_pattern("b+", 2, &options, &program);
 *     if (outcome.code == FANCY_OK)
 *         outcome = fancy_find(&program, text, strlen(text), &options, spans, 2);
 *     fancy_free(&program);
 *
 * Lengths and positions are in bytes. Patterns, trees, texts and names are UTF-8, and end where their length says:
 * a zero in them is a character like any other. fancy_bytes.h reads bytes that are no UTF-8 as such a text.
 *
 * Texts that are written for the host end with a zero, as those of snprintf do: of `room` bytes at most room - 1 are
 * written, then the zero, and nothing if room is 0. The call returns how many bytes the whole text has without the
 * zero, so it was cut if that is room or more. It may be cut inside a character.
 *
 * Memory: a program's memory is the library's, until fancy_free, and a scanner's until fancy_scanner_free. No call keeps
 * a pointer of the host. Each pointer points to its own memory, which no other pointer of the same call reaches. If a
 * length or a room is 0, the pointer may be null (see the end of this file).
 *
 * Threads: a program or a scanner is used by one call at a time, and may go from thread to thread; the host orders the
 * calls, by a lock or by a thread's start or join. Threads that search for one pattern at the same time have a program each,
 * by fancy_clone; threads that scan at the same time have a scanner each, to which the patterns are added.
 *
 * The library is libfancy.so or libfancy.a, as scripts/install builds it. It calls malloc, realloc and
 * free, by c/liblibc_c.a of the kit, and nothing else.
 */
#ifndef FANCY_H
#define FANCY_H

/* The version of this header, as in CHANGELOG.md. fancy_version writes that of the library. */
#define FANCY_VERSION "0.4.0"

#include <stdbool.h>
#include <stddef.h>
#include <stdint.h>

#ifdef __cplusplus
extern "C" {
#endif

/* A group that is not set, a detail that an outcome or a row does not have, or a limit of backtracks that is not set. */
#define FANCY_UNSET SIZE_MAX

/* What an outcome says. Numbers keep their meaning from version to version, and new ones may come. */
enum fancy_code {
    FANCY_OK = 0,
    FANCY_NO_MATCH = 1,
    FANCY_NO_PROGRAM = 2,            /* nothing was compiled */
    FANCY_NOT_UTF8 = 3,              /* of a pattern, a tree or a text: byte */
    FANCY_UNFIT = 4,                 /* pos is no character boundary, or the compiler had no not_empty or longest */
    FANCY_MEMORY = 5,                /* out of memory: an allocation failed */
    FANCY_TREE_FAULT = 6,            /* byte */

    /* a search exceeds a limit */
    FANCY_BACKTRACK_LIMIT_EXCEEDED = 7,
    FANCY_STACK_OVERFLOW = 8,        /* of branches, 1,000,000 of them */
    FANCY_STEP_LIMIT_EXCEEDED = 9,

    /* a pattern or a tree was read, and is refused: of a pattern, byte, if one piece of it is refused */
    FANCY_NAMED_BACKREF_ONLY = 10,
    FANCY_FEATURE_NOT_YET_SUPPORTED = 11,
    FANCY_SUBROUTINE_CALL_TARGET_NOT_FOUND = 12,
    FANCY_UNRESOLVED_AST_NODE = 13,
    FANCY_INVALID_BACKREF = 14,      /* group */
    FANCY_LEFT_RECURSIVE_SUBROUTINE_CALL = 15,
    FANCY_NEVER_ENDING_RECURSION = 16,
    FANCY_VARIABLE_LOOK_BEHIND_REQUIRES_FEATURE = 17,
    FANCY_INNER_ERROR = 18,          /* a class cannot be read */
    FANCY_CLASS_TOO_BIG = 19,
    FANCY_PATTERN_TOO_COMPLEX = 20,  /* the program would have more than max_prog_size instructions */
    FANCY_RECURSION_EXCEEDED = 21,   /* a tree nests deeper than max_depth, or a pattern deeper than 250: byte */
    FANCY_NEST_LIMIT_EXCEEDED = 22,  /* more nodes nest in one another, with calls written out, than max_nesting */

    /* a pattern cannot be read: byte, for each of them */
    FANCY_UNCLOSED_OPEN_PAREN = 23,
    FANCY_UNOPENED_CLOSE_PAREN = 24,
    FANCY_INVALID_REPEAT = 25,
    FANCY_TRAILING_BACKSLASH = 26,
    FANCY_INVALID_ESCAPE = 27,
    FANCY_UNCLOSED_UNICODE_NAME = 28,
    FANCY_INVALID_HEX = 29,
    FANCY_INVALID_CODEPOINT_VALUE = 30,
    FANCY_INVALID_CLASS = 31,
    FANCY_UNKNOWN_FLAG = 32,
    FANCY_NON_UNICODE_UNSUPPORTED = 33,
    FANCY_INVALID_GROUP_NAME = 34,
    FANCY_INVALID_GROUP_NAME_BACKREF = 35,
    FANCY_INVALID_BACKREF_NUMBER = 36,
    FANCY_TARGET_NOT_REPEATABLE = 37,
    FANCY_GENERAL_PARSE_ERROR = 38,

    FANCY_WRONG_SIZE = 39,           /* size of the options is not the library's: header and library are of two versions */
    FANCY_NO_ROOM = 40,              /* there is no room for all of the text of fancy_replace: count */

    /* a search exceeds the limit of this name in the options */
    FANCY_VISIT_LIMIT_EXCEEDED = 41,
    FANCY_MEMORY_LIMIT_EXCEEDED = 42,

    /* a pattern or a tree was read, and its analysis exceeds analysis_limit */
    FANCY_ANALYSIS_LIMIT_EXCEEDED = 43
};

/* A compiled pattern or tree, or nothing. Its words are the library's. Begin with FANCY_NOTHING, or with memory of zeros.
 * After a call had one copy of the words, do not use another. */
struct fancy_program {
    uintptr_t words[3];
};

/* Patterns that are searched for together, or none. Its words are the library's, as those of a program. */
struct fancy_scanner {
    uintptr_t words[3];
};

/* The initial value of a program and of a scanner. */
#define FANCY_NOTHING {{0, 0, 0}}

/* The options of the compiler and of a search. Begin with fancy_default_options(), which has all that is false or 0 here
 * unless it says otherwise.
 *
 * Limits of backtracks and steps. With backtrack_limit at FANCY_UNSET a search may backtrack 20,000,000 times, and with
 * step_limit at UINT64_MAX it may execute 100,000,000 instructions. To these come one more, or eight more, for each byte of
 * the text and for its end. A start that fails is one backtrack and less than eight instructions, so a search for an easy
 * tree never exceeds either.
 *
 * Limits of visits and memory. Easy parts of a pattern, without look-around, references and the like, are searched by an
 * automaton, and no limit of steps or backtracks reaches into it. visit_limit says how many states all these parts may
 * visit in one search together, and memory_limit how many bytes they may keep at one time. Outside these parts, the
 * branches to which a search may backtrack may hold as many bytes (the machine looks at each 64th). A state costs some 20 to
 * 150 ns, so the default of 20,000,000 bounds a search to some 3 s at worst. Everyday patterns need a few for each byte of the
 * text, if any. A search that exceeds one of them is FANCY_VISIT_LIMIT_EXCEEDED or FANCY_MEMORY_LIMIT_EXCEEDED. With neither,
 * a search for an easy tree has no bound but the size of the text.
 *
 * Each limit is for one search: of the calls for all matches, of fancy_replace and of fancy_scan, for each match. 0 is no
 * limit of visits and memory, and so are UINT64_MAX and SIZE_MAX.
 *
 * Before a pattern is compiled it is analysed: how many characters each group matches at least and at most. If groups refer
 * to one another in a ring, this needs several rounds over the pattern, and no other limit counts them. analysis_limit bounds
 * how many nodes are looked at in rounds that change something. A pattern or a tree that exceeds it is
 * FANCY_ANALYSIS_LIMIT_EXCEEDED: after it was read, and before it is refused for another reason. 0 is no limit, and SIZE_MAX
 * is none in effect.
 *
 * Each search checks that its text is UTF-8, in time linear in the text. A host that searches one text by many calls may
 * check it once and set text_is_utf8: then the host guarantees it, and no call reads more of the text than its search does.
 * The text has to be UTF-8 then, from its first byte to its length: otherwise the library may read beyond its end. */
struct fancy_options {
    size_t size;            /* sizeof(struct fancy_options); a call with another is FANCY_WRONG_SIZE */
    size_t pos;             /* the byte of the text where the search begins: for fancy_find and fancy_is_match */
    size_t max_prog_size;   /* how many instructions a program may have; 100,000 */
    size_t max_nesting;     /* how many nodes may nest in one another, with calls written out; 500, for 1 MB of stack */
    size_t max_depth;       /* how deep a tree may nest, in parentheses; 250, for a stack of 1 MB: for fancy_compile */
    size_t backtrack_limit; /* how often a search may backtrack to a branch; FANCY_UNSET: see above */
    uint64_t step_limit;    /* how many instructions a search may execute; UINT64_MAX: see above */

    /* of searches, of the compiler, or of both */
    bool compile_anchored;  /* only the first start is tried: for the compiler */
    bool anchored;          /* the same, for a search */
    bool not_continued;     /* no match ended at pos: for a search */
    bool not_empty;         /* a match is not empty: for both */
    bool end_text;          /* no empty match at the end of a text after a newline: for the compiler */
    bool ascii;             /* folding, word characters and classes are those of ASCII, not of Unicode: for the compiler */
    bool longest;           /* the longest match at the earliest start, and not the first one: for both */

    /* of fancy_compile_pattern: how the pattern is read */
    bool case_insensitive;     /* literals, classes and references match without regard to case, as with the flag i */
    bool multi_line;           /* ^ and $ also match where a line begins and ends, as with the flag m */
    bool dot_matches_new_line; /* . matches a newline too, as with the flag s */
    bool ignore_whitespace;    /* white space and comments are ignored, as with the flag x */
    bool crlf;                 /* a CR before an LF belongs to the end of its line, as with the flag R */
    bool swap_greed;           /* quantifiers are lazy, and greedy with a ?, as with the flag U */
    bool oniguruma;            /* under m a line begins where it does for Oniguruma */
    bool named_groups_only;    /* if the pattern has a named group, a plain ( ) captures nothing */

    /* of all calls that search: see above */
    bool text_is_utf8;         /* the host guarantees that the text is UTF-8, and no call checks it */

    /* of searches: see above */
    uint64_t visit_limit;      /* how many states a search may visit in parts that an automaton searches for; 20,000,000 */
    size_t memory_limit;       /* how many bytes it may keep there, and again for branches; 268,435,456 (256 MiB) */

    /* of what compiles: see above */
    size_t analysis_limit;     /* how many nodes the analysis may look at in rounds that change something; 5,000,000 */

    uint64_t reserved[1];      /* 0: room for an option to come, so that the struct keeps its size */
};

struct fancy_outcome {
    uint32_t code; /* of enum fancy_code */
    size_t byte;   /* where the pattern, the tree or the text cannot be read; where the piece of a pattern begins that is
                      refused */
    size_t group;  /* the group that is not there; of fancy_scan, the pattern that exceeds a limit */
    size_t count;  /* how many groups there are, with group 0; of the calls for all matches, how many were written;
                      of fancy_replace, how many bytes the new text has */
    size_t next;   /* of fancy_find: pos of a search for the next match; past the length of the text there is none */
};

/* How far a list of all matches has come. Begin with FANCY_FIRST, or with another pos, a byte of the text. */
struct fancy_cursor {
    size_t pos;    /* where the next search begins; after the end of the text once the list has ended */
    size_t last;   /* where the last match ended */
    bool has_last; /* whether there was one */
};

#define FANCY_FIRST {0, 0, false}

/* The default options. */
struct fancy_options fancy_default_options(void);

/* Writes the version of the library, and returns how many bytes it has. */
size_t fancy_version(char *version, size_t room);

/* ---- compiling */

/* Compiles a pattern; docs/PATTERNS.md has its syntax. What the program held is freed; it holds the pattern if the code is
 * FANCY_OK, and nothing otherwise. count of the outcome is how many groups there are, with group 0.
 *
 * Errors: FANCY_WRONG_SIZE; FANCY_NOT_UTF8 at byte; a fault of the pattern at byte, FANCY_RECURSION_EXCEEDED and those from
 * FANCY_UNCLOSED_OPEN_PAREN on: where a token begins that is not allowed there, or where what follows is no token, or
 * the pattern's length if more is needed; FANCY_ANALYSIS_LIMIT_EXCEEDED; a refusal, FANCY_NAMED_BACKREF_ONLY
 * and those after it, at byte if one piece is refused: the reference, the call or the class, or what the look-behind or
 * the group begins with; FANCY_NEST_LIMIT_EXCEEDED; FANCY_MEMORY.
 *
 * What reads, compiles and frees a pattern recurses over it. A pattern nests at most 250 deep, and is read on a stack of
 * 512 kB. One level of it may be several nodes of the tree, and a call of a group is written out where it is, so nodes
 * nest deeper than the pattern: max_nesting bounds them, after the pattern is read. With its default 512 kB were enough for
 * all that was tried too, so a stack of 1 MB has half to spare. */
struct fancy_outcome fancy_compile_pattern(const char *pattern, size_t pattern_length,
                                           const struct fancy_options *options, struct fancy_program *program);

/* Compiles the tree that a text in the notation of docs/MEANING.md spells, as fancy_compile_pattern does a pattern. A text
 * that spells no tree is FANCY_TREE_FAULT at byte.
 *
 * A tree in which more than max_depth parentheses are open at one place is FANCY_RECURSION_EXCEEDED before it is read. The
 * default is for a stack of 1 MB, with half to spare. On one of 512 kB set max_depth to 120 and max_nesting to 250, on one of
 * 256 kB to 60 and 100; a greater stack allows more, as docs/MEANING.md says. Groups of a tree have no names here. */
struct fancy_outcome fancy_compile(const char *tree, size_t tree_length, const struct fancy_options *options,
                                   struct fancy_program *program);

/* Makes copy hold what program holds, for another thread: both share what was compiled, and each has memory of its own for
 * its searches, so a copy costs little and nothing is compiled. What copy held is freed; it holds the same if the code is
 * FANCY_OK, and nothing otherwise. Each of them is freed by fancy_free, in any order. count of the outcome is how many
 * groups there are, with group 0.
 *
 * Errors: FANCY_NO_PROGRAM; FANCY_MEMORY. The program holds what it held, whatever the code is. */
struct fancy_outcome fancy_clone(struct fancy_program *program, struct fancy_program *copy);

/* Frees what a program holds; it holds nothing then. Copies keep what they hold. */
void fancy_free(struct fancy_program *program);

/* ---- groups */

/* How many groups the pattern has, with group 0; 0 without a pattern. */
size_t fancy_group_count(const struct fancy_program *program);

/* Writes the name of a group, and returns how many bytes it has: 0 if the group has no name or is not there, or if nothing
 * was compiled. */
size_t fancy_group_name(struct fancy_program *program, size_t group, char *name, size_t room);

/* Writes the numbers of the groups with this name, in the order in which they open, as far as there is room, and returns
 * how many there are: 0 if no group has the name, or if nothing was compiled. Of several the name means the first that is
 * set in a match. */
size_t fancy_groups_named(struct fancy_program *program, const char *name, size_t name_length, size_t *groups,
                          size_t room);

/* ---- searching
 *
 * A text is a range. To end a search early, give a shorter length: look-ahead and `$` do not see what follows. To begin it
 * later, set pos: look-behind and `^` see what is before.
 *
 * Errors of each search: FANCY_WRONG_SIZE; FANCY_NOT_UTF8 of the text at byte, unless text_is_utf8 is set; FANCY_NO_PROGRAM; FANCY_UNFIT;
 * FANCY_BACKTRACK_LIMIT_EXCEEDED, FANCY_STACK_OVERFLOW, FANCY_STEP_LIMIT_EXCEEDED, FANCY_VISIT_LIMIT_EXCEEDED,
 * FANCY_MEMORY_LIMIT_EXCEEDED; FANCY_MEMORY if an allocation fails. The program holds what it held, whatever the code is. */

/* Whether there is a match: FANCY_OK or FANCY_NO_MATCH. */
struct fancy_outcome fancy_is_match(struct fancy_program *program, const char *text, size_t text_length,
                                    const struct fancy_options *options);

/* Finds the first match. Start and end of each group from 0 up are written to spans, as far as there is room for them; all
 * of them are 2 * count numbers. A group that is not set has FANCY_UNSET twice. If the code is not FANCY_OK, spans are left as
 * they were. count is how many groups there are, and next is pos of a search for the next match. */
struct fancy_outcome fancy_find(struct fancy_program *program, const char *text, size_t text_length,
                                const struct fancy_options *options, size_t *spans, size_t spans_length);

/* Finds the next matches of a list. Start and end of each are written to spans while there is room, and count says how many
 * matches that are, whatever the code is. cursor moves after them, so the same call again goes on:
 *
 *   FANCY_OK        there was no room for one more
 *   FANCY_NO_MATCH  the list has ended
 *   other codes     why there is no more; after a limit, the call may be made again with a higher one
 *
 * Each search begins where the match before it ended, or one character further if that match was empty. An empty match
 * directly after another match is left out, and so is a match that begins before its search. pos and not_continued of the
 * options have no effect. */
struct fancy_outcome fancy_find_all(struct fancy_program *program, const char *text, size_t text_length,
                                    const struct fancy_options *options, struct fancy_cursor *cursor, size_t *spans,
                                    size_t spans_length);

/* The same with groups: of each match start and end of each group from 0 up are written, 2 * fancy_group_count(program)
 * numbers, and FANCY_UNSET twice for a group that is not set. count says how many matches that are. */
struct fancy_outcome fancy_captures_all(struct fancy_program *program, const char *text, size_t text_length,
                                        const struct fancy_options *options, struct fancy_cursor *cursor,
                                        size_t *spans, size_t spans_length);

/* ---- many patterns
 *
 *     struct fancy_scanner scanner = FANCY_NOTHING;
 *     size_t rows[16 * FANCY_ROW_WIDTH(1)], pos = 0;
 *     fancy_scanner_add(&scanner, "\"[^\"]*\"", 9, &options);
 *     fancy_scanner_add(&scanner, "[a-z]+", 6, &options);
 *     do {
 *         outcome = fancy_scan(&scanner, text, strlen(text), &options, &pos, 1, rows, sizeof rows / sizeof *rows);
 *         for (size_t i = 0; i < outcome.count; i++)
 *             use(rows + i * FANCY_ROW_WIDTH(1));
 *     } while (outcome.code == FANCY_OK);
 *     fancy_scanner_free(&scanner);
 */

/* Where the numbers of a match are in its row. */
enum fancy_row {
    FANCY_ROW_PATTERN = 0, /* the pattern: how many were added before it */
    FANCY_ROW_STOPPED = 1, /* the first pattern whose search exceeds a limit, or FANCY_UNSET */
    FANCY_ROW_LIMIT = 2,   /* the code of that limit, or FANCY_OK */
    FANCY_ROW_SPANS = 3    /* start and end of each group from 0 up */
};

/* How many numbers a row with this number of groups has. */
#define FANCY_ROW_WIDTH(groups) (2 * (size_t)(groups) + FANCY_ROW_SPANS)

/* Adds a pattern to a scanner, after the others: it is read and compiled as by fancy_compile_pattern, and searched for with
 * these options, of which pos has no effect. count of the outcome is how many groups it has, with group 0.
 *
 * Errors: those of fancy_compile_pattern. After one the scanner has the patterns that it had. */
struct fancy_outcome fancy_scanner_add(struct fancy_scanner *scanner, const char *pattern, size_t pattern_length,
                                       const struct fancy_options *options);

/* Searches a text for the patterns of a scanner, from match to match, from *pos on. Of the options only size and text_is_utf8
 * have an effect: each pattern is searched for with the options that it was added with. From each position on it compares the
 * first matches of all patterns, and finds the one that begins first; of several that begin there, that of the pattern that
 * was added first. The next search begins where the match ends, or one character further if it is empty. So an empty match
 * can follow directly after another.
 *
 * A row is written for each match while there is room, and count says how many. A row has FANCY_ROW_WIDTH(groups) numbers, in
 * the order of enum fancy_row, with the spans of `groups` groups. A group that is not set, or that the pattern does not have,
 * has FANCY_UNSET twice. *pos moves after the matches, so the same call again goes on:
 *
 *   FANCY_OK        there was no room for one more
 *   FANCY_NO_MATCH  no pattern has a match from *pos on, or *pos is not between two characters of the text
 *   a limit         no other pattern has a match from *pos on, and the pattern `group` exceeds this limit
 *   other codes     FANCY_WRONG_SIZE; FANCY_NOT_UTF8 of the text at byte, unless text_is_utf8 is set; FANCY_MEMORY
 *
 * A pattern that exceeds a limit does not hide the matches of the others: their row names the first such pattern. A call
 * keeps the match that it found for a pattern while it holds, so it reads the text once for each pattern. So room for many
 * rows saves time if a pattern matches far on or nowhere. A scanner without patterns finds nothing. The scanner has the
 * patterns that it had, whatever the code is. */
struct fancy_outcome fancy_scan(struct fancy_scanner *scanner, const char *text, size_t text_length,
                                const struct fancy_options *options, size_t *pos, size_t groups, size_t *rows,
                                size_t rows_length);

/* Frees what a scanner holds; it has no patterns then. */
void fancy_scanner_free(struct fancy_scanner *scanner);

/* ---- replacing */

/* Writes the text with its first `limit` matches replaced, all of them if limit is 0; without a match the text itself. The
 * matches are those of fancy_find_all. count says how many bytes the new text has, without the zero at its end, and SIZE_MAX
 * if it has more than that:
 *
 *   FANCY_OK       all of it was written, with the zero
 *   FANCY_NO_ROOM  count is room or more: the text was cut, and the call may be made again with room for count + 1 bytes
 *   other codes    nothing was written; a replacement that is not UTF-8 is FANCY_NOT_UTF8 too
 *
 * Besides what its searches need, a call needs as much memory as it writes.
 *
 * The new text may have a zero inside. The replacement is a template: $1, ${1}, $name and ${name} write what a group
 * captured, and $$ writes a dollar. Without braces a name is the longest run of letters, digits and _ of ASCII. A group that
 * is not set, or not there, writes nothing; of several groups with one name the first that is set is meant. With is_literal
 * the replacement is written as it is. */
struct fancy_outcome fancy_replace(struct fancy_program *program, const char *text, size_t text_length,
                                   const struct fancy_options *options, const char *replacement,
                                   size_t replacement_length, bool is_literal, size_t limit, char *into, size_t room);

/* ---- errors */

/* Writes the name of a code, and returns how many bytes it has: 0 if the number is no code. No name has more than 40 bytes. */
size_t fancy_error_name(uint32_t code, char *name, size_t room);

/* Writes an outcome as a sentence for a reader, with its byte before it and its group after it: "at byte 2: ..". Returns how
 * many bytes the sentence has. The words may change from version to version: programs should use the code. */
size_t fancy_error_message(const struct fancy_outcome *outcome, char *message, size_t room);

/* Compiles the pattern once more, and writes why it has no program, as fancy_error_message does, but with what is refused:
 * the name of the group, as in "at byte 3: there is no group named 'x'", or the text of the class, and what is wrong with it.
 * If it has a program, the text is empty. Returns how many bytes the text has. */
size_t fancy_explain_pattern(const char *pattern, size_t pattern_length, const struct fancy_options *options,
                             char *message, size_t room);

/* ---- null pointers
 *
 * If a length or a room is 0, the pointer may be null in C and C++: each call is a macro too, which passes another pointer
 * then. Hosts that call by the symbols of the library pass a pointer that is not null. */

static inline const char *fancy_from(const char *text)
{
    return text != NULL ? text : "";
}

static inline char *fancy_into(char *text)
{
    static char none[1];
    return text != NULL ? text : none;
}

static inline size_t *fancy_numbers(size_t *numbers)
{
    static size_t none[1];
    return numbers != NULL ? numbers : none;
}

#define fancy_version(version, room) fancy_version(fancy_into(version), room)
#define fancy_compile_pattern(pattern, length, options, program) \
    fancy_compile_pattern(fancy_from(pattern), length, options, program)
#define fancy_compile(tree, length, options, program) fancy_compile(fancy_from(tree), length, options, program)
#define fancy_group_name(program, group, name, room) fancy_group_name(program, group, fancy_into(name), room)
#define fancy_groups_named(program, name, length, groups, room) \
    fancy_groups_named(program, fancy_from(name), length, fancy_numbers(groups), room)
#define fancy_is_match(program, text, length, options) fancy_is_match(program, fancy_from(text), length, options)
#define fancy_find(program, text, length, options, spans, spans_length) \
    fancy_find(program, fancy_from(text), length, options, fancy_numbers(spans), spans_length)
#define fancy_find_all(program, text, length, options, cursor, spans, spans_length) \
    fancy_find_all(program, fancy_from(text), length, options, cursor, fancy_numbers(spans), spans_length)
#define fancy_captures_all(program, text, length, options, cursor, spans, spans_length) \
    fancy_captures_all(program, fancy_from(text), length, options, cursor, fancy_numbers(spans), spans_length)
#define fancy_scanner_add(scanner, pattern, length, options) \
    fancy_scanner_add(scanner, fancy_from(pattern), length, options)
#define fancy_scan(scanner, text, length, options, pos, groups, rows, rows_length) \
    fancy_scan(scanner, fancy_from(text), length, options, pos, groups, fancy_numbers(rows), rows_length)
#define fancy_replace(program, text, length, options, replacement, replacement_length, is_literal, limit, into, room) \
    fancy_replace(program, fancy_from(text), length, options, fancy_from(replacement), replacement_length, is_literal, \
                  limit, fancy_into(into), room)
#define fancy_error_name(code, name, room) fancy_error_name(code, fancy_into(name), room)
#define fancy_error_message(outcome, message, room) fancy_error_message(outcome, fancy_into(message), room)
#define fancy_explain_pattern(pattern, length, options, message, room) \
    fancy_explain_pattern(fancy_from(pattern), length, options, fancy_into(message), room)

#ifdef __cplusplus
}
#endif
#endif
