/* fuzz.c: what libFuzzer runs over the library for C. `scripts/fuzz` builds it and says what it looks for.
 *
 * An input is two bytes of options, a pattern or a tree, a zero, and a text. Each search runs twice, and the list of all
 * matches once with room for many and once with room for one, so that what a program keeps from search to search cannot
 * change an answer.
 */
#include "fancy.h"
#include <stdio.h>
#include <stdlib.h>
#include <string.h>

#define ROOM 64

static void fail(const char *why)
{
    fprintf(stderr, "fuzz: %s\n", why);
    abort();
}

static void want(bool holds, const char *why)
{
    if (!holds)
        fail(why);
}

/* Whether a character of the text begins at pos, or the text ends there. */
static bool is_place(const char *text, size_t length, size_t pos)
{
    return pos == length || (pos < length && ((unsigned char)text[pos] & 0xC0) != 0x80);
}

static void check_spans(const char *text, size_t length, const size_t *spans, size_t count)
{
    for (size_t at = 0; at < count; at++) {
        size_t start = spans[2 * at], end = spans[2 * at + 1];
        want((start == FANCY_UNSET) == (end == FANCY_UNSET), "a span has one end");
        want(start == FANCY_UNSET || (is_place(text, length, start) && is_place(text, length, end)),
             "a span ends at no place of the text");
    }
}

/* Lists the matches with this much room for each call, and returns how many numbers were written. */
static size_t list(struct fancy_program *program, const char *text, size_t length, const struct fancy_options *options,
                   size_t room, size_t *spans, uint32_t *code)
{
    struct fancy_cursor cursor = FANCY_FIRST;
    size_t written = 0;
    do {
        size_t most = room < ROOM - written ? room : ROOM - written;
        struct fancy_outcome found =
            fancy_find_all(program, text, length, options, &cursor, spans + written, most);
        want(2 * found.count <= most, "a list is longer than its room");
        written += 2 * found.count;
        *code = found.code;
    } while (*code == FANCY_OK && written < ROOM);
    return written;
}

/* The list with groups has the matches of the list without. */
static void list_with_groups(struct fancy_program *program, const char *text, size_t length,
                             const struct fancy_options *options, const size_t *spans, size_t count, uint32_t ends)
{
    struct fancy_cursor cursor = FANCY_FIRST;
    size_t width = 2 * fancy_group_count(program), numbers[4 * ROOM], at = 0, rows = 0;
    if (width > 2 * ROOM)
        return;
    struct fancy_outcome found;
    do {
        found = fancy_captures_all(program, text, length, options, &cursor, numbers, 4 * ROOM);
        for (size_t row = 0; row < found.count && at < count; row++, at += 2) {
            want(memcmp(numbers + row * width, spans + at, 2 * sizeof *spans) == 0, "a list with groups has other matches");
            check_spans(text, length, numbers + row * width, width / 2);
        }
        rows += found.count;
        /* a call that fills its room does not say that the list ends */
    } while (found.code == FANCY_OK && (at < count || ends == FANCY_NO_MATCH));
    /* Where groups are asked for a search may come to a limit that one without them does not. */
    if (ends <= FANCY_NO_MATCH && found.code <= FANCY_NO_MATCH)
        want(at == count && (ends == FANCY_OK || (found.code == ends && 2 * rows == count)),
             "a list with groups ends otherwise");
}

/* Each match in its own place is the text, and so are the pieces that it writes by a template of all the match. */
static void replace(struct fancy_program *program, const char *text, size_t length, const struct fancy_options *options)
{
    char *into = malloc(length + 1);
    if (!into)
        return;
    struct fancy_outcome itself = fancy_replace(program, text, length, options, "$0", 2, false, 0, into, length + 1);
    if (itself.code == FANCY_OK)
        want(itself.count == length && memcmp(into, text, length) == 0 && into[length] == 0,
             "a match in its own place changes the text");
    want(itself.code != FANCY_NO_ROOM, "a match in its own place takes more room");
    size_t half = length / 2;
    struct fancy_outcome part = fancy_replace(program, text, length, options, "$0", 2, false, 0, into, half + 1);
    if (itself.code == FANCY_OK && (part.code == FANCY_OK || part.code == FANCY_NO_ROOM))
        want(part.count == length && memcmp(into, text, half) == 0 && into[half] == 0, "a text that is cut is not its beginning");
    struct fancy_outcome small = fancy_replace(program, text, length, options, "", 0, true, 1, into, 0);
    want(small.code != FANCY_OK, "a text with its zero is written without room");
    free(into);
}

static void search(struct fancy_program *program, const char *text, size_t length, const struct fancy_options *options)
{
    size_t first[ROOM], second[ROOM], many[ROOM], single[ROOM];
    struct fancy_outcome found = fancy_find(program, text, length, options, first, ROOM);
    /* The second time the host answers for the text, if the first call found it to be UTF-8. */
    struct fancy_options checked = *options;
    checked.text_is_utf8 = found.code != FANCY_NOT_UTF8 && found.code != FANCY_WRONG_SIZE;
    struct fancy_outcome again = fancy_find(program, text, length, &checked, second, ROOM);
    struct fancy_outcome whether = fancy_is_match(program, text, length, options);
    want(found.code == again.code, "a second search ends otherwise");
    if (found.code == FANCY_OK) {
        size_t shown = found.count < ROOM / 2 ? found.count : ROOM / 2;
        want(memcmp(first, second, 2 * shown * sizeof *first) == 0, "a second search finds other spans");
        want(first[0] != FANCY_UNSET, "a match has no place");
        check_spans(text, length, first, shown);
    }
    if (found.code <= FANCY_NO_MATCH && whether.code <= FANCY_NO_MATCH)
        want(found.code == whether.code, "fancy_is_match and fancy_find differ");
    uint32_t ends, ends_single;
    size_t count = list(program, text, length, options, ROOM, many, &ends);
    want(list(program, text, length, options, 2, single, &ends_single) == count && ends == ends_single,
         "a list with little room ends otherwise");
    want(memcmp(many, single, count * sizeof *many) == 0, "a list with little room has other matches");
    check_spans(text, length, many, count / 2);
    list_with_groups(program, text, length, options, many, count, ends);
    replace(program, text, length, options);
    for (size_t at = 2; at < count; at += 2)
        want(many[at] >= many[at - 1], "two matches of a list overlap");
}

static void explain(const struct fancy_outcome *outcome, const char *pattern, size_t length,
                    const struct fancy_options *options)
{
    char words[200];
    want(fancy_error_name(outcome->code, words, sizeof words) > 0, "a code has no name");
    want(fancy_error_message(outcome, words, sizeof words) > 0, "an outcome has no message");
    fancy_explain_pattern(pattern, length, options, words, sizeof words);
}

int LLVMFuzzerTestOneInput(const uint8_t *data, size_t size)
{
    if (size < 3)
        return 0;
    const char *pattern = (const char *)data + 2;
    const char *zero = memchr(pattern, 0, size - 2);
    if (!zero)
        return 0;
    size_t length = zero - pattern;
    /* A copy of its own, so that a read past the end is seen. */
    size_t text_length = size - 3 - length;
    char *text = malloc(text_length ? text_length : 1);
    if (!text)
        return 0;
    memcpy(text, zero + 1, text_length);
    struct fancy_options options = fancy_default_options();
    options.max_prog_size = 20000;
    options.backtrack_limit = 20000;
    options.step_limit = 200000;
    options.case_insensitive = data[0] & 1;
    options.multi_line = data[0] & 2;
    options.dot_matches_new_line = data[0] & 4;
    options.ignore_whitespace = data[0] & 8;
    options.crlf = data[0] & 16;
    options.swap_greed = data[0] & 32;
    options.oniguruma = data[0] & 64;
    options.named_groups_only = data[0] & 128;
    options.not_empty = data[1] & 1;
    options.longest = data[1] & 2;
    options.ascii = data[1] & 4;
    options.compile_anchored = data[1] & 8;
    options.anchored = data[1] & 16;
    options.end_text = data[1] & 32;
    if (data[1] & 128)
        options.analysis_limit = 20;
    struct fancy_program program = FANCY_NOTHING;
    struct fancy_outcome made = data[1] & 64 ? fancy_compile(pattern, length, &options, &program)
                                             : fancy_compile_pattern(pattern, length, &options, &program);
    if (made.code == FANCY_OK) {
        want(made.count >= 1 && made.count == fancy_group_count(&program), "a program has no group 0");
        search(&program, text, text_length, &options);
    } else {
        want(fancy_group_count(&program) == 0, "a refused pattern has groups");
        want(made.byte <= length || made.byte == FANCY_UNSET, "a fault lies outside of the pattern");
        explain(&made, pattern, length, &options);
    }
    fancy_free(&program);
    free(text);
    return 0;
}
