/* Answers rows as scripts/write_host_rows writes them, and prints a line for each, as fancyrun does.
 *
 * rows [--stack BYTES]   on a thread with a stack of BYTES bytes
 * rows --refuse          refuses each request for memory of each row in turn: the row has to end by Memory, or by its
 *                        line where it can do without; and made again to give its line. Prints how many there were.
 * rows --list ..         any of these; the matches of a pattern are listed by fancy_captures_all, and not one by one.
 * rows --copy ..         any of these, before --list; each search is by a copy, after what it was copied from was freed. */
#define _GNU_SOURCE
#include "fancy.h"
#include "row.h"
#include <pthread.h>
#include <stdio.h>
#include <stdlib.h>
#include <string.h>

/* The program is linked with --wrap=malloc and --wrap=realloc, so that these stand for both. */
void *__real_malloc(size_t size);
void *__real_realloc(void *old, size_t size);

static size_t requests, refused; /* how many so far, and which one is refused; 0 for none */
static bool is_counted;
static bool is_listed; /* by fancy_captures_all */
static bool is_copied; /* before it is searched */

static bool is_refused(void)
{
    return is_counted && ++requests == refused;
}

void *__wrap_malloc(size_t size)
{
    return is_refused() ? NULL : __real_malloc(size);
}

void *__wrap_realloc(void *old, size_t size)
{
    return is_refused() ? NULL : __real_realloc(old, size);
}

#define LINE 4096

/* A pattern that can be read, and is refused. The rows do not say where. */
static bool is_refusal(uint32_t code)
{
    return code >= FANCY_NAMED_BACKREF_ONLY && code <= FANCY_PATTERN_TOO_COMPLEX;
}

static void write_failure(struct fancy_outcome outcome, char *line)
{
    size_t end = fancy_error_name(outcome.code, line, LINE);
    if (outcome.byte != FANCY_UNSET && !is_refusal(outcome.code))
        sprintf(line + end, " %zu", outcome.byte);
    if (outcome.group != FANCY_UNSET)
        sprintf(line + end, " %zu", outcome.group);
}

static void write_spans(const size_t *spans, size_t count, char *line)
{
    for (size_t i = 0; i < 2 * count; i++) {
        line += sprintf(line, i == 0 ? "" : " ");
        line += spans[i] == FANCY_UNSET ? sprintf(line, "-") : sprintf(line, "%zu", spans[i]);
    }
}

/* Start and end of a match, and of each group that is set, with its number. */
static char *write_match(const size_t *spans, size_t count, char *line)
{
    line += sprintf(line, "%zu-%zu", spans[0], spans[1]);
    for (size_t i = 1; i < count; i++) {
        if (spans[2 * i] != FANCY_UNSET)
            line += sprintf(line, " %zu:%zu-%zu", i, spans[2 * i], spans[2 * i + 1]);
    }
    return line;
}

/* All matches of a pattern; what stopped them if not their end. */
static void write_matches(struct fancy_program *program, const struct row *row, char *line)
{
    struct fancy_options options = row->options;
    struct fancy_outcome outcome = {0};
    size_t spans[200], last = FANCY_UNSET;
    char *start = line;
    while (options.pos <= row->text_length) {
        options.not_continued = last != FANCY_UNSET && options.pos > last;
        is_counted = true;
        outcome = fancy_find(program, row->text, row->text_length, &options, spans, 200);
        is_counted = false;
        if (outcome.code != FANCY_OK)
            break;
        if (spans[0] != spans[1] || spans[1] != last)
            line = write_match(spans, outcome.count < 100 ? outcome.count : 100,
                               line + sprintf(line, line == start ? "" : ", "));
        last = spans[1];
        options.pos = outcome.next;
    }
    if (outcome.code > FANCY_NO_MATCH)
        write_failure(outcome, start);
}

/* The same by fancy_captures_all, with room for two matches. */
static void write_list(struct fancy_program *program, const struct row *row, char *line)
{
    struct fancy_cursor cursor = FANCY_FIRST;
    struct fancy_outcome outcome;
    size_t groups = fancy_group_count(program);
    size_t *spans = __real_malloc(4 * groups * sizeof *spans);
    char *start = line;
    do {
        is_counted = true;
        outcome = fancy_captures_all(program, row->text, row->text_length, &row->options, &cursor, spans, 4 * groups);
        is_counted = false;
        for (size_t i = 0; i < outcome.count; i++)
            line = write_match(spans + 2 * groups * i, groups, line + sprintf(line, line == start ? "" : ", "));
    } while (outcome.code == FANCY_OK);
    free(spans);
    if (outcome.code > FANCY_NO_MATCH)
        write_failure(outcome, start);
}

/* What was compiled, by a copy if that is asked for. */
static struct fancy_outcome to_search(struct fancy_program *program, struct fancy_outcome outcome)
{
    struct fancy_program copy = FANCY_NOTHING;
    if (!is_copied || outcome.code != FANCY_OK)
        return outcome;
    outcome = fancy_clone(program, &copy);
    fancy_free(program);
    *program = copy;
    return outcome;
}

static void answer_pattern(const struct row *row, char *line)
{
    struct fancy_program program = FANCY_NOTHING;
    is_counted = true;
    struct fancy_outcome outcome = fancy_compile_pattern(row->source, row->source_length, &row->options, &program);
    outcome = to_search(&program, outcome);
    is_counted = false;
    line[0] = 0;
    if (outcome.code == FANCY_OK && is_listed)
        write_list(&program, row, line);
    else if (outcome.code == FANCY_OK)
        write_matches(&program, row, line);
    else
        write_failure(outcome, line);
    fancy_free(&program);
}

/* The line of a row; only the requests of the library are counted. */
static void answer(const struct row *row, char *line)
{
    struct fancy_program program = FANCY_NOTHING;
    size_t spans[200];
    if (row->is_pattern) {
        answer_pattern(row, line);
        return;
    }
    is_counted = true;
    struct fancy_outcome outcome = fancy_compile(row->source, row->source_length, &row->options, &program);
    outcome = to_search(&program, outcome);
    size_t groups = fancy_group_count(&program);
    if (outcome.code == FANCY_OK)
        outcome = fancy_find(&program, row->text, row->text_length, &row->options, spans, 200);
    is_counted = false;
    line[0] = 0;
    if (outcome.code == FANCY_OK && (outcome.count != groups || groups > 100))
        sprintf(line, "groups %zu %zu", groups, outcome.count);
    else if (outcome.code == FANCY_OK)
        write_spans(spans, outcome.count, line);
    else if (outcome.code == FANCY_NO_MATCH)
        strcpy(line, "none");
    else
        write_failure(outcome, line);
    fancy_free(&program);
}

static void *print_rows(void *unused)
{
    struct row row;
    char line[LINE];
    while (read_row(&row)) {
        answer(&row, line);
        puts(line);
        free(row.source);
        free(row.text);
    }
    return unused;
}

/* Each request of the row refused in turn: how many there were, and how many ended it by Memory. */
static int refuse_row(const struct row *row, size_t *asked, size_t *ended)
{
    char right[LINE], line[LINE], again[LINE];
    refused = 0;
    answer(row, right);
    for (size_t nth = 1;; nth++) {
        requests = 0;
        refused = nth;
        answer(row, line);
        refused = 0;
        if (requests < nth)
            return 0;
        ++*asked;
        if (strcmp(line, "Memory") == 0)
            ++*ended;
        else if (strcmp(line, right) != 0)
            return printf("wrong: %s in place of %s, request %zu refused\n", line, right, nth);
        answer(row, again);
        if (strcmp(again, right) != 0)
            return printf("wrong: %s in place of %s after request %zu\n", again, right, nth);
    }
}

static int refuse_rows(void)
{
    struct row row;
    size_t rows = 0, asked = 0, ended = 0;
    for (; read_row(&row); rows++) {
        int wrong = refuse_row(&row, &asked, &ended);
        free(row.source);
        free(row.text);
        if (wrong != 0)
            return 1;
    }
    printf("%zu rows, %zu requests refused in turn, %zu of them ended a row by Memory\n", rows, asked, ended);
    return 0;
}

int main(int argc, char **argv)
{
    is_copied = argc > 1 && strcmp(argv[1], "--copy") == 0;
    argc -= is_copied;
    argv += is_copied;
    is_listed = argc > 1 && strcmp(argv[1], "--list") == 0;
    argc -= is_listed;
    argv += is_listed;
    if (argc == 2 && strcmp(argv[1], "--refuse") == 0)
        return refuse_rows();
    if (argc != 3) {
        print_rows(NULL);
        return 0;
    }
    pthread_attr_t attributes;
    pthread_t thread;
    pthread_attr_init(&attributes);
    if (pthread_attr_setstacksize(&attributes, strtoull(argv[2], NULL, 10)) != 0)
        return 2;
    if (pthread_create(&thread, &attributes, print_rows, NULL) != 0)
        return 2;
    return pthread_join(thread, NULL);
}
