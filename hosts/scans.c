/* Scans the text of each row of patterns, as scripts/write_host_rows writes them, for its pattern and the three before it.
 * What fancy_scan finds, with room for one row and for eight, has to be what searches by fancy_find for each pattern say.
 *
 * scans            prints how many scans there were, and how many matches
 * scans --refuse   refuses each request for memory of each scan in turn: the call has to end by Memory, or to tell the same;
 *                  and made again, to tell the same */
#define _GNU_SOURCE
#include "fancy.h"
#include "row.h"

/* The program is linked with --wrap=malloc and --wrap=realloc, so that these stand for both. */
void *__real_malloc(size_t size);
void *__real_realloc(void *old, size_t size);

static size_t requests, refused; /* how many so far, and which one is refused; 0 for none */
static bool is_counted;
static size_t matches, asked, ended;

static bool is_refused(void)
{
    return is_counted && ++requests == refused;
}

void *__wrap_malloc(size_t size)
{
    return is_refused() ? NULL : __real_malloc(size);
}

void *__wrap_realloc(void *old, size_t size)
{
    return is_refused() ? NULL : __real_realloc(old, size);
}

enum { RULES = 4, GROUPS = 3, WIDTH = FANCY_ROW_WIDTH(GROUPS) };

/* What was told of a scan, as a text that grows. */
struct told {
    char *text;
    size_t length;
    FILE *file;
};

static void begin(struct told *told)
{
    told->file = open_memstream(&told->text, &told->length);
}

static void tell_row(FILE *file, const size_t *row)
{
    for (size_t i = 0; i < WIDTH; i++)
        fprintf(file, row[i] == FANCY_UNSET ? "- " : "%zu ", row[i]);
    fputc('\n', file);
}

static void tell_end(FILE *file, struct fancy_outcome outcome)
{
    fprintf(file, "code %u", outcome.code);
    if (outcome.group != FANCY_UNSET)
        fprintf(file, " of pattern %zu", outcome.group);
    fputc('\n', file);
}

static size_t past(const struct row *row, size_t pos)
{
    pos++;
    while (pos < row->text_length && (row->text[pos] & 0xc0) == 0x80)
        pos++;
    return pos;
}

/* The first match from a place on of all patterns, as searches for each of them say: its row, or how the scan ends. */
static bool step(struct fancy_program *programs, const struct row *rules, size_t count, const struct row *row, size_t *pos,
                 size_t *best, struct fancy_outcome *end)
{
    size_t next = 0;
    *end = (struct fancy_outcome){FANCY_NO_MATCH, FANCY_UNSET, FANCY_UNSET, 0, FANCY_UNSET};
    best[FANCY_ROW_PATTERN] = best[FANCY_ROW_STOPPED] = FANCY_UNSET;
    best[FANCY_ROW_LIMIT] = FANCY_OK;
    for (size_t i = 0; i < count; i++) {
        size_t spans[2 * GROUPS] = {FANCY_UNSET, FANCY_UNSET, FANCY_UNSET, FANCY_UNSET, FANCY_UNSET, FANCY_UNSET};
        struct fancy_options options = rules[i].options;
        options.pos = *pos;
        struct fancy_outcome found =
            fancy_find(&programs[i], row->text, row->text_length, &options, spans, 2 * GROUPS);
        if (found.code == FANCY_OK
            && (best[FANCY_ROW_PATTERN] == FANCY_UNSET || spans[0] < best[FANCY_ROW_SPANS])) {
            best[FANCY_ROW_PATTERN] = i;
            memcpy(best + FANCY_ROW_SPANS, spans, sizeof spans);
            next = found.next;
        }
        if (found.code > FANCY_NO_MATCH && best[FANCY_ROW_STOPPED] == FANCY_UNSET) {
            best[FANCY_ROW_STOPPED] = end->group = i;
            best[FANCY_ROW_LIMIT] = end->code = found.code;
        }
    }
    *pos = best[FANCY_ROW_PATTERN] == FANCY_UNSET || next > *pos ? next : past(row, *pos);
    return best[FANCY_ROW_PATTERN] != FANCY_UNSET;
}

static void tell_searches(const struct row *rules, size_t count, const struct row *row, struct told *told)
{
    struct fancy_program programs[RULES] = {FANCY_NOTHING, FANCY_NOTHING, FANCY_NOTHING, FANCY_NOTHING};
    struct fancy_outcome end = {FANCY_NO_MATCH, FANCY_UNSET, FANCY_UNSET, 0, FANCY_UNSET};
    size_t best[WIDTH], pos = 0;
    begin(told);
    for (size_t i = 0; i < count; i++)
        fancy_compile_pattern(rules[i].source, rules[i].source_length, &rules[i].options, &programs[i]);
    while (pos <= row->text_length && step(programs, rules, count, row, &pos, best, &end)) {
        tell_row(told->file, best);
        end = (struct fancy_outcome){FANCY_NO_MATCH, FANCY_UNSET, FANCY_UNSET, 0, FANCY_UNSET};
        matches++;
    }
    tell_end(told->file, end);
    for (size_t i = 0; i < count; i++)
        fancy_free(&programs[i]);
    fclose(told->file);
}

/* The same by a scanner, with room for this many rows. False if it was out of memory. */
static bool tell_scan(const struct row *rules, size_t count, const struct row *row, size_t most, struct told *told)
{
    struct fancy_scanner scanner = FANCY_NOTHING;
    struct fancy_outcome outcome = {FANCY_NO_MATCH, FANCY_UNSET, FANCY_UNSET, 0, FANCY_UNSET};
    size_t rows[8 * WIDTH], pos = 0;
    begin(told);
    for (size_t i = 0; i < count && outcome.code != FANCY_MEMORY; i++) {
        is_counted = true;
        outcome = fancy_scanner_add(&scanner, rules[i].source, rules[i].source_length, &rules[i].options);
        is_counted = false;
    }
    while (outcome.code == FANCY_OK) {
        is_counted = true;
        outcome = fancy_scan(&scanner, row->text, row->text_length, &row->options, &pos, GROUPS, rows, most * WIDTH);
        is_counted = false;
        for (size_t i = 0; i < outcome.count; i++)
            tell_row(told->file, rows + i * WIDTH);
    }
    tell_end(told->file, outcome);
    fancy_scanner_free(&scanner);
    fclose(told->file);
    return outcome.code != FANCY_MEMORY;
}

/* Each request of the scan refused in turn. */
static bool is_right_where_refused(const struct row *rules, size_t count, const struct row *row, const char *right)
{
    for (size_t nth = 1;; nth++) {
        struct told told, again;
        requests = 0;
        refused = nth;
        bool is_answered = tell_scan(rules, count, row, 8, &told);
        bool is_over = requests < nth;
        refused = 0;
        tell_scan(rules, count, row, 8, &again);
        bool is_right = (!is_answered || strcmp(told.text, right) == 0) && strcmp(again.text, right) == 0;
        free(told.text);
        free(again.text);
        if (is_over || !is_right)
            return is_right;
        asked++;
        ended += !is_answered;
    }
}

static bool is_right(const struct row *rules, size_t count, const struct row *row, bool is_refused)
{
    struct told right, one, eight;
    tell_searches(rules, count, row, &right);
    tell_scan(rules, count, row, 1, &one);
    tell_scan(rules, count, row, 8, &eight);
    bool is_same = strcmp(right.text, one.text) == 0 && strcmp(right.text, eight.text) == 0;
    if (!is_same)
        printf("searches tell\n%sa scanner with room for one row\n%sand with room for eight\n%s", right.text, one.text,
               eight.text);
    else if (is_refused && !is_right_where_refused(rules, count, row, right.text))
        is_same = printf("wrong after a request was refused\n") < 0;
    free(right.text);
    free(one.text);
    free(eight.text);
    return is_same;
}

/* Whether it has a program: what is refused takes no part. */
static bool is_pattern(const struct row *row)
{
    struct fancy_program program = FANCY_NOTHING;
    if (!row->is_pattern)
        return false;
    uint32_t code = fancy_compile_pattern(row->source, row->source_length, &row->options, &program).code;
    fancy_free(&program);
    return code == FANCY_OK;
}

int main(int argc, char **argv)
{
    bool is_refused = argc > 1 && strcmp(argv[1], "--refuse") == 0;
    struct row rules[RULES];
    size_t count = 0, scans = 0;
    int status = 0;
    for (struct row row; status == 0 && read_row(&row);) {
        if (!is_pattern(&row)) {
            free(row.source);
            free(row.text);
            continue;
        }
        if (count == RULES) {
            free(rules[0].source);
            free(rules[0].text);
            memmove(rules, rules + 1, --count * sizeof *rules);
        }
        rules[count++] = row;
        status = is_right(rules, count, &row, is_refused) ? 0 : 1;
        scans++;
    }
    for (size_t i = 0; i < count; i++) {
        free(rules[i].source);
        free(rules[i].text);
    }
    if (status == 0 && is_refused)
        printf("%zu scans, %zu requests refused in turn, %zu of them ended a call by Memory\n", scans, asked, ended);
    else if (status == 0)
        printf("%zu scans, %zu matches\n", scans, matches);
    return status;
}
