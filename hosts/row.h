/* The rows that scripts/write_host_rows writes: a tree or a pattern, a text, and the words of the options. */
#ifndef ROW_H
#define ROW_H

#include "fancy.h"
#include <stdio.h>
#include <stdlib.h>
#include <string.h>

struct row {
    char *source, *text; /* a tree or a pattern */
    size_t source_length, text_length;
    bool is_pattern;
    struct fancy_options options;
};

static uint8_t value_of(char digit)
{
    return digit <= '9' ? digit - '0' : digit - 'a' + 10;
}

/* The bytes of a line of hexadecimal digits. */
static char *read_bytes(const char *line, size_t *length)
{
    *length = strspn(line, "0123456789abcdef") / 2;
    char *bytes = malloc(*length + 1);
    for (size_t i = 0; i < *length; i++)
        bytes[i] = (char)(value_of(line[2 * i]) << 4 | value_of(line[2 * i + 1]));
    return bytes;
}

static void read_words(char *line, struct row *row)
{
    struct fancy_options options = fancy_default_options();
    options.max_prog_size = SIZE_MAX;
    options.analysis_limit = 0;
    /* the rows are answered with the limits of the call `search` */
    options.backtrack_limit = 1000001 + row->text_length;
    options.step_limit = UINT64_MAX - 1;
    row->is_pattern = false;
    for (char *word = strtok(line, " \n"); word != NULL; word = strtok(NULL, " \n")) {
        if (strcmp(word, "--compile-anchored") == 0)
            options.compile_anchored = true;
        else if (strcmp(word, "--anchored") == 0)
            options.anchored = true;
        else if (strcmp(word, "--not-continued") == 0)
            options.not_continued = true;
        else if (strcmp(word, "--not-empty") == 0)
            options.not_empty = true;
        else if (strcmp(word, "--end-text") == 0)
            options.end_text = true;
        else if (strcmp(word, "--ascii") == 0)
            options.ascii = true;
        else if (strcmp(word, "--longest") == 0)
            options.longest = true;
        else if (strcmp(word, "--pattern") == 0)
            row->is_pattern = true;
        else if (strcmp(word, "--case-insensitive") == 0)
            options.case_insensitive = true;
        else if (strcmp(word, "--multi-line") == 0)
            options.multi_line = true;
        else if (strcmp(word, "--dot-matches-new-line") == 0)
            options.dot_matches_new_line = true;
        else if (strcmp(word, "--ignore-whitespace") == 0)
            options.ignore_whitespace = true;
        else if (strcmp(word, "--crlf") == 0)
            options.crlf = true;
        else if (strcmp(word, "--swap-greed") == 0)
            options.swap_greed = true;
        else if (strcmp(word, "--oniguruma") == 0)
            options.oniguruma = true;
        else if (strcmp(word, "--named-groups-only") == 0)
            options.named_groups_only = true;
        else if (strcmp(word, "--backtracks") == 0)
            options.backtrack_limit = strtoull(strtok(NULL, " \n"), NULL, 10);
        else if (strcmp(word, "--steps") == 0)
            options.step_limit = strtoull(strtok(NULL, " \n"), NULL, 10);
        else if (strcmp(word, "--max-nesting") == 0)
            options.max_nesting = strtoull(strtok(NULL, " \n"), NULL, 10);
        else if (strcmp(word, "--max-prog") == 0)
            options.max_prog_size = strtoull(strtok(NULL, " \n"), NULL, 10);
        else
            options.pos = strtoull(word, NULL, 10);
    }
    row->options = options;
}

static bool read_row(struct row *row)
{
    static char *line;
    static size_t room;
    if (getline(&line, &room, stdin) < 0)
        return false;
    row->source = read_bytes(line, &row->source_length);
    if (getline(&line, &room, stdin) < 0)
        return false;
    row->text = read_bytes(line, &row->text_length);
    if (getline(&line, &room, stdin) < 0)
        return false;
    read_words(line, row);
    return true;
}

#endif
