/* Prints every match of a pattern in a text, a line for each: start and end of the match, then of each group. */
#include "fancy.h"
#include <stdio.h>
#include <stdlib.h>
#include <string.h>

static int print_failure(struct fancy_outcome outcome)
{
    char message[120];
    fancy_error_message(&outcome, message, sizeof message);
    fprintf(stderr, "%s\n", message);
    return 1;
}

static void print_spans(const size_t *spans, size_t count)
{
    for (size_t i = 0; i < 2 * count; i++) {
        if (spans[i] == FANCY_UNSET)
            printf(i == 0 ? "-" : " -");
        else
            printf(i == 0 ? "%zu" : " %zu", spans[i]);
    }
    putchar('\n');
}

int main(int argc, char **argv)
{
    if (argc != 3) {
        fprintf(stderr, "usage: example PATTERN TEXT\n");
        return 2;
    }
    struct fancy_program program = FANCY_NOTHING;
    struct fancy_options options = fancy_default_options();
    struct fancy_outcome outcome = fancy_compile_pattern(argv[1], strlen(argv[1]), &options, &program);
    if (outcome.code != FANCY_OK)
        return print_failure(outcome);
    size_t length = strlen(argv[2]);
    size_t *spans = malloc(2 * outcome.count * sizeof *spans);
    size_t last = FANCY_UNSET; /* where the last match ended */
    while (spans != NULL && options.pos <= length) {
        options.not_continued = last != FANCY_UNSET && options.pos > last;
        outcome = fancy_find(&program, argv[2], length, &options, spans, 2 * outcome.count);
        if (outcome.code != FANCY_OK)
            break;
        if (spans[0] != spans[1] || spans[1] != last) /* not an empty match at the end of the last one */
            print_spans(spans, outcome.count);
        last = spans[1];
        options.pos = outcome.next;
    }
    fancy_free(&program);
    free(spans);
    if (spans == NULL || outcome.code > FANCY_NO_MATCH)
        return print_failure(outcome);
    return 0;
}
