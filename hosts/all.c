/* Prints start and end of every match of a pattern in a text, a line for each. */
#include "fancy.h"
#include <stdio.h>
#include <string.h>

/* Room for this many matches at a time: few, so that short texts need more calls. */
#define ROOM 2

static int print_failure(struct fancy_outcome outcome)
{
    char name[41];
    fancy_error_name(outcome.code, name, sizeof name);
    fprintf(stderr, "%s\n", name);
    return 1;
}

int main(int argc, char **argv)
{
    if (argc != 3) {
        fprintf(stderr, "usage: all PATTERN TEXT\n");
        return 2;
    }
    struct fancy_program program = FANCY_NOTHING;
    struct fancy_options options = fancy_default_options();
    struct fancy_outcome outcome = fancy_compile_pattern(argv[1], strlen(argv[1]), &options, &program);
    if (outcome.code != FANCY_OK)
        return print_failure(outcome);
    struct fancy_cursor cursor = FANCY_FIRST;
    size_t spans[2 * ROOM];
    do {
        outcome = fancy_find_all(&program, argv[2], strlen(argv[2]), &options, &cursor,
                                 spans, 2 * ROOM);
        for (size_t i = 0; i < outcome.count; i++)
            printf("%zu %zu\n", spans[2 * i], spans[2 * i + 1]);
    } while (outcome.code == FANCY_OK);
    fancy_free(&program);
    return outcome.code == FANCY_NO_MATCH ? 0 : print_failure(outcome);
}
