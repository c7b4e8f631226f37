/* Searches the text of one file for the pattern of another, with the default options, and prints how that ended. */
#include "fancy.h"
#include <stdio.h>
#include <stdlib.h>

/* What a file has: `length` bytes of memory that the caller frees. Null if it cannot be read. */
static char *read_file(const char *name, size_t *length)
{
    FILE *file = fopen(name, "rb");
    if (file == NULL || fseek(file, 0, SEEK_END) != 0)
        return NULL;
    *length = (size_t)ftell(file);
    rewind(file);
    char *bytes = malloc(*length + 1);
    if (bytes == NULL || fread(bytes, 1, *length, file) != *length)
        return NULL;
    fclose(file);
    return bytes;
}

int main(int argc, char **argv)
{
    size_t pattern_length = 0, text_length = 0;
    char *pattern = argc == 3 ? read_file(argv[1], &pattern_length) : NULL;
    char *text = argc == 3 ? read_file(argv[2], &text_length) : NULL;
    if (pattern == NULL || text == NULL) {
        fprintf(stderr, "usage: attack PATTERN_FILE TEXT_FILE\n");
        return 2;
    }
    struct fancy_program program = FANCY_NOTHING;
    struct fancy_options options = fancy_default_options();
    struct fancy_outcome outcome = fancy_compile_pattern(pattern, pattern_length, &options, &program);
    if (outcome.code == FANCY_OK)
        outcome = fancy_find(&program, text, text_length, &options, NULL, 0);
    char said[41];
    fancy_error_name(outcome.code, said, sizeof said);
    puts(said);
    fancy_free(&program);
    free(pattern);
    free(text);
    return outcome.code > FANCY_NO_MATCH;
}
