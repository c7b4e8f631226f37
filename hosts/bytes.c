/* bytes.c: reads its input by fancy_bytes.h, as Latin-1 if the first argument is `latin1` and as UTF-8 if it is `lossy`. Prints
 * how long the text is, the text, where each of its characters and its end are in the input, and for each byte of the input, for
 * its end and two bytes after it, where they are in the text. test_bytes.py runs it. */
#include "fancy_bytes.h"

#include <stdio.h>

int main(int count, char **arguments)
{
    static char input[1 << 20];
    size_t length = fread(input, 1, sizeof input, stdin);
    /* memory of its own, so that a sanitizer sees what reads beyond it */
    char *bytes = malloc(length > 0 ? length : 1);
    struct fancy_bytes read;

    if (count != 2 || bytes == NULL)
        return 1;
    memcpy(bytes, input, length);
    if (!fancy_bytes_read(&read, bytes, length, strcmp(arguments[1], "latin1") == 0 ? FANCY_LATIN1 : FANCY_LOSSY))
        return 1;
    printf("%zu\n", read.text_length);
    fwrite(read.text, 1, read.text_length, stdout);
    for (size_t at = 0; at <= read.text_length; at++)
        if (!fancy_bytes_is_inner(&read, at))
            printf("\n%zu", fancy_bytes_offset(&read, at));
    for (size_t at = 0; at <= length + 2; at++)
        printf("\n%zu", fancy_bytes_place(&read, at));
    fancy_bytes_free(&read);
    free(bytes);
    return 0;
}
