/* Threads that search for one pattern at the same time, each with a copy of its own, and scan for two, each with a scanner
 * that was made in the first thread: prints how many matches each found. */
#include "fancy.h"
#include <pthread.h>
#include <stdio.h>
#include <stdlib.h>
#include <string.h>

#define SENTENCE "it was was so. "

enum { THREADS = 4, SENTENCES = 250 };

struct task {
    struct fancy_program program;
    struct fancy_scanner scanner;
    const char *text;
    size_t length, found, scanned;
};

/* Counts the matches of the scan, and frees the scanner. */
static void count_rows(struct task *task)
{
    struct fancy_options options = fancy_default_options();
    struct fancy_outcome outcome;
    size_t rows[8 * FANCY_ROW_WIDTH(1)], pos = 0;
    do {
        outcome = fancy_scan(&task->scanner, task->text, task->length, &options, &pos, 1, rows, sizeof rows / sizeof *rows);
        task->scanned += outcome.count;
    } while (outcome.code == FANCY_OK);
    fancy_scanner_free(&task->scanner);
}

/* Counts the matches of the text, and frees the copy. */
static void *count_matches(void *given)
{
    struct task *task = given;
    struct fancy_options options = fancy_default_options();
    struct fancy_cursor cursor = FANCY_FIRST;
    struct fancy_outcome outcome;
    size_t spans[16];
    do {
        outcome = fancy_find_all(&task->program, task->text, task->length, &options, &cursor, spans, 16);
        task->found += outcome.count;
    } while (outcome.code == FANCY_OK);
    fancy_free(&task->program);
    count_rows(task);
    return NULL;
}

/* A scanner of two patterns. */
static uint32_t make_scanner(struct fancy_scanner *scanner)
{
    struct fancy_options options = fancy_default_options();
    uint32_t code = fancy_scanner_add(scanner, "\\bit\\b", 6, &options).code;
    return code != FANCY_OK ? code : fancy_scanner_add(scanner, "[.]", 3, &options).code;
}

int main(void)
{
    static char text[THREADS * SENTENCES * (sizeof SENTENCE - 1)];
    static const char pattern[] = "\\b(\\w+) \\1\\b";
    struct fancy_program program = FANCY_NOTHING;
    struct fancy_options options = fancy_default_options();
    struct task tasks[THREADS];
    pthread_t threads[THREADS];
    for (size_t i = 0; i < sizeof text; i++)
        text[i] = SENTENCE[i % (sizeof SENTENCE - 1)];
    if (fancy_compile_pattern(pattern, strlen(pattern), &options, &program).code != FANCY_OK)
        return 1;
    for (size_t i = 0; i < THREADS; i++) {
        tasks[i] = (struct task){FANCY_NOTHING, FANCY_NOTHING, text, sizeof text / THREADS * (i + 1), 0, 0};
        if (fancy_clone(&program, &tasks[i].program).code != FANCY_OK || make_scanner(&tasks[i].scanner) != FANCY_OK)
            return 1;
        if (pthread_create(&threads[i], NULL, count_matches, &tasks[i]) != 0)
            return 1;
    }
    fancy_free(&program);
    for (size_t i = 0; i < THREADS; i++) {
        pthread_join(threads[i], NULL);
        printf("%zu %zu\n", tasks[i].found, tasks[i].scanned);
    }
    return 0;
}
