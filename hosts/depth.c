/* Compiles one tree or pattern that nests this deep, and searches for it, on a thread with a stack of STACK bytes; prints
 * the name of what came of it.
 *
 * depth [--pattern] STACK DEPTH MAX_DEPTH MAX_NESTING OPEN MIDDLE CLOSE TEXT   OPEN and CLOSE DEPTH times, with MIDDLE between them;
 * `default` for MAX_DEPTH or MAX_NESTING is the default of the library */
#define _GNU_SOURCE
#include "fancy.h"
#include <pthread.h>
#include <stdio.h>
#include <stdlib.h>
#include <string.h>

struct question {
    bool is_pattern;
    char *tree;
    const char *text;
    struct fancy_options options;
};

static char *written_out(size_t depth, const char *open, const char *middle, const char *close)
{
    char *tree = malloc(depth * (strlen(open) + strlen(close)) + strlen(middle) + 1);
    char *end = tree;
    if (tree == NULL)
        exit(2);
    for (size_t i = 0; i < depth; i++)
        end = stpcpy(end, open);
    end = stpcpy(end, middle);
    for (size_t i = 0; i < depth; i++)
        end = stpcpy(end, close);
    return tree;
}

static void *ask(void *asked)
{
    const struct question *question = asked;
    struct fancy_program program = FANCY_NOTHING;
    size_t span[2];
    char name[41];
    struct fancy_outcome outcome =
        question->is_pattern ? fancy_compile_pattern(question->tree, strlen(question->tree), &question->options, &program)
                             : fancy_compile(question->tree, strlen(question->tree), &question->options, &program);
    if (outcome.code == FANCY_OK)
        outcome = fancy_find(&program, question->text, strlen(question->text), &question->options, span, 2);
    fancy_free(&program);
    fancy_error_name(outcome.code, name, sizeof name);
    puts(name);
    return NULL;
}

int main(int argc, char **argv)
{
    bool is_pattern = argc > 1 && strcmp(argv[1], "--pattern") == 0;
    argc -= is_pattern;
    argv += is_pattern;
    if (argc != 9)
        return 2;
    struct question question = {is_pattern, written_out(strtoull(argv[2], NULL, 10), argv[5], argv[6], argv[7]), argv[8],
                                fancy_default_options()};
    if (strcmp(argv[3], "default") != 0)
        question.options.max_depth = strtoull(argv[3], NULL, 10);
    if (strcmp(argv[4], "default") != 0)
        question.options.max_nesting = strtoull(argv[4], NULL, 10);
    question.options.max_prog_size = SIZE_MAX;
    pthread_attr_t attributes;
    pthread_t thread;
    pthread_attr_init(&attributes);
    if (pthread_attr_setstacksize(&attributes, strtoull(argv[1], NULL, 10)) != 0)
        return 2;
    if (pthread_create(&thread, &attributes, ask, &question) != 0)
        return 2;
    int status = pthread_join(thread, NULL);
    free(question.tree);
    return status;
}
