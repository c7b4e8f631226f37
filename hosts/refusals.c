/* What calls return that have no answer: a line for each call. */
#include "fancy.h"
#include <stdio.h>
#include <stdlib.h>
#include <string.h>
#include <sys/resource.h>

static struct fancy_program program = FANCY_NOTHING;
static struct fancy_options options;
static struct fancy_cursor cursor = FANCY_FIRST;
static size_t spans[2];

static void print_outcome(const char *what, struct fancy_outcome outcome)
{
    char name[41];
    fancy_error_name(outcome.code, name, sizeof name);
    printf("%s: %s", what, name);
    if (outcome.byte != FANCY_UNSET)
        printf(" at byte %zu", outcome.byte);
    if (outcome.group != FANCY_UNSET)
        printf(" of group %zu", outcome.group);
    putchar('\n');
}

static void compile(const char *what, const char *tree)
{
    print_outcome(what, fancy_compile(tree, strlen(tree), &options, &program));
}

static void compile_pattern(const char *what, const char *pattern)
{
    struct fancy_outcome outcome = fancy_compile_pattern(pattern, strlen(pattern), &options, &program);
    print_outcome(what, outcome);
}

static void find(const char *what, const char *text)
{
    print_outcome(what, fancy_find(&program, text, strlen(text), &options, spans, 2));
}

static void is_match(const char *what, const char *text)
{
    print_outcome(what, fancy_is_match(&program, text, strlen(text), &options));
}

static void find_all(const char *what, const char *text, size_t room)
{
    struct fancy_outcome outcome = fancy_find_all(&program, text, strlen(text), &options, &cursor,
                                                  spans, room);
    print_outcome(what, outcome);
    printf("%zu written, then from %zu\n", outcome.count, cursor.pos);
}

static void captures_all(const char *what, const char *text, size_t *numbers, size_t room)
{
    struct fancy_outcome outcome = fancy_captures_all(&program, text, strlen(text), &options, &cursor,
                                                      numbers, room);
    print_outcome(what, outcome);
    printf("%zu written, then from %zu:", outcome.count, cursor.pos);
    for (size_t i = 0; i < 2 * fancy_group_count(&program) * outcome.count; i++)
        printf(numbers[i] == FANCY_UNSET ? " -" : " %zu", numbers[i]);
    putchar('\n');
}

/* Two groups, one of which is not set in each match. */
static void list_groups(void)
{
    size_t numbers[14];
    struct fancy_cursor first = FANCY_FIRST;
    cursor = first;
    captures_all("all groups without a pattern", "a", numbers, 14);
    compile_pattern("two groups, of which one is set", "(a)|(b)");
    captures_all("no room for the groups of a match", "abab", numbers, 5);
    captures_all("room for one match and not for two", "abab", numbers, 11);
    captures_all("room for two", "abab", numbers, 13);
    options.not_empty = true;
    captures_all("not_empty said to all searches alone", "abab", numbers, 14);
    options = fancy_default_options();
    captures_all("the rest", "abab", numbers, 14);
    captures_all("after the end", "abab", numbers, 14);
    cursor = first;
    captures_all("all groups of a text that is no UTF-8", "ab\xff", numbers, 14);
    options.step_limit = 0;
    captures_all("all groups within no step", "ab", numbers, 14);
    options = fancy_default_options();
    printf("%zu matches, no room at all\n", fancy_captures_all(&program, "ab", 2, &options, &cursor, NULL, 0).count);
    fancy_free(&program);
}

static void replace(const char *what, const char *replacement, bool is_literal, size_t limit, size_t room)
{
    char into[24] = "untouched";
    const char *text = "a=1, b=22";
    struct fancy_outcome outcome = fancy_replace(&program, text, strlen(text), &options, replacement, strlen(replacement),
                                                 is_literal, limit, into, room);
    print_outcome(what, outcome);
    printf("%zu bytes: %s\n", outcome.count, into);
}

/* A replacement of 4,000,000 bytes for each of 1,000 matches, with room for a few bytes: the length is counted, and the text is
 * not built. */
static void replace_by_much(void)
{
    const size_t matches = 1000, length = 4000000;
    char into[8] = "", *text = malloc(matches), *replacement = malloc(length);
    struct rusage before, after;
    if (!text || !replacement)
        exit(2);
    memset(text, 'a', matches);
    memset(replacement, 'b', length);
    compile_pattern("one letter", "a");
    getrusage(RUSAGE_SELF, &before);
    struct fancy_outcome outcome =
        fancy_replace(&program, text, matches, &options, replacement, length, true, 0, into, sizeof into);
    getrusage(RUSAGE_SELF, &after);
    print_outcome("a text of 4 GB with room for 8 bytes", outcome);
    printf("%zu bytes: %s, %s\n", outcome.count, into,
           after.ru_maxrss - before.ru_maxrss < 100000 ? "in little memory" : "in much memory");
    free(replacement);
    free(text);
}

static void replace_matches(void)
{
    replace("a replacement without a pattern", "$1", false, 0, 24);
    compile_pattern("names and numbers", "(?<name>[a-z])=([0-9]+)(x)?");
    replace("all matches", "${name}:$2$3$9$$", false, 0, 24);
    replace("the first match", "$2=$name", false, 1, 24);
    replace("more than there are", "-", false, 3, 24);
    replace("a template as it stands", "$1$$", true, 0, 24);
    replace("just the text and its zero", "$0", false, 0, 10);
    replace("a byte less", "$0", false, 0, 9);
    replace("room for a part", "<$2>", false, 0, 3);
    replace("room in the middle of a replacement", "xy", true, 0, 2);
    replace("room for the zero alone", "-", false, 0, 1);
    replace("no room at all", "$0", false, 0, 0);
    replace("by nothing", "", false, 0, 24);
    replace("a replacement that is no UTF-8", "a\xff", false, 0, 24);
    options.not_empty = true;
    replace("not_empty said to the replacement alone", "-", false, 0, 24);
    options = fancy_default_options();
    options.step_limit = 0;
    replace("a replacement within no step", "-", false, 0, 24);
    options = fancy_default_options();
    compile_pattern("what is not there", "x");
    replace("no match", "-", false, 0, 24);
    replace_by_much();
    compile_pattern("an empty pattern", "");
    printf("%zu bytes of nothing\n", fancy_replace(&program, NULL, 0, &options, NULL, 0, false, 0, NULL, 0).count);
    fancy_free(&program);
}

/* This many open parentheses, and the same number of closed ones. */
static void compile_nested(const char *what, size_t depth)
{
    char pattern[600];
    memset(pattern, '(', depth);
    memset(pattern + depth, ')', depth);
    print_outcome(what, fancy_compile_pattern(pattern, 2 * depth, &options, &program));
}

static void print_name(size_t group)
{
    char name[8];
    size_t length = fancy_group_name(&program, group, name, sizeof name);
    printf("group %zu: %zu %s.\n", group, length, name);
}

static void print_groups(const char *name)
{
    size_t groups[3];
    size_t count = fancy_groups_named(&program, name, strlen(name), groups, 3);
    printf("%s: %zu", name, count);
    for (size_t i = 0; i < count && i < 3; i++)
        printf(" %zu", groups[i]);
    putchar('\n');
}

static void name_groups(void)
{
    compile_pattern("groups with names", "(?<year>\\d{4})-(\\d\\d)(?<afternoon>p)?");
    for (size_t group = 0; group < 5; group++)
        print_name(group);
    print_groups("year");
    print_groups("yea");
    printf("%zu groups by a name that is no UTF-8\n", fancy_groups_named(&program, "\xff", 1, NULL, 0));
    printf("%zu groups, no room for them\n", fancy_groups_named(&program, "year", 4, NULL, 0));
    compile_pattern("groups of one name", "(?<n>a)|(b)|(?<n>c)");
    print_groups("n");
    fancy_free(&program);
    print_name(1);
    print_groups("n");
}

static void refuse_patterns(void)
{
    compile_pattern("a pattern", "(?<year>\\d{4})-\\d\\d");
    find("a date", "on 2026-11");
    is_match("whether there is a date", "on 2026-11");
    is_match("whether there is a date in another text", "on 20-11");
    is_match("whether there is a date in a text that is no UTF-8", "2026-11\xff");
    options.pos = 4;
    is_match("whether there is a date from place 4", "on 2026-11");
    options.pos = 99;
    is_match("whether there is a date behind the text", "on 2026-11");
    options.pos = 0;
    options.step_limit = 0;
    is_match("whether there is a date, within no step", "on 2026-11");
    options = fancy_default_options();
    printf("%zu groups, %zu %zu\n", fancy_group_count(&program), spans[0], spans[1]);
    compile_pattern("a group that is not closed", "a(b");
    find("a search after a fault", "a");
    is_match("whether there is a match after a fault", "a");
    compile_pattern("a backslash at the end", "a\\");
    compile_pattern("a reference to no group", "(a)\\2");
    compile_pattern("a reference with too large a number", "\\99999999999999999999");
    compile_pattern("a pattern that is no UTF-8", "ab\xff");
    compile_nested("250 groups in one another", 250);
    compile_nested("251 groups in one another", 251);
    options.case_insensitive = true;
    compile_pattern("a pattern to be folded", "a");
    find("in the other case", "bA");
    options = fancy_default_options();
    options.size -= 8;
    find("options of another size", "a");
    compile_pattern("options of another size", "a");
    options = fancy_default_options();
    find("a search after them", "a");
    print_outcome("an empty pattern, by a null pointer", fancy_compile_pattern(NULL, 0, &options, &program));
    print_outcome("an empty text, by null pointers", fancy_find(&program, NULL, 0, &options, NULL, 0));
    fancy_free(&program);
}

static void print_message(const char *what, const char *pattern)
{
    char message[120];
    size_t length = fancy_explain_pattern(pattern, strlen(pattern), &options, message, sizeof message);
    printf("%s: %zu %s\n", what, length, message);
}

/* The message of each code without a place, and of one past the last; then with a byte, and with a group. */
static void write_messages(void)
{
    char message[120];
    struct fancy_outcome outcome = {0, FANCY_UNSET, FANCY_UNSET, 0, 0};
    for (; outcome.code <= FANCY_ANALYSIS_LIMIT_EXCEEDED + 1; outcome.code++) {
        fancy_error_message(&outcome, message, sizeof message);
        printf("%u: %s\n", outcome.code, message);
    }
    outcome.code = FANCY_UNCLOSED_OPEN_PAREN;
    outcome.byte = 12;
    size_t length = fancy_error_message(&outcome, message, 20);
    printf("%zu %s\n", length, message);
    outcome.code = FANCY_INVALID_BACKREF;
    outcome.byte = FANCY_UNSET;
    outcome.group = 3;
    length = fancy_error_message(&outcome, message, sizeof message);
    printf("%zu %s\n", length, message);
}

/* A refusal with its place, and why. */
static void refuse(const char *pattern)
{
    compile_pattern(pattern, pattern);
    print_message("  why", pattern);
}

/* The byte is that of the first character of the reference, the call or the class, or of what the body of a look-behind or
 * the group begins with. No byte is known where each of several pieces may be refused. */
static void place_refusals(void)
{
    refuse("(?<y>a)\\k<x>");
    refuse("\xc3\xa9\\g<x>");
    refuse("(?(<x>)a|b)");
    refuse("\\k<-1>(a)");
    refuse("(a)b\\2");
    refuse("(a)\\g<2>");
    refuse("(?:x|[z-a])");
    refuse("[\\p{Nothing}]");
    refuse("(?<=ab|c)(?<!xa+)b");
    refuse("x(?<n>(?:\\g<n>|a)b)");
    refuse("(a\\g<1>)");
    refuse("(a\\g<1>)(b\\g<2>)");
    refuse("ab(*SKIP)");
    refuse("(a)\\k<1+0>");
    options.longest = true;
    refuse("ba*?");
    options.longest = false;
    options.named_groups_only = true;
    refuse("(?<n>a)\\1");
    options = fancy_default_options();
}

static void write_texts(void)
{
    char name[4];
    size_t length = fancy_error_name(FANCY_MEMORY, name, sizeof name);
    printf("%zu %s\n", length, name);
    printf("%zu %s.\n", fancy_error_name(99, name, sizeof name), name);
    printf("%zu\n", fancy_error_name(FANCY_MEMORY, NULL, 0));
    char version[16];
    fancy_version(version, sizeof version);
    printf("the version of the header: %s\n", strcmp(version, FANCY_VERSION) == 0 ? "the same" : version);
    print_message("why a class is refused", "[b-a]");
    print_message("why a group is refused", "(?<n>\\g<n>)");
    print_message("why a parenthesis is refused", "a(b");
    print_message("why a reference is refused", "(a)\\2");
    print_message("why bytes are refused", "ab\xff");
    print_message("why a pattern is not", "a");
    write_messages();
}

static void copy_programs(void)
{
    struct fancy_program copy = FANCY_NOTHING;
    fancy_free(&program);
    print_outcome("a copy of nothing", fancy_clone(&program, &copy));
    compile_pattern("a pattern to copy", "(?<n>a)b?");
    struct fancy_outcome outcome = fancy_clone(&program, &copy);
    print_outcome("a copy", outcome);
    printf("%zu groups, %zu of the copy, %zu of the pattern\n", outcome.count, fancy_group_count(&copy),
           fancy_group_count(&program));
    fancy_free(&program);
    find("the pattern, freed", "ab");
    print_outcome("its copy", fancy_find(&copy, "xab", 3, &options, spans, 2));
    printf("%zu %zu\n", spans[0], spans[1]);
    print_outcome("a copy of the copy", fancy_clone(&copy, &program));
    fancy_free(&copy);
    find("the copy of the copy", "ab");
    print_outcome("a copy of nothing over it", fancy_clone(&copy, &program));
    find("what it held, freed", "ab");
}

static struct fancy_scanner scanner = FANCY_NOTHING;

static void add(const char *what, const char *pattern)
{
    struct fancy_outcome outcome = fancy_scanner_add(&scanner, pattern, strlen(pattern), &options);
    print_outcome(what, outcome);
    printf("%zu groups\n", outcome.count);
}

static void scan(const char *what, const char *text, size_t pos, size_t groups, size_t room)
{
    size_t rows[24];
    struct fancy_outcome outcome = fancy_scan(&scanner, text, strlen(text), &options, &pos, groups, rows, room);
    print_outcome(what, outcome);
    printf("%zu written, then from %zu:", outcome.count, pos);
    for (size_t i = 0; i < FANCY_ROW_WIDTH(groups) * outcome.count; i++)
        printf(rows[i] == FANCY_UNSET ? " -" : " %zu", rows[i]);
    putchar('\n');
}

static void scan_texts(void)
{
    size_t pos = 0;
    scan("a scan without patterns", "ab", 0, 1, 24);
    add("the first pattern", "(a)(b)?");
    add("a pattern that is not closed", "(a");
    add("a pattern that is no UTF-8", "\xff");
    add("a pattern that is refused", "(a)\\2");
    options.size -= 8;
    add("options of another size", "a");
    options = fancy_default_options();
    add("the second pattern", "ab|\xc3\xa9");
    scan("of equals the first pattern", "xab\xc3\xa9", 0, 3, 24);
    scan("from a later place", "xab\xc3\xa9", 2, 1, 24);
    scan("room for one row and not for two", "aa", 0, 1, 9);
    scan("no room for a row", "aa", 0, 1, 4);
    scan("rows without groups", "aa", 0, 0, 6);
    scan("more groups than there is room for", "aa", 0, SIZE_MAX, 24);
    scan("from the end", "aa", 2, 1, 24);
    scan("from behind the text", "aa", 3, 1, 24);
    scan("from a place inside a character", "\xc3\xa9", 1, 1, 24);
    scan("a text that is no UTF-8", "ab\xff", 0, 1, 24);
    options.size -= 8;
    scan("a scan by options of another size", "ab", 0, 1, 24);
    options = fancy_default_options();
    options.text_is_utf8 = true;
    scan("a text for which the host answers", "xab\xc3\xa9", 0, 1, 24);
    options = fancy_default_options();
    add("a pattern that matches the empty string", "(?=b)");
    scan("an empty match", "cbb", 0, 1, 24);
    options.step_limit = 0;
    add("a pattern that exceeds its limit", "c");
    options = fancy_default_options();
    scan("a limit beside a match", "cabc", 0, 1, 24);
    scan("a limit and no match", "c", 0, 1, 24);
    printf("%zu rows, no room at all\n", fancy_scan(&scanner, NULL, 0, &options, &pos, 1, NULL, 0).count);
    fancy_scanner_free(&scanner);
    scan("a scan by what was freed", "ab", 0, 1, 24);
    fancy_scanner_free(&scanner);
}

/* An a or an ab, and then a c or a bcd: a search has to choose, keeps its choice, and takes up more than one state. */
static const char *const CHOICES = "(?:a|ab)(?:c|bcd)";

static void pass_limits(void)
{
    size_t numbers[14];
    struct fancy_cursor first = FANCY_FIRST;
    options = fancy_default_options();
    printf("%llu visits, %zu bytes\n", (unsigned long long)options.visit_limit, options.memory_limit);
    compile_pattern("a pattern with choices", CHOICES);
    options.visit_limit = 1;
    find("more than one visit", "xabcd");
    is_match("whether there is a match, within one visit", "xabcd");
    cursor = first;
    find_all("all matches within one visit", "xabcd", 2);
    captures_all("all groups within one visit", "xabcd", numbers, 14);
    compile_pattern("choices in the text of the replacements", "(?:b|b=)(?:2|=22)");
    replace("a replacement within one visit", "-", false, 0, 24);
    compile_pattern("the first of both again", CHOICES);
    options.memory_limit = 1;
    find("both limits: the first is reported", "xabcd");
    options.visit_limit = UINT64_MAX;
    find("more than one byte", "xabcd");
    find_all("all matches within one byte", "xabcd", 2);
    options.memory_limit = 0;
    find("no limit", "xabcd");
    printf("%zu %zu\n", spans[0], spans[1]);
    options.visit_limit = 0;
    find("0 is no limit", "xabcd");
    options = fancy_default_options();
    options.visit_limit = 1;
    add("a pattern that exceeds its limit of visits", CHOICES);
    options.visit_limit = 0;
    options.memory_limit = 1;
    add("a pattern that exceeds its limit of memory", CHOICES);
    options = fancy_default_options();
    add("a pattern that passes none", "x");
    scan("limits beside a match", "xabcd", 0, 1, 24);
    fancy_scanner_free(&scanner);
    options.visit_limit = 0;
    options.memory_limit = 1;
    add("a pattern that exceeds its limit of memory", CHOICES);
    options = fancy_default_options();
    scan("a limit of memory and no match", "xabcd", 0, 1, 24);
    fancy_scanner_free(&scanner);
    fancy_free(&program);
}

/* Eight nodes, in four rounds that change something: in two the sizes of the groups, and then that of the whole, and in two
 * what is known to end, since there is a call. */
static const char *const LOOKED_AT = "(a)(b)\\1\\2\\g<1>";

static void refuse_analyses(void)
{
    const char *tree = "(cat (grp \"a\") (grp \"b\") (ref 1) (ref 2) (call 1))";
    options = fancy_default_options();
    printf("%zu nodes\n", options.analysis_limit);
    options.analysis_limit = 32;
    compile_pattern("as many nodes as may be", LOOKED_AT);
    find("a search for the pattern", "xababa");
    printf("%zu %zu\n", spans[0], spans[1]);
    compile("a tree of as many", tree);
    add("a pattern of a scanner of as many", LOOKED_AT);
    print_message("why a pattern of as many is not refused", LOOKED_AT);
    options.analysis_limit = 31;
    compile_pattern("a node more", LOOKED_AT);
    find("a search after too many", "xababa");
    compile("a tree of one more", tree);
    add("a pattern of a scanner of one more", LOOKED_AT);
    print_message("why a pattern of one more is refused", LOOKED_AT);
    scan("the scanner has the one pattern", "xababa", 0, 1, 24);
    fancy_scanner_free(&scanner);
    options.analysis_limit = 0;
    compile_pattern("no limit of nodes", LOOKED_AT);
    options.analysis_limit = SIZE_MAX;
    compile_pattern("the greatest limit of nodes", LOOKED_AT);
    options.analysis_limit = 3;
    compile_pattern("groups without references", "(a)(b)");
    compile_pattern("a reference to no group, past the limit", "(a)\\2");
    compile_pattern("a fault behind a reference", "(a)\\1(");
    options.max_nesting = 1;
    compile_pattern("two limits: that of the analysis is reported", "(a)\\1");
    options.max_nesting = 500;
    options.analysis_limit = 4;
    compile_pattern("a reference to no group, within the limit", "(a)\\2");
    options = fancy_default_options();
    fancy_free(&program);
}

int main(void)
{
    options = fancy_default_options();
    find("a search without a tree", "a");
    find_all("all matches without a tree", "a", 2);
    compile("a tree that is no UTF-8", "\"a\xff\"");
    compile("a group that is not there", "(cat (grp \"a\") (ref 3))");
    compile("calls that double on each level", "(grp (alt \"a\" (cat (call 1) (call 1) \"b\")))");
    compile("a call that doubles on each level", "(grp (alt (cat \"a\" (call 1) (call 1)) \"b\"))");
    options.max_depth = 1;
    compile("a tree that nests too deep", "(cat (grp \"a\") \"b\")");
    compile("a tree that nests too deep and has no end", "(grp (grp");
    options.max_depth = 2;
    compile("a tree without an end", "(grp (grp");
    compile("a tree of just this many levels", "(cat (grp \"a\") \"(((\")");
    options = fancy_default_options();
    options.max_nesting = 3;
    compile("as many nodes in one another as may be", "(cat (grp \"a\") any)");
    compile("a node more in one another", "(cat (grp (grp \"a\")) any)");
    options.max_nesting = 61;
    compile("a group that calls itself, in 61 nodes", "(grp (alt (cat \"a\" (call 1)) \"b\"))");
    options.max_nesting = 60;
    compile("the same where 60 may be", "(grp (alt (cat \"a\" (call 1)) \"b\"))");
    options = fancy_default_options();
    compile("an end without a tree", ")");
    find("a search after a refusal", "a");
    compile("a tree", "(cat (grp \"a\") (grp any))");
    find("room for the match alone", "ba\xc3\xa9");
    printf("%zu groups, %zu %zu\n", fancy_group_count(&program), spans[0], spans[1]);
    find("a text that is no UTF-8", "a\xc3");
    options.pos = 1;
    find("a place inside a character", "\xc3\xa9");
    options.pos = 3;
    find("a place behind the text", "ab");
    options.pos = 0;
    options.not_empty = true;
    find("not_empty said to the search alone", "ab");
    find_all("not_empty said to all searches alone", "ab", 2);
    options = fancy_default_options();
    find_all("all matches of a text that is no UTF-8", "a\xc3", 2);
    find_all("no room for a match", "abac", 1);
    find_all("the first match", "abac", 2);
    options.step_limit = 0;
    find_all("a limit", "abac", 2);
    options = fancy_default_options();
    find_all("the same without it", "abac", 2);
    find_all("the end", "abac", 2);
    find_all("after the end", "abac", 2);
    fancy_free(&program);
    fancy_free(&program);
    find("a search in what was freed", "a");
    refuse_patterns();
    list_groups();
    replace_matches();
    name_groups();
    write_texts();
    place_refusals();
    copy_programs();
    scan_texts();
    pass_limits();
    refuse_analyses();
    return 0;
}
