/* l4_bed test: a file NAME.test has the arguments of a run, the status that the run has to have, and the lines that it has to print. */
#define _GNU_SOURCE
#include "test.h"
#include "check.h"
#include "test_orders.h"
#include <dirent.h>
#include <errno.h>
#include <fcntl.h>
#include <stdint.h>
#include <stdio.h>
#include <stdlib.h>
#include <string.h>
#include <sys/mman.h>
#include <sys/stat.h>
#include <sys/wait.h>
#include <unistd.h>

#define SUFFIX ".test"
#define RUN "#! "
#define STATUS "#! status "
#define MAX_WORDS 1000
#define TEXT_ROOM DIFFERENCE_ROOM

/* A run that does not end is no endless test. */
static char default_limit[] = "--time=60";

struct words {
    char *list[MAX_WORDS];
    int count;
};

/* A text whose lines are taken one by one. */
struct text {
    char *bytes, *next;
    size_t length;
    uint32_t line; /* the number of the line that was taken last */
};

struct test {
    const char *name;
    struct text expected, printed;
    struct words options, programs;
    int status, actual_status; /* an exit status, or 128 and the number of a signal */
};

static struct {
    int is_tap, count, failures;
    struct words options, files;
    int (*run)(int count, char **words);
} tests;

static void *allocate(size_t bytes) {
    void *allocated = calloc(1, bytes);
    check_holds(allocated != NULL, "there is not enough memory for a test");
    return allocated;
}

static void add_word(struct words *words, char *word) {
    if (words->count == MAX_WORDS)
        fail(STATUS_INPUT, "test: there are more than %d options, programs or files", MAX_WORDS);
    words->list[words->count++] = word;
}

/* Returns the next line without its newline, or NULL. */
static char *take_line(struct text *text) {
    char *line = text->next, *end = text->bytes + text->length, *newline;
    if (line >= end)
        return NULL;
    newline = memchr(line, '\n', (size_t)(end - line));
    text->next = newline == NULL ? end : newline + 1;
    *(newline == NULL ? end : newline) = 0;
    text->line++;
    return line;
}

/* Reads a file from its beginning, and closes it. */
static struct text read_text(int file, const char *name) {
    struct text text = {NULL, NULL, 0, 0};
    struct stat state;
    ssize_t got = 0;
    if (file < 0 || fstat(file, &state) < 0)
        fail(STATUS_INPUT, "%s: %s", name, strerror(errno));
    text.next = text.bytes = allocate((size_t)state.st_size + 1);
    do {
        text.length += (size_t)got;
        got = pread(file, text.bytes + text.length, (size_t)state.st_size - text.length, (off_t)text.length);
    } while (got > 0);
    if (got < 0)
        fail(STATUS_INPUT, "%s: %s", name, strerror(errno));
    close(file);
    return text;
}

/* Returns the name of a program that a test names, seen from where the bed runs: it lies beside the test. */
static char *beside(const char *test, char *program) {
    const char *slash = strrchr(test, '/');
    size_t folder = slash == NULL || program[0] == '/' ? 0 : (size_t)(slash + 1 - test);
    char *name = allocate(folder + strlen(program) + 1);
    memcpy(name, test, folder);
    strcpy(name + folder, program);
    return name;
}

/* `#! status N`, or `#! ` with options and programs. */
static void read_directive(struct test *test, char *line) {
    char *place = NULL, *word, *end;
    if (strncmp(line, STATUS, strlen(STATUS)) == 0) {
        unsigned long status = strtoul(line + strlen(STATUS), &end, 10);
        if (*end != 0 || end == line + strlen(STATUS) || status > 255)
            fail(STATUS_INPUT, "%s: line %u: the status is not in 0..=255", test->name, test->expected.line);
        test->status = (int)status;
        return;
    }
    for (word = strtok_r(line + strlen(RUN), " ", &place); word != NULL; word = strtok_r(NULL, " ", &place)) {
        if (word[0] == '-')
            add_word(&test->options, word);
        else
            add_word(&test->programs, beside(test->name, word));
    }
}

/* Returns the next line that is expected, or ANY_LINES, or NULL. Other lines that begin with # are comments. */
static char *take_expected(struct test *test) {
    char *line = take_line(&test->expected);
    while (line != NULL && line[0] == '#' && strcmp(line, ANY_LINES) != 0) {
        if (strncmp(line, RUN, strlen(RUN)) == 0)
            read_directive(test, line);
        line = take_line(&test->expected);
    }
    return line;
}

/* Adds the options, or with a schedule those of its replay. */
static void add_options(struct words *words, const struct words *options, char *schedule) {
    int k;
    for (k = 0; k < options->count; k++) {
        if (schedule == NULL || !outcomes_are_of_option(options->list[k]))
            add_word(words, options->list[k]);
    }
}

static void execute(const struct test *test, int output, char *schedule) {
    static char name[] = "l4_bed";
    struct words words = {{NULL}, 0};
    int k;
    add_word(&words, name);
    add_word(&words, default_limit);
    add_options(&words, &test->options, schedule);
    add_options(&words, &tests.options, schedule);
    if (schedule != NULL)
        add_word(&words, schedule);
    for (k = 0; k < test->programs.count; k++)
        add_word(&words, test->programs.list[k]);
    check_system(dup2(output, STDOUT_FILENO), "dup2");
    exit(tests.run(words.count, words.list));
}

/* The run is in a process of its own, so that whatever happens ends only that process. It is a replay if there is a schedule. */
static void run_test(struct test *test, char *schedule) {
    int output = memfd_create("output", MFD_CLOEXEC), status;
    pid_t child;
    check_system(output, "memfd_create");
    check_output();
    child = fork();
    check_system(child, "fork");
    if (child == 0)
        execute(test, output, schedule);
    check_system(waitpid(child, &status, 0), "waitpid");
    test->actual_status = WIFEXITED(status) ? WEXITSTATUS(status) : 128 + WTERMSIG(status);
    test->printed = read_text(output, "the output of a run");
}

static const char *text_of(const char *line) {
    return line == NULL ? "no further line" : line;
}

/* Skips printed lines up to the one that is expected, or to the end. */
static char *skip_to(struct text *printed, const char *wanted, char *line) {
    while (line != NULL && (wanted == NULL || strcmp(wanted, line) != 0))
        line = take_line(printed);
    return line;
}

/* Writes the first difference. Returns whether there is none. */
static int agrees(struct test *test, char *wanted, char *difference) {
    char *line = take_line(&test->printed);
    while (wanted != NULL || line != NULL) {
        if (wanted != NULL && strcmp(wanted, ANY_LINES) == 0) {
            wanted = take_expected(test);
            line = skip_to(&test->printed, wanted, line);
        } else if (wanted == NULL || line == NULL || strcmp(wanted, line) != 0) {
            snprintf(difference, TEXT_ROOM, "line %u: expected %.1000s, found %.1000s", test->expected.line + (wanted == NULL), text_of(wanted), text_of(line));
            return 0;
        } else {
            wanted = take_expected(test);
            line = take_line(&test->printed);
        }
    }
    return 1;
}

static void print_result(const struct test *test, int has_passed, const char *text) {
    tests.count++;
    tests.failures += !has_passed;
    if (tests.is_tap)
        printf("%s %d - %s: %s\n", has_passed ? "ok" : "not ok", tests.count, test->name, text);
    else
        printf("%s: %s\n", test->name, text);
    check_output();
}

static int has_orders(const struct words *options) {
    int k = 0;
    while (k < options->count && strcmp(options->list[k], "--orders") != 0)
        k++;
    return k < options->count;
}

/* Replays the schedule of each outcome in a process of its own. Returns whether each leads to its outcome. */
static int replays_agree(struct test *test, const struct outcomes *found, char *difference) {
    const struct test searched = *test;
    int k, agree = 1;
    for (k = 0; agree && k < found->count; k++) {
        char *option = outcomes_schedule_option(&found->list[k]);
        run_test(test, option);
        agree = outcomes_is_replay(&found->list[k], test->printed.bytes, difference);
        free(test->printed.bytes);
        free(option);
    }
    *test = searched;
    return agree;
}

/* The outcomes of a search are compared in any order. */
static int outcomes_agree(struct test *test, char *wanted, char *difference) {
    struct outcomes expected = {NULL, 0}, found = {NULL, 0};
    char *line;
    int agree;
    for (line = wanted; line != NULL; line = take_expected(test))
        outcomes_add_expected(&expected, line, test->expected.line);
    for (line = take_line(&test->printed); line != NULL; line = take_line(&test->printed))
        outcomes_add_printed(&found, line);
    agree = outcomes_compare(&expected, &found, difference) && replays_agree(test, &found, difference);
    if (agree)
        snprintf(difference, TEXT_ROOM, "%d outcome%s, passed", found.count, found.count == 1 ? "" : "s");
    outcomes_free(&expected);
    outcomes_free(&found);
    return agree;
}

/* Writes the first difference, or how much agrees. Returns whether all agrees. */
static int compare(struct test *test, char *wanted, char *text) {
    int is_search = has_orders(&test->options) || has_orders(&tests.options);
    if (!(is_search ? outcomes_agree(test, wanted, text) : agrees(test, wanted, text))) {
        size_t length = strlen(text);
        if (test->actual_status != test->status)
            snprintf(text + length, TEXT_ROOM - length, "; expected status %d, found %d", test->status, test->actual_status);
        return 0;
    }
    if (test->actual_status != test->status) {
        snprintf(text, TEXT_ROOM, "expected status %d, found %d", test->status, test->actual_status);
        return 0;
    }
    if (!is_search)
        snprintf(text, TEXT_ROOM, "%u line%s, passed", test->printed.line, test->printed.line == 1 ? "" : "s");
    return 1;
}

static void take_test(const char *name) {
    struct test *test = allocate(sizeof *test);
    char text[TEXT_ROOM], *wanted;
    int k;
    test->name = name;
    test->expected = read_text(open(name, O_RDONLY | O_CLOEXEC), name);
    wanted = take_expected(test);
    if (test->programs.count == 0)
        fail(STATUS_INPUT, "%s: no line `#! [OPTION..] PROGRAM..` names a program above the expected lines", name);
    run_test(test, NULL);
    print_result(test, compare(test, wanted, text), text);
    for (k = 0; k < test->programs.count; k++)
        free(test->programs.list[k]);
    free(test->expected.bytes);
    free(test->printed.bytes);
    free(test);
}

static int is_test(const struct dirent *entry) {
    size_t length = strlen(entry->d_name);
    return length > strlen(SUFFIX) && strcmp(entry->d_name + length - strlen(SUFFIX), SUFFIX) == 0;
}

/* Adds the tests of a folder by their names, or the file. */
static void add_files(char *name) {
    struct dirent **entries;
    struct stat state;
    int count, k;
    if (stat(name, &state) < 0)
        fail(STATUS_INPUT, "%s: %s", name, strerror(errno));
    if (!S_ISDIR(state.st_mode)) {
        add_word(&tests.files, strdup(name));
        return;
    }
    count = scandir(name, &entries, is_test, alphasort);
    check_system(count, name);
    if (count == 0)
        fail(STATUS_INPUT, "%s: the folder has no file NAME" SUFFIX, name);
    for (k = 0; k < count; k++) {
        char *file = allocate(strlen(name) + strlen(entries[k]->d_name) + 2);
        sprintf(file, "%s/%s", name, entries[k]->d_name);
        add_word(&tests.files, file);
        free(entries[k]);
    }
    free(entries);
}

int test_files(int count, char **words, int (*run)(int count, char **words)) {
    int k;
    tests.run = run;
    for (k = 0; k < count; k++) {
        if (strcmp(words[k], "--tap") == 0)
            tests.is_tap = 1;
        else if (words[k][0] == '-')
            add_word(&tests.options, words[k]);
        else
            add_files(words[k]);
    }
    if (tests.files.count == 0)
        fail(STATUS_INPUT, "test: no file and no folder is named");
    if (tests.is_tap)
        printf("TAP version 13\n1..%d\n", tests.files.count);
    for (k = 0; k < tests.files.count; k++) {
        take_test(tests.files.list[k]);
        free(tests.files.list[k]);
    }
    return tests.failures == 0 ? STATUS_ENDED : STATUS_FAILED;
}
