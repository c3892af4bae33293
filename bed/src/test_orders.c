#define _GNU_SOURCE
#include "test_orders.h"
#include "parts.h"
#include "check.h"
#include <stdio.h>
#include <stdlib.h>
#include <string.h>
#include <sys/mman.h>
#include <unistd.h>

#define SCHEDULE "schedule"

static struct outcome_lines *add_outcome(struct outcomes *outcomes, uint32_t line) {
    struct outcome_lines *added;
    outcomes->list = parts_need(realloc(outcomes->list, (size_t)(outcomes->count + 1) * sizeof *outcomes->list));
    added = &outcomes->list[outcomes->count++];
    memset(added, 0, sizeof *added);
    added->line = line;
    return added;
}

static void add_line(struct outcome_lines *outcome, char *line) {
    outcome->list = parts_need(realloc(outcome->list, (size_t)(outcome->count + 1) * sizeof(char *)));
    outcome->list[outcome->count++] = line;
}

void outcomes_add_expected(struct outcomes *outcomes, char *line, uint32_t number) {
    if (strcmp(line, "outcome") == 0)
        add_outcome(outcomes, number);
    else
        add_line(outcomes->count == 0 ? add_outcome(outcomes, number) : &outcomes->list[outcomes->count - 1], line);
}

/* A long schedule has several lines. */
static void add_schedule(struct outcome_lines *outcome, const char *words) {
    size_t length = outcome->schedule == NULL ? 0 : strlen(outcome->schedule);
    outcome->schedule = parts_need(realloc(outcome->schedule, length + strlen(words) + 1));
    strcpy(outcome->schedule + length, words);
}

/* Lines of an outcome are those between `outcome K` and the schedule; or, without schedules, up to the summary. */
void outcomes_add_printed(struct outcomes *outcomes, char *line) {
    uint32_t number;
    int length = 0, is_summary = sscanf(line, "%u outcome%n", &number, &length) == 1 && length > 0 && (line[length] == ',' || line[length] == 's');
    if (sscanf(line, "outcome %u%n", &number, &length) == 1 && line[length] == 0) {
        add_outcome(outcomes, number);
    } else if (is_summary || (outcomes->count > 0 && outcomes->list[outcomes->count - 1].is_matched)) {
        if (outcomes->count > 0) /* what follows is no outcome */
            outcomes->list[outcomes->count - 1].is_matched = 1;
    } else if (outcomes->count > 0 && strncmp(line, SCHEDULE, strlen(SCHEDULE)) == 0) {
        add_schedule(&outcomes->list[outcomes->count - 1], line + strlen(SCHEDULE));
    } else if (outcomes->count > 0) {
        add_line(&outcomes->list[outcomes->count - 1], line);
    }
}

static int is_match(char **wanted, int wanted_count, char **lines, int count) {
    while (wanted_count > 0) {
        if (strcmp(*wanted, ANY_LINES) == 0) {
            wanted++, wanted_count--;
            while (count > 0 && (wanted_count == 0 || strcmp(*wanted, *lines) != 0))
                lines++, count--;
        } else if (count == 0 || strcmp(*wanted, *lines) != 0) {
            return 0;
        } else {
            wanted++, wanted_count--;
            lines++, count--;
        }
    }
    return count == 0;
}

static struct outcome_lines *find(struct outcomes *found, const struct outcome_lines *wanted) {
    int k;
    for (k = 0; k < found->count; k++) {
        struct outcome_lines *outcome = &found->list[k];
        if (!outcome->is_matched && is_match(wanted->list, wanted->count, outcome->list, outcome->count))
            return outcome;
    }
    return NULL;
}

int outcomes_compare(struct outcomes *expected, struct outcomes *found, char *difference) {
    int k;
    if (found->count > 0)
        found->list[found->count - 1].is_matched = 0;
    for (k = 0; k < expected->count; k++) {
        struct outcome_lines *outcome = find(found, &expected->list[k]);
        if (outcome == NULL) {
            snprintf(difference, DIFFERENCE_ROOM, "line %u: no order has this outcome", expected->list[k].line);
            return 0;
        }
        outcome->is_matched = 1;
    }
    for (k = 0; k < found->count; k++) {
        if (!found->list[k].is_matched) {
            snprintf(difference, DIFFERENCE_ROOM, "outcome %u is not expected", found->list[k].line);
            return 0;
        }
    }
    return 1;
}

int outcomes_are_of_option(const char *option) {
    static const char *const options[] = {"--orders", "--never", "--always", "--from-line", "--all-turns", "--outcomes", "--most", "--depth"};
    size_t k;
    for (k = 0; k < sizeof options / sizeof *options; k++) {
        size_t length = strlen(options[k]);
        if (strncmp(option, options[k], length) == 0 && (option[length] == 0 || option[length] == '='))
            return 1;
    }
    return 0;
}

/* The file is in memory. The process of the replay has it too. */
char *outcomes_schedule_option(const struct outcome_lines *outcome) {
    const char *schedule = outcome->schedule == NULL ? "" : outcome->schedule;
    static int file = -1;
    char *option;
    if (file >= 0)
        close(file);
    file = memfd_create("schedule", 0);
    check_system(file, "memfd_create");
    check_system(write(file, schedule, strlen(schedule)), "a schedule");
    check_system(asprintf(&option, "--schedule=/proc/self/fd/%d", file), "asprintf");
    return option;
}

/* The thread of a line, or UINT32_MAX for the lines behind those of threads. */
static uint32_t thread_of(const char *line) {
    char *end;
    unsigned long thread = strtoul(line, &end, 10);
    if (end == line || (strncmp(end, " | ", 3) != 0 && strncmp(end, " ends ", 6) != 0 && strncmp(end, " is stopped", 11) != 0))
        return UINT32_MAX;
    return (uint32_t)thread;
}

/* A replay prints the lines of threads in the order of time, and an outcome has those of one thread after those of another. */
static void sort_lines(struct outcome_lines *outcome) {
    int k, m;
    for (k = 1; k < outcome->count; k++) {
        char *line = outcome->list[k];
        for (m = k; m > 0 && thread_of(outcome->list[m - 1]) > thread_of(line); m--)
            outcome->list[m] = outcome->list[m - 1];
        outcome->list[m] = line;
    }
}

int outcomes_is_replay(const struct outcome_lines *outcome, const char *printed, char *difference) {
    struct outcomes replayed = {NULL, 0};
    struct outcome_lines *lines = add_outcome(&replayed, 0);
    char *copy = parts_need(strdup(printed)), *rest = copy, *line;
    int is_equal;
    while ((line = strsep(&rest, "\n")) != NULL && rest != NULL)
        add_line(lines, line);
    sort_lines(lines);
    is_equal = is_match(outcome->list, outcome->count, lines->list, lines->count);
    if (!is_equal)
        snprintf(difference, DIFFERENCE_ROOM, "the schedule of outcome %u leads to another one", outcome->line);
    free(copy);
    outcomes_free(&replayed);
    return is_equal;
}

void outcomes_free(struct outcomes *outcomes) {
    int k;
    for (k = 0; k < outcomes->count; k++) {
        free(outcomes->list[k].list);
        free(outcomes->list[k].schedule);
    }
    free(outcomes->list);
    memset(outcomes, 0, sizeof *outcomes);
}
