/* The result of a search. */
#define _GNU_SOURCE
#include "check.h"
#include "states.h"
#include <errno.h>
#include <fnmatch.h>
#include <limits.h>
#include <stdio.h>
#include <stdlib.h>
#include <string.h>

static const char *text_of(const struct orders *orders, uint32_t outcome) {
    return (const char *)orders->parts.list[orders->outcomes[outcome].text]->bytes;
}

/* Calls a function with each line of an outcome, until it returns 1. Returns whether it has. */
static int each_line(const char *text, int (*take)(void *user, const char *line), void *user) {
    char *copy = parts_need(strdup(text)), *rest = copy, *line;
    int found = 0;
    while (!found && (line = strsep(&rest, "\n")) != NULL && rest != NULL)
        found = take(user, line);
    free(copy);
    return found;
}

static int print_each(void *user, const char *line) {
    (void)user;
    print("%s\n", line);
    return 0;
}

static int write_each(void *user, const char *line) {
    fprintf(user, "# %s\n", line);
    return 0;
}

static int is_line(void *user, const char *line) {
    return fnmatch(user, line, FNM_NOESCAPE) == 0;
}

/* The file of an outcome has its lines as comments. */
static void write_schedule(const struct orders *orders, uint32_t outcome) {
    char name[PATH_MAX];
    struct text text = {NULL, 0, 0};
    FILE *file;
    snprintf(name, sizeof name, "%s/%u.schedule", orders->options->folder, outcome + 1);
    file = fopen(name, "w");
    if (file == NULL)
        fail(STATUS_OUTPUT, "--schedules: %s: %s", name, strerror(errno));
    text_append(&text, "%s", "");
    schedule_append(orders, &text, orders->outcomes[outcome].node);
    fprintf(file, "# outcome %u\n", outcome + 1);
    each_line(text_of(orders, outcome), write_each, file);
    fprintf(file, "%s\n", text.length == 0 ? "" : text.bytes + 1);
    free(text.bytes);
    if (fclose(file) != 0)
        fail(STATUS_OUTPUT, "--schedules: the file cannot be written: %s: %s", name, strerror(errno));
}

static void print_outcomes(const struct orders *orders) {
    uint32_t k;
    for (k = 0; k < orders->outcome_count; k++) {
        print("outcome %u\n", k + 1);
        each_line(text_of(orders, k), print_each, NULL);
        if (!orders->options->hides_schedules)
            schedule_print(orders, orders->outcomes[k].node);
        if (orders->options->folder != NULL)
            write_schedule(orders, k);
    }
}

/* Returns how many rules are broken. The first outcome that breaks a rule is named. */
static uint32_t print_broken(const struct orders *orders) {
    uint32_t broken = 0, k, m;
    for (k = 0; k < orders->options->rule_count; k++) {
        const struct rule *rule = &orders->options->rules[k];
        for (m = 0; m < orders->outcome_count; m++) {
            if (each_line(text_of(orders, m), is_line, (void *)(uintptr_t)rule->line) != rule->is_always)
                break;
        }
        if (m < orders->outcome_count)
            print("broken by outcome %u: --%s '%s'\n", m + 1, rule->is_always ? "always" : "never", rule->line);
        broken += m < orders->outcome_count;
    }
    return broken;
}

/* Without --switch-at-memory, threads that share memory switch at kernel calls and faults only. */
static void print_shared(const struct orders *orders) {
    uint32_t frame, word;
    if (orders->shared_words == 0 || orders->options->switches_at_memory)
        return;
    for (frame = 0; frame < MAX_BED_FRAMES; frame++) {
        for (word = 0; orders->switches[frame] != NULL && word < FRAME_WORDS; word++) {
            if (!orders->switches[frame][word])
                continue;
            print("note: threads share %u word%s of memory, the first in frame %u at byte %u; --switch-at-memory also switches there\n",
                  orders->shared_words, orders->shared_words == 1 ? "" : "s", frame, word * 4);
            return;
        }
    }
}

static void print_summary(const struct orders *orders) {
    uint64_t schedules = orders->incomplete[0] == 0 && orders->options->takes_all_turns ? graph_schedules(orders) : 0;
    print("%u outcome%s", orders->outcome_count, orders->outcome_count == 1 ? "" : "s");
    if (schedules == UINT64_MAX)
        print(", more than 10^19 schedules");
    else if (schedules != 0)
        print(", %llu schedule%s", (unsigned long long)schedules, schedules == 1 ? "" : "s");
    print(", %u state%s, %llu turn%s", orders->reached_count, orders->reached_count == 1 ? "" : "s", (unsigned long long)orders->turns,
          orders->turns == 1 ? "" : "s");
    print(orders->incomplete[0] == 0 ? "%s\n" : ", incomplete: %s\n", orders->incomplete);
}

/* Of several reasons not to exit with 0, that with the lowest status counts. */
static int lower(int one, int other) {
    return one == STATUS_ENDED || (other != STATUS_ENDED && other < one) ? other : one;
}

int report_print(struct orders *orders) {
    int status = orders->incomplete[0] != 0 ? STATUS_LIMIT : STATUS_ENDED;
    uint32_t k;
    print_outcomes(orders);
    print_summary(orders);
    if (orders->incomplete[0] == 0 && orders->options->takes_all_turns && graph_print_cycles(orders) > 0)
        status = lower(status, STATUS_STUCK);
    print_shared(orders);
    if (print_broken(orders) > 0)
        status = lower(status, STATUS_FAILED);
    for (k = 0; k < orders->outcome_count; k++)
        status = lower(status, orders->outcomes[k].status);
    return status;
}
