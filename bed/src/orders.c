#include "orders.h"
#include "check.h"
#include "states.h"
#include <stdio.h>
#include <stdlib.h>

void orders_add_rule(struct orders_options *options, int is_always, const char *line) {
    struct rule rule = {is_always, line};
    if (options->rule_count == MAX_RULES)
        fail(STATUS_INPUT, "--%s: there are more than %u rules", is_always ? "always" : "never", MAX_RULES);
    options->rules[options->rule_count++] = rule;
}

void orders_add_page(struct orders_options *options, uint32_t page) {
    if (options->page_count == MAX_SHOWN_PAGES)
        fail(STATUS_INPUT, "--page: there are more than %u pages", MAX_SHOWN_PAGES);
    options->pages[options->page_count++] = page;
}

void orders_set_part(struct orders_options *options, const char *text) {
    char end;
    if (sscanf(text, "%u/%u%c", &options->part, &options->part_count, &end) != 2 || options->part == 0 || options->part > options->part_count)
        fail(STATUS_INPUT, "--part: %s is not K/N with K in 1..=N", text);
}

int orders_are_asked(const struct orders_options *options) {
    return options->is_on || options->schedule != NULL || options->check != NULL;
}

void orders_open(struct bed *bed, const struct orders_options *options) {
    struct orders *orders = parts_need(calloc(1, sizeof *orders));
    orders->bed = bed;
    orders->options = options;
    orders->is_replay = options->schedule != NULL;
    orders->holder = NONE;
    bed->orders = orders;
    memory_watch(orders);
}

/* Takes turns in the order of the threads until one has printed the line. A wait expires only if no thread is ready. */
static void run_to_line(struct orders *orders) {
    struct bed *bed = orders->bed;
    uint64_t places = turn_enabled(bed);
    while (places != 0 && !orders->has_seen_line) {
        struct thread *thread = turn_first(bed, places);
        schedule_add(orders, thread->number);
        turn_take(orders, thread);
        places = turn_enabled(bed);
    }
    if (!orders->has_seen_line && !turn_was_interrupted(bed))
        fail(STATUS_INPUT, "--from-line: the run ends before a thread prints a line with %s", orders->options->from_line);
}

static int search(struct orders *orders) {
    struct bed *bed = orders->bed;
    int status;
    if (orders->options->from_line != NULL)
        run_to_line(orders);
    if (turn_was_interrupted(bed))
        snprintf(orders->incomplete, sizeof orders->incomplete, "%s", bed->end_reason);
    else
        search_all(orders);
    status = report_print(orders);
    if (orders->outcome_count == 0 && orders->incomplete[0] == 0) {
        print("no order ends\n");
        status = STATUS_STUCK;
    }
    return bed->end == ENDED_BY_SIGNAL || bed->end == ENDED_BY_OUTPUT ? STATUS_OF_END : status;
}

/* Prints what the outcome of the search has behind the lines of threads. */
static void print_end(struct orders *orders) {
    struct text text = {NULL, 0, 0};
    text_append(&text, "%s", "");
    outcome_append_end(orders, &text);
    print("%s", text.bytes);
    free(text.bytes);
}

static int replay(struct orders *orders) {
    struct bed *bed = orders->bed;
    uint32_t k;
    schedule_read(orders, orders->options->schedule);
    schedule_take(orders);
    for (k = 0; k < L4_MAX_THREADS; k++)
        text_end_begun(&bed->threads[k]);
    if (turn_was_interrupted(bed)) {
        end_report(bed);
        return STATUS_OF_END;
    }
    if (turn_enabled(bed) != 0) {
        print("the schedule ends\n");
        end_print_threads(bed);
        return STATUS_ENDED;
    }
    print_end(orders);
    return outcome_status(bed);
}

/* Prints the outcomes of a certificate's states, without schedules. */
static int check(struct orders *orders) {
    certificate_check(orders);
    return report_print(orders);
}

int orders_run(struct bed *bed) {
    if (bed->orders->options->check != NULL)
        return check(bed->orders);
    return bed->orders->is_replay ? replay(bed->orders) : search(bed->orders);
}

void orders_print_costs(const struct bed *bed, double seconds) {
    const struct orders *orders = bed->orders;
    uint64_t bytes = orders->parts.bytes + (uint64_t)orders->parts.room * sizeof(struct part *) + ((uint64_t)4 << orders->parts.places_log)
        + (uint64_t)orders->node_room * sizeof(struct node) + orders->edge_count * sizeof(struct edge);
    if (orders->is_replay || orders->node_count == 0)
        return;
    fprintf(stderr, "search: %.0f turns a second, %.0f states a second, %llu bytes a state, %u round%s\n", (double)orders->turns / seconds,
            (double)orders->node_count / seconds, (unsigned long long)(bytes / orders->node_count), orders->rounds, orders->rounds == 1 ? "" : "s");
}

void orders_close(struct bed *bed) {
    struct orders *orders = bed->orders;
    uint32_t k;
    if (orders == NULL)
        return;
    search_free(orders);
    for (k = 0; k < orders->spare_count; k++)
        bed->kind->free_space(bed->engine, orders->spares[k].space);
    memory_forget(orders);
    parts_free(&orders->parts);
    free(orders->prefix);
    free(orders);
    bed->orders = NULL;
}
