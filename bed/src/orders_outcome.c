/* Outcomes: the lines of each thread, and how the run has ended. */
#include "check.h"
#include "states.h"
#include <stdlib.h>
#include <string.h>

/* A thread whose main has returned receives from itself, and a server may wait for any thread. Any other wait without a timeout is for one other
 * thread. */
static int waits_for_another(struct bed *bed, const struct thread *thread) {
    uint32_t partner;
    if (thread->deadline != 0 || thread_wait(bed, thread) == 0)
        return 0;
    partner = thread_state(bed, thread).partner;
    return partner != thread->id && partner != L4_ANYTHREAD;
}

uint64_t outcome_waiting(struct bed *bed) {
    uint64_t places = 0;
    uint32_t k;
    for (k = 0; k < L4_MAX_THREADS; k++)
        places |= (uint64_t)waits_for_another(bed, &bed->threads[k]) << k;
    return places;
}

int outcome_status(struct bed *bed) {
    switch (bed->end) {
    case ENDED_BY_FAILURE: return STATUS_FAILED;
    case ENDED_BY_ASSERTION: return STATUS_ASSERTION;
    default: break;
    }
    if (bed->has_stopped)
        return STATUS_STOPPED;
    return bed->end == NOT_ENDED && outcome_waiting(bed) != 0 ? STATUS_STUCK : STATUS_ENDED;
}

static void take(void *user, const char *line) {
    text_append(user, "%s\n", line);
}

/* The lines that a thread has begun end here. */
static void append_begun(struct orders *orders) {
    uint32_t k;
    lines_begin(orders);
    for (k = 0; k < L4_MAX_THREADS; k++)
        text_end_begun(&orders->bed->threads[k]);
    lines_end(orders);
}

/* Returns the lowest number of a thread in a space, or that of sigma0. */
static uint32_t first_thread_in(const struct bed *bed, uint64_t space) {
    uint32_t first = SIGMA0, k;
    for (k = 0; k < L4_MAX_THREADS; k++) {
        const struct thread *thread = &bed->threads[k];
        if (thread->state != ABSENT && thread->space->number == space && (first == SIGMA0 || thread->number < first))
            first = thread->number;
    }
    return first;
}

static void append_page(struct orders *orders, struct text *text, const struct thread *thread, uint32_t page) {
    l4_mapping mapping = kernel_mapping(orders->bed, thread->space->number, page);
    if (!mapping.there)
        return;
    text_append(text, "%u page %u frame %u %s", thread->number, page, mapping.frame, rights_text(mapping.rights));
    if (mapping.has_parent)
        text_append(text, " from %u page %u", first_thread_in(orders->bed, mapping.parent_space), mapping.parent_page);
    text_append(text, "\n");
}

static void append_pages(struct orders *orders, struct text *text) {
    const struct orders_options *options = orders->options;
    const struct bed *bed = orders->bed;
    uint32_t k, m;
    for (k = 0; k < L4_MAX_THREADS; k++) {
        const struct thread *thread = &bed->threads[k];
        if (thread->state == ABSENT || first_thread_in(bed, thread->space->number) != thread->number)
            continue;
        for (m = 0; m < options->page_count; m++)
            append_page(orders, text, thread, options->pages[m]);
    }
}

void outcome_append_end(struct orders *orders, struct text *text) {
    struct bed *bed = orders->bed;
    if (bed->end == NOT_ENDED) {
        text_append(text, outcome_waiting(bed) != 0 ? "deadlock\n" : "no thread can continue\n");
        output_take_lines(take, text);
        end_print_threads(bed);
        output_take_lines(NULL, NULL);
    }
    append_pages(orders, text);
}

static uint32_t add_outcome(struct orders *orders, uint32_t part, uint32_t node) {
    struct outcome outcome = {part, node, outcome_status(orders->bed)};
    uint32_t k;
    for (k = 0; k < orders->outcome_count; k++) {
        if (orders->outcomes[k].text == part)
            return k + 1;
    }
    orders->outcomes = parts_need(realloc(orders->outcomes, (orders->outcome_count + 1) * sizeof *orders->outcomes));
    orders->outcomes[orders->outcome_count++] = outcome;
    return orders->outcome_count;
}

uint32_t outcome_take(struct orders *orders, uint32_t node) {
    struct text text = {NULL, 0, 0};
    uint32_t part, k;
    append_begun(orders);
    text_append(&text, "%s", "");
    for (k = 0; k < orders->said_count; k++)
        lines_append(orders, &text, orders->said[k].line);
    outcome_append_end(orders, &text);
    part = parts_number(&orders->parts, text.bytes, text.length + 1);
    free(text.bytes);
    return add_outcome(orders, part, node);
}
