/* The search of all states, breadth first: so the first schedule to an outcome is a shortest one. */
#include "check.h"
#include "states.h"
#include <stdio.h>
#include <stdlib.h>
#include <string.h>
#include <time.h>
#include <unistd.h>

/* Kernels of states whose turns are still to be taken are kept as copies. Further ones are kept as checkpoints, which are smaller and slower. */
#define MOST_KERNELS 2000u

static void list_work(struct orders *orders, uint32_t number) {
    if (orders->nodes[number].is_listed)
        return;
    orders->nodes[number].is_listed = 1;
    if (orders->work_end == orders->work_room) {
        orders->work_room = orders->work_room * 2 + 4096;
        orders->work = parts_need(realloc(orders->work, orders->work_room * sizeof *orders->work));
    }
    orders->work[orders->work_end++] = number;
}

/* The node gets the bed's kernel when the bed gets another one, or the checkpoint that was just written. */
static void keep_kernel(struct orders *orders, uint32_t number) {
    struct node *node = &orders->nodes[number];
    if (orders->kept_kernels < MOST_KERNELS) {
        orders->holder = number;
        orders->kept_kernels++;
        return;
    }
    keep_checkpoint(orders);
    node->checkpoint = parts_need(malloc(orders->checkpoint_bytes));
    memcpy(node->checkpoint, orders->buffer, orders->checkpoint_bytes);
    node->checkpoint_bytes = orders->checkpoint_bytes;
}

/* Gives the bed's kernel to the node that is to get it, or frees it. */
static void give_up_kernel(struct orders *orders) {
    struct bed *bed = orders->bed;
    if (orders->holder != NONE)
        orders->nodes[orders->holder].kernel = bed->kernel;
    else
        l4_free(&bed->kernel);
    bed->kernel = (l4_kernel)L4_EMPTY;
    orders->holder = NONE;
}

/* Gives the bed the kernel of a node. The node keeps it too, unless it needs it no more. */
static void take_kernel(struct orders *orders, struct node *node, int is_last) {
    struct bed *bed = orders->bed;
    give_up_kernel(orders);
    if (node->kernel.hidden == NULL) {
        check_library(l4_checkpoint_read(&node->kernel, node->checkpoint, node->checkpoint_bytes).refusal, "l4_checkpoint_read");
        orders->kept_kernels++;
    }
    if (!is_last) {
        check_library(l4_copy(&node->kernel, &bed->kernel), "l4_copy");
        return;
    }
    bed->kernel = node->kernel;
    node->kernel = (l4_kernel)L4_EMPTY;
    orders->kept_kernels--;
}

static void free_kernel(struct orders *orders, struct node *node) {
    if (node->kernel.hidden != NULL) {
        l4_free(&node->kernel);
        orders->kept_kernels--;
    }
    free(node->checkpoint);
    node->checkpoint = NULL;
}

static uint32_t new_node(struct orders *orders, uint32_t state, uint32_t parent, uint32_t by) {
    struct node *node;
    if (orders->node_count == orders->node_room) {
        orders->node_room = orders->node_room * 2 + 1024;
        orders->nodes = parts_need(realloc(orders->nodes, orders->node_room * sizeof *orders->nodes));
    }
    node = &orders->nodes[orders->node_count];
    memset(node, 0, sizeof *node);
    node->state = state;
    node->parent = parent;
    node->by = by;
    node->depth = parent == NONE ? 0 : orders->nodes[parent].depth + 1;
    orders->parts.list[state]->node = orders->node_count;
    return orders->node_count++;
}

/* Returns the node of the present state. */
static uint32_t take_node(struct orders *orders, uint32_t parent, uint32_t by) {
    uint32_t state = keep_state(orders), number = orders->parts.list[state]->node;
    if (number != NONE)
        return number;
    number = new_node(orders, state, parent, by);
    certificate_add(orders, state);
    orders->nodes[number].enabled = turn_enabled(orders->bed);
    orders->nodes[number].waits = outcome_waiting(orders->bed);
    if (orders->nodes[number].enabled != 0)
        keep_kernel(orders, number);
    else
        orders->nodes[number].outcome = outcome_take(orders, number);
    return number;
}

/* The search follows this node. */
static void reach(struct orders *orders, uint32_t number) {
    struct node *node = &orders->nodes[number];
    orders->reached_count += !node->is_reached;
    node->is_reached = 1;
    if (node->enabled != 0 && !node->is_expanded)
        list_work(orders, number);
}

static void add_edge(struct orders *orders, uint32_t number, uint32_t slot, uint32_t to) {
    struct node *node = &orders->nodes[number];
    struct edge edge = {slot, to};
    node->edges = parts_need(realloc(node->edges, (node->edge_count + 1) * sizeof *node->edges));
    node->edges[node->edge_count++] = edge;
    orders->edge_count++;
}

/* Takes a turn of a state. Returns whether no other turn of the state has to be followed. */
static int follow(struct orders *orders, uint32_t number, uint32_t slot, int is_last) {
    struct bed *bed = orders->bed;
    uint32_t by, to;
    int is_single;
    restore_state(orders, orders->nodes[number].state);
    take_kernel(orders, &orders->nodes[number], is_last);
    by = bed->threads[slot].number;
    turn_take(orders, &bed->threads[slot]);
    if (turn_was_interrupted(bed)) {
        snprintf(orders->incomplete, sizeof orders->incomplete, "%s", bed->end_reason);
        return 1;
    }
    is_single = !orders->options->takes_all_turns && single_is_turn(orders);
    to = take_node(orders, number, by);
    is_single = is_single && !orders->nodes[to].is_expanded;
    if (is_single) {
        orders->edge_count -= orders->nodes[number].edge_count;
        orders->nodes[number].edge_count = 0;
    }
    add_edge(orders, number, slot, to);
    return is_single;
}

static void expand(struct orders *orders, uint32_t number) {
    uint64_t places = orders->nodes[number].enabled;
    uint32_t k;
    orders->nodes[number].is_listed = 0;
    orders->nodes[number].is_expanded = 1;
    while (places != 0) {
        uint32_t slot = (uint32_t)__builtin_ctzll(places);
        places &= places - 1;
        if (follow(orders, number, slot, places == 0))
            break;
    }
    for (k = 0; k < orders->nodes[number].edge_count; k++)
        reach(orders, orders->nodes[number].edges[k].to);
    free_kernel(orders, &orders->nodes[number]);
}

static void show_progress(const struct orders *orders, time_t *shown) {
    time_t now = time(NULL);
    if (now == *shown || !isatty(STDERR_FILENO))
        return;
    fprintf(stderr, "\rsearched: %u states, found: %u outcomes", orders->node_count, orders->outcome_count);
    fflush(stderr);
    *shown = now;
}

static int has_reached_limit(struct orders *orders) {
    if (orders->node_count < orders->options->most_states)
        return 0;
    snprintf(orders->incomplete, sizeof orders->incomplete, "--most %llu is reached", (unsigned long long)orders->options->most_states);
    return 1;
}

/* Whether the search has seen something that it has to treat in another way, so that it begins again. */
static int must_repeat(const struct orders *orders) {
    const struct orders_options *options = orders->options;
    return (options->switches_at_memory && orders->has_new_shared)
        || (!options->takes_all_turns && (orders->races.are_new || orders->has_new_shared));
}

static void search(struct orders *orders) {
    time_t shown = time(NULL);
    while (orders->work_first < orders->work_end && orders->incomplete[0] == 0 && !has_reached_limit(orders)) {
        uint32_t number = orders->work[orders->work_first++];
        if (!orders->options->takes_all_turns && must_repeat(orders))
            return;
        if (orders->nodes[number].depth < orders->options->most_depth)
            expand(orders, number);
        else
            snprintf(orders->incomplete, sizeof orders->incomplete, "--depth %llu is reached", (unsigned long long)orders->options->most_depth);
        show_progress(orders, &shown);
    }
}

/* Forgets all nodes. */
static void clear(struct orders *orders) {
    uint32_t k;
    for (k = 0; k < orders->node_count; k++) {
        free_kernel(orders, &orders->nodes[k]);
        free(orders->nodes[k].edges);
        orders->parts.list[orders->nodes[k].state]->node = NONE;
    }
    orders->node_count = orders->reached_count = orders->outcome_count = 0;
    orders->work_first = orders->work_end = orders->edge_count = 0;
    orders->turns = 0;
}

/* Begins again from the first state. */
static void begin_round(struct orders *orders) {
    struct bed *bed = orders->bed;
    give_up_kernel(orders);
    clear(orders);
    certificate_begin(orders);
    orders->has_new_shared = orders->races.are_new = 0;
    orders->rounds++;
    restore_state(orders, orders->first_state);
    check_library(l4_copy(&orders->first_kernel, &bed->kernel), "l4_copy");
    reach(orders, take_node(orders, NONE, 0));
}

void search_begin(struct orders *orders) {
    memory_forget(orders);
    orders->is_switching = 1;
    orders->has_new_shared = 0;
    orders->turns = 0;
    single_forget(orders);
    keep_first_state(orders);
}

void search_all(struct orders *orders) {
    search_begin(orders);
    check_library(l4_copy(&orders->bed->kernel, &orders->first_kernel), "l4_copy");
    do {
        begin_round(orders);
        search(orders);
    } while (orders->incomplete[0] == 0 && must_repeat(orders));
    give_up_kernel(orders);
    certificate_write(orders);
}

void search_free(struct orders *orders) {
    clear(orders);
    l4_free(&orders->first_kernel);
    free(orders->nodes);
    free(orders->work);
    free(orders->outcomes);
    free(orders->buffer);
    free(orders->kernel_words);
    single_forget(orders);
    kernels_free(orders);
    certificate_close(orders);
}
