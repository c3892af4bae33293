/* What the graph of all states says: how many schedules there are, whether the program can run for ever, and which threads can wait for ever. */
#include "states.h"
#include <stdlib.h>
#include <string.h>

/* The strongly connected components (Tarjan) of the states in which one thread waits, or of all states. A component has a higher number than those
 * that follow it. */
struct graph {
    const struct orders *orders;
    uint32_t slot; /* the place of the thread, or NONE */
    uint32_t *order, *low, *stack, *path, *next, *component;
    uint32_t count, depth, stack_count, components;
};

static uint32_t *new_list(const struct orders *orders) {
    return parts_need(calloc((size_t)orders->node_count + 1, sizeof(uint32_t)));
}

static void free_graph(struct graph *graph) {
    free(graph->order);
    free(graph->low);
    free(graph->stack);
    free(graph->path);
    free(graph->next);
    free(graph->component);
}

static int is_in(const struct graph *graph, uint32_t node) {
    return graph->slot == NONE || graph->orders->nodes[node].waits >> graph->slot & 1;
}

static void enter(struct graph *graph, uint32_t node) {
    graph->path[graph->depth++] = node;
    graph->order[node] = graph->low[node] = ++graph->count;
    graph->stack[graph->stack_count++] = node;
}

/* Follows an edge of the last node of the path. */
static void follow(struct graph *graph, uint32_t node, uint32_t to) {
    if (!is_in(graph, to))
        return;
    if (graph->order[to] == 0)
        enter(graph, to);
    else if (graph->component[to] == 0 && graph->order[to] < graph->low[node])
        graph->low[node] = graph->order[to];
}

static void take_component(struct graph *graph, uint32_t first) {
    uint32_t node;
    graph->components++;
    do {
        node = graph->stack[--graph->stack_count];
        graph->component[node] = graph->components;
    } while (node != first);
}

static void leave(struct graph *graph, uint32_t node) {
    graph->depth--;
    if (graph->depth > 0 && graph->low[node] < graph->low[graph->path[graph->depth - 1]])
        graph->low[graph->path[graph->depth - 1]] = graph->low[node];
    if (graph->low[node] == graph->order[node])
        take_component(graph, node);
}

static void find_from(struct graph *graph, uint32_t first) {
    enter(graph, first);
    while (graph->depth > 0) {
        uint32_t node = graph->path[graph->depth - 1];
        if (graph->next[node] < graph->orders->nodes[node].edge_count)
            follow(graph, node, graph->orders->nodes[node].edges[graph->next[node]++].to);
        else
            leave(graph, node);
    }
}

static struct graph find_components(const struct orders *orders, uint32_t slot) {
    struct graph graph;
    uint32_t k;
    memset(&graph, 0, sizeof graph);
    graph.orders = orders;
    graph.slot = slot;
    graph.order = new_list(orders);
    graph.low = new_list(orders);
    graph.stack = new_list(orders);
    graph.path = new_list(orders);
    graph.next = new_list(orders);
    graph.component = new_list(orders);
    for (k = 0; k < orders->node_count; k++) {
        if (graph.order[k] == 0 && is_in(&graph, k))
            find_from(&graph, k);
    }
    return graph;
}

struct cycle {
    uint32_t states, first; /* the state with the fewest turns */
    uint64_t moving, always_enabled;
};

static void describe_node(const struct graph *graph, uint32_t number, struct cycle *cycle) {
    const struct node *node = &graph->orders->nodes[number];
    uint32_t k;
    if (cycle->states++ == 0)
        cycle->always_enabled = ~UINT64_C(0);
    if (cycle->states == 1 || node->depth < graph->orders->nodes[cycle->first].depth)
        cycle->first = number;
    cycle->always_enabled &= node->enabled;
    for (k = 0; k < node->edge_count; k++) {
        if (graph->component[node->edges[k].to] == graph->component[number])
            cycle->moving |= UINT64_C(1) << node->edges[k].slot;
    }
}

/* Describes each component. In one without an edge in itself, no thread moves. */
static struct cycle *describe(const struct graph *graph) {
    struct cycle *cycles = parts_need(calloc((size_t)graph->components + 1, sizeof *cycles));
    uint32_t k;
    for (k = 0; k < graph->orders->node_count; k++) {
        if (graph->component[k] != 0)
            describe_node(graph, k, &cycles[graph->component[k]]);
    }
    return cycles;
}

/* Returns the number of paths from a node to states that nothing follows. */
static uint64_t paths_from(const struct node *node, const uint64_t *paths) {
    uint64_t total = node->edge_count == 0;
    uint32_t k;
    for (k = 0; k < node->edge_count; k++) {
        if (__builtin_add_overflow(total, paths[node->edges[k].to], &total))
            return UINT64_MAX;
    }
    return total;
}

/* Without a cycle, each component is one state, and those that follow it have lower numbers. */
uint64_t graph_schedules(const struct orders *orders) {
    struct graph graph = find_components(orders, NONE);
    uint32_t *by_component = new_list(orders), k;
    uint64_t *paths = parts_need(calloc((size_t)orders->node_count + 1, sizeof *paths)), total = 0;
    for (k = 0; k < orders->node_count; k++)
        by_component[graph.component[k]] = k;
    for (k = 1; graph.components == orders->node_count && k <= orders->node_count; k++)
        total = paths[by_component[k]] = paths_from(&orders->nodes[by_component[k]], paths);
    total = graph.components == orders->node_count ? paths[0] : 0;
    free(paths);
    free(by_component);
    free_graph(&graph);
    return total;
}

static void append_threads(const struct orders *orders, struct text *text, uint64_t places) {
    uint32_t k;
    for (k = 0; k < L4_MAX_THREADS; k++) {
        if (places >> k & 1)
            text_append(text, " %u", orders->bed->threads[k].number);
    }
}

static void print_starved(struct orders *orders, uint32_t slot, const struct cycle *cycle) {
    struct text text = {NULL, 0, 0};
    restore_state(orders, orders->nodes[cycle->first].state);
    text_append(&text, "%u can wait for ever, in a cycle of %u states in which these take turns:", orders->bed->threads[slot].number, cycle->states);
    append_threads(orders, &text, cycle->moving);
    print("%s\n", text.bytes);
    free(text.bytes);
    schedule_print(orders, cycle->first);
}

/* Reports a cycle of states in all of which the thread waits for one other thread. Runs that repeat it can be fair if no thread is ready in all its
 * states without taking a turn in one. Returns whether there is such a cycle. */
static uint32_t find_starved(struct orders *orders, uint32_t slot) {
    struct graph graph = find_components(orders, slot);
    struct cycle *cycles = describe(&graph);
    uint32_t k, best = NONE;
    for (k = 1; k <= graph.components; k++) {
        if (cycles[k].moving == 0 || (cycles[k].always_enabled & ~cycles[k].moving) != 0)
            continue;
        if (best == NONE || orders->nodes[cycles[k].first].depth < orders->nodes[cycles[best].first].depth)
            best = k;
    }
    if (best != NONE)
        print_starved(orders, slot, &cycles[best]);
    free(cycles);
    free_graph(&graph);
    return best != NONE;
}

static uint32_t states_in_cycles(const struct orders *orders) {
    struct graph graph = find_components(orders, NONE);
    struct cycle *cycles = describe(&graph);
    uint32_t k, states = 0;
    for (k = 1; k <= graph.components; k++)
        states += cycles[k].moving != 0 ? cycles[k].states : 0;
    free(cycles);
    free_graph(&graph);
    return states;
}

uint32_t graph_print_cycles(struct orders *orders) {
    uint32_t states = states_in_cycles(orders), slot, k, found = 0;
    uint64_t waits = 0;
    if (states == 0)
        return 0;
    print("the programs can run for ever: %u states are in cycles\n", states);
    for (k = 0; k < orders->node_count; k++)
        waits |= orders->nodes[k].waits;
    for (slot = 0; slot < L4_MAX_THREADS; slot++) {
        if (waits >> slot & 1)
            found += find_starved(orders, slot);
    }
    return found;
}
