/* Whose turn can come next, and one turn. */
#include "states.h"
#include <string.h>

static int is_ready(const struct thread *thread) {
    return thread->state == READY && !thread->is_halted;
}

/* Returns the places of the ready threads of the highest priority. */
static uint64_t highest_places(const struct bed *bed) {
    uint64_t places = 0;
    uint32_t highest = 0, k;
    for (k = 0; k < L4_MAX_THREADS; k++) {
        const struct thread *thread = &bed->threads[k];
        if (!is_ready(thread))
            continue;
        if (thread->priority > highest) {
            highest = thread->priority;
            places = 0;
        }
        if (thread->priority == highest)
            places |= UINT64_C(1) << k;
    }
    return places;
}

/* Whether the thread waits with a timeout that is neither zero nor never. It can strike at any time. */
static int can_expire(const struct thread *thread) {
    return thread->state == CALLING && thread->deadline != 0;
}

static uint64_t expiring_places(const struct bed *bed) {
    uint64_t places = 0;
    uint32_t k;
    for (k = 0; k < L4_MAX_THREADS; k++)
        places |= (uint64_t)can_expire(&bed->threads[k]) << k;
    return places;
}

/* As in a run, a thread takes a turn only if no thread of a higher priority is ready, or if ThreadSwitch has named it. The turn of a thread that waits
 * is the end of its wait by the timeout. */
uint64_t turn_enabled(const struct bed *bed) {
    if (bed->end != NOT_ENDED)
        return 0;
    return highest_places(bed) | expiring_places(bed) | (bed->named_next == NULL ? 0 : UINT64_C(1) << slot_of(bed, bed->named_next));
}

/* Forgets the thread that ThreadSwitch has named if this makes no difference: it is not ready, or can take the next turn in any case. */
static void forget_named(struct bed *bed) {
    if (bed->named_next != NULL && (!is_ready(bed->named_next) || highest_places(bed) >> slot_of(bed, bed->named_next) & 1))
        bed->named_next = NULL;
}

int turn_was_interrupted(const struct bed *bed) {
    return bed->end == ENDED_BY_LIMIT || bed->end == ENDED_BY_SIGNAL || bed->end == ENDED_BY_OUTPUT;
}

static uint64_t calling_places(const struct bed *bed) {
    uint64_t places = 0;
    uint32_t k;
    for (k = 0; k < L4_MAX_THREADS; k++)
        places |= (uint64_t)(bed->threads[k].state == CALLING) << k;
    return places;
}

/* All replies are taken at once, so that a state has none. The reply to a thread can stop it, and its line belongs to this turn. */
static void take_replies(struct bed *bed) {
    uint32_t k;
    for (k = 0; k < L4_MAX_THREADS && bed->end == NOT_ENDED; k++)
        thread_take_reply(bed, &bed->threads[k]);
}

struct thread *turn_first(struct bed *bed, uint64_t places) {
    uint64_t others = places & ~expiring_places(bed);
    return &bed->threads[__builtin_ctzll(others != 0 ? others : places)];
}

/* The clock of a thread that has not looked at it stays as it is. */
static void expire(struct orders *orders, struct thread *thread) {
    uint64_t *time = &orders->extras[slot_of(orders->bed, thread)].time;
    if (*time != 0 && *time < thread->deadline)
        *time = thread->deadline;
    timeouts_forget(thread);
    kernel_timeout(orders->bed, thread->number);
}

static void run_turn(struct orders *orders, struct thread *thread) {
    struct bed *bed = orders->bed;
    if (can_expire(thread)) {
        expire(orders, thread);
        return;
    }
    bed->named_next = NULL;
    thread_enter_once(bed, thread);
}

void turn_take(struct orders *orders, struct thread *thread) {
    struct bed *bed = orders->bed;
    uint32_t k;
    memset(&orders->turn, 0, sizeof orders->turn);
    orders->turn.running = thread;
    orders->turn.waited = calling_places(bed);
    single_touch(orders, thread->number);
    kernels_begin_turn(orders);
    lines_begin(orders);
    run_turn(orders, thread);
    orders->turn.running = NULL;
    for (k = 0; k < L4_MAX_THREADS; k++) {
        if (bed->spaces[k].engine_space != NULL)
            bed->kind->keep(bed->engine, bed->spaces[k].engine_space);
    }
    take_replies(bed);
    lines_end(orders);
    forget_named(bed);
    single_note_end(orders, thread);
    orders->turns++;
}
