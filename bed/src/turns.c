/* Whose turn comes next, and the system call Schedule, which sets priorities and time slices. */
#include "bed.h"

/* A control word with this value changes nothing. */
#define NO_CHANGE UINT32_C(0xffffffff)

/* The states that Schedule returns. */
enum { DEAD = 1, IS_INACTIVE = 2, RUNNING = 3, PENDING_SEND = 4, WAITING_TO_RECEIVE = 6 };

/* Returns whether the next turn of its priority is the thread's again: it was interrupted, and its time slice has more turns. */
static int keeps_turn(struct thread *thread) {
    int keeps = thread->is_interrupted && thread->turns_left > 0;
    if (!keeps)
        thread->turns_left = thread->more_turns;
    else if (thread->turns_left != NO_END)
        thread->turns_left--;
    return keeps;
}

/* Gives a turn to the next thread of this priority that can run. Returns 0 if none can. */
static int run_one(struct bed *bed, uint32_t priority) {
    uint32_t k, place = bed->next_turns[priority];
    for (k = 0; k < bed->slots && bed->end == NOT_ENDED; k++, place++) {
        struct thread *thread = &bed->threads[place < bed->slots ? place : (place = 0)];
        if (thread->state == ABSENT || thread->priority != priority || !thread_turn(bed, thread))
            continue;
        bed->next_turns[priority] = keeps_turn(thread) ? place : place + 1;
        return 1;
    }
    return 0;
}

/* Returns the highest priority of a thread below this limit, plus 1; or 0 if there is none. */
static uint32_t priority_below(const struct bed *bed, uint32_t limit) {
    while (limit > 0 && bed->threads_of[limit - 1] == 0)
        limit--;
    return limit;
}

/* Gives a turn to the thread that ThreadSwitch has named. Returns 0 if there is none, or if it cannot run. */
static int run_named(struct bed *bed) {
    struct thread *named = bed->named_next;
    bed->named_next = NULL;
    return named != NULL && named->state != ABSENT && thread_turn(bed, named);
}

/* Gives a turn to a thread of the highest priority of those that can run. Returns 0 if none can. */
static int run_highest(struct bed *bed) {
    uint32_t limit = priority_below(bed, PRIORITIES);
    while (limit > 0 && bed->end == NOT_ENDED) {
        if (run_one(bed, limit - 1))
            return 1;
        limit = priority_below(bed, limit - 1);
    }
    return 0;
}

void turns_run(struct bed *bed) {
    while (bed->end == NOT_ENDED && (run_named(bed) || run_highest(bed) || timeouts_wait(bed)))
        continue;
}

void turns_set_priority(struct bed *bed, struct thread *thread, uint32_t priority) {
    orders_note_priority(bed);
    bed->threads_of[thread->priority]--;
    thread->priority = priority;
    bed->threads_of[priority]++;
}

static uint32_t state_of(struct bed *bed, const struct thread *thread) {
    uint32_t wait = thread_wait(bed, thread);
    switch (thread->state) {
    case STOPPED: return DEAD;
    case INACTIVE: return IS_INACTIVE;
    default: return wait == L4_STATE_SENDING ? PENDING_SEND : wait == L4_STATE_RECEIVING ? WAITING_TO_RECEIVE : RUNNING;
    }
}

/* A time control has the length of the time slice, and below it that of the total quantum, of which the bed has none. */
static int is_slice(uint32_t control) {
    uint32_t slice = control >> 16;
    return (control & 0xffff) == 0 && (slice == 0 || (timeouts_is_period(slice) && timeouts_microseconds(slice) > 0));
}

/* A slice has whole turns. */
static uint32_t turns_after_first(const struct bed *bed, uint32_t slice) {
    uint64_t turns = (timeouts_microseconds(slice) - 1) / (bed->turn * 1000);
    return slice == 0 || turns >= NO_END ? NO_END : (uint32_t)turns;
}

/* What is left of a time slice, as a time control. */
static uint32_t slice_left(const struct bed *bed, const struct thread *thread) {
    return thread->turns_left == NO_END ? 0 : timeouts_period((thread->turns_left + UINT64_C(1)) * bed->turn * 1000) << 16;
}

/* Returns the ErrorCode. Threads of root's space may change each thread, and others those of their space. */
static uint32_t change(struct bed *bed, const struct thread *caller, struct thread *dest) {
    uint32_t priority = caller->registers.ecx, control = caller->registers.edx;
    if (dest == NULL)
        return INVALID_THREAD;
    if (caller->space->number != ROOT_SPACE && caller->space != dest->space)
        return NO_PRIVILEGE;
    if ((priority != NO_CHANGE && priority > caller->priority) || (control != NO_CHANGE && !is_slice(control)))
        return INVALID_PARAMETER;
    if (priority != NO_CHANGE)
        turns_set_priority(bed, dest, priority);
    if (control != NO_CHANGE)
        dest->turns_left = dest->more_turns = turns_after_first(bed, control >> 16);
    return 0;
}

void turns_schedule(struct bed *bed, struct thread *thread) {
    struct registers *registers = &thread->registers;
    struct thread *dest = thread_find(bed, call_global_id(bed, thread, registers->eax));
    uint32_t error = INVALID_PARAMETER, left = dest == NULL ? 0 : slice_left(bed, dest);
    orders_note_change(bed, dest);
    if (dest != NULL && trace_is_on(bed, thread->number))
        print("%u calls Schedule: thread %u, priority %d, time %08x\n", thread->number, dest->number, (int)registers->ecx, registers->edx);
    print_line(bed, "%u calls schedule %08x priority %08x time %08x", thread->number, registers->eax, registers->ecx, registers->edx);
    if ((registers->esi & registers->edi) == NO_CHANGE)
        error = change(bed, thread, dest);
    thread->utcb_words[TCR_ERROR_CODE] = error;
    registers->eax = error == 0 ? state_of(bed, dest) : 0;
    registers->edx = error == 0 ? left : 0;
}
