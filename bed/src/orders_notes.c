/* What the search has to know about a turn, as the bed executes it. */
#include "states.h"

/* Each look at a thread's clock moves it on by this many microseconds. */
#define CLOCK_STEP 1000u

void orders_note_call(struct bed *bed, uint32_t thread, const l4_call *call, const uint32_t *words, size_t count) {
    const struct thread *caller = thread_numbered(bed, thread);
    if (bed->orders == NULL)
        return;
    kernels_add_call(bed->orders, thread, call, words, count);
    if (caller != NULL)
        bed->orders->extras[slot_of(bed, caller)].to = call->kind == L4_IPC ? call->to : 0;
    single_note_call(bed->orders, thread, call);
}

void orders_note_end_of_wait(struct bed *bed, uint32_t thread, int is_cancel) {
    if (bed->orders != NULL)
        kernels_add_end_of_wait(bed->orders, thread, is_cancel);
}

/* A receiver's clock is not behind that of the sender of its message. */
static void pass_time(struct orders *orders, const l4_step *step) {
    const struct thread *from = thread_numbered(orders->bed, step->thread), *to = thread_numbered(orders->bed, step->receiver);
    struct extra *extras = orders->extras;
    if (from == NULL || to == NULL)
        return;
    if (extras[slot_of(orders->bed, to)].time < extras[slot_of(orders->bed, from)].time)
        extras[slot_of(orders->bed, to)].time = extras[slot_of(orders->bed, from)].time;
}

void orders_note_step(struct bed *bed, const l4_step *step) {
    if (bed->orders == NULL || step->kind != L4_TRANSFER)
        return;
    single_touch(bed->orders, step->thread);
    single_touch(bed->orders, step->receiver);
    if (step->outcome == L4_DELIVERED)
        pass_time(bed->orders, step);
}

void orders_note_owner(struct bed *bed, uint64_t space, const l4_message *message) {
    uint32_t fpage = message->word_count > 2 ? message->words[2] : 0, log = l4_fpage_log(fpage), page = l4_fpage_base(fpage) / PAGE_BYTES, k;
    if (bed->orders == NULL)
        return;
    for (k = 0; log >= L4_PAGE_LOG && k < 1u << (log - L4_PAGE_LOG) && page + k < bed->frames; k++)
        bed->orders->owners[page + k] = (uint32_t)space + 1;
}

void orders_note_change(struct bed *bed, const struct thread *thread) {
    if (bed->orders != NULL)
        single_note_controlled(bed->orders, thread);
}

void orders_note_priority(struct bed *bed) {
    if (bed->orders == NULL)
        return;
    bed->orders->races.are_new |= !bed->orders->races.of_priorities;
    bed->orders->races.of_priorities = 1;
}

uint64_t orders_time(const struct bed *bed, const struct thread *thread) {
    return bed->orders->extras[slot_of(bed, thread)].time;
}

uint64_t orders_clock(struct bed *bed, const struct thread *thread) {
    return bed->orders->extras[slot_of(bed, thread)].time += CLOCK_STEP;
}
