/* Turns that are followed alone.
 *
 * In a state, the search has to follow the turn of each thread that is ready. It follows the turn t of a thread T alone if t is an Ipc that receives
 * without a timeout of zero, and sends nothing, or sends to a thread R that waits for T alone, without a timeout, and if no other turn can notice
 * when t is taken. (In the words of the field, {t} is a persistent set.) The outcomes are the same, for the following reason.
 *
 * Let other threads take any turns u1 .. un first. Then t can still be taken, unless un ends the run, and t u1 .. un leads to the same state as u1
 * .. un t:
 *
 * - T is ready until its own turn. No other turn changes its registers or its memory, so its instructions do the same.
 * - If t sends, R waits for T alone until then: no other message reaches R, and its wait has no timeout. So t delivers the same message.
 * - If t receives, T gets the message of the first sender in the queue that it accepts, or waits for one. The queue keeps the order of the senders
 *   to T, whether they send before t or after it. So T gets the same message. Its sender continues when both have taken their turns.
 *
 * So an order of turns that leads to an outcome can be changed into one that begins with t, by moving t to the front. If t is not in it, some turn
 * ends the run before T's; then t can be put in front, and the lines are the same if t prints nothing.
 *
 * That fails if a turn among u1 .. un notices t, or the other way round:
 *
 * - It sends with a timeout to T, or to the thread whose message T takes: this can fail before t and succeed behind it. But if T has called the
 *   sender in one Ipc, T receives for as long as the sender has its message.
 * - It changes pages of the space of T or R without the doing of that thread.
 * - It deletes or changes a thread that t touches, or returns what such a thread does (Schedule, ExchangeRegisters), or it creates a thread that t
 *   names.
 * - It accesses a word of memory that t accesses too, and one of both writes it.
 * - It ends the run, and t has printed, or outcomes show pages.
 * - It sets a priority: then who can take a turn depends on what other threads do.
 *
 * Whether there are such turns is not known before. So each is noted when the search sees it (races), and the search begins again without following
 * the turns alone that it can notice. Let no turn be new in the last search. Suppose that u1 .. un is a shortest such list behind a state in which t
 * was followed alone, in which un notices t. Before un, t can be moved to the front, so u1 .. un can be taken behind t. The search follows u1 there,
 * or another turn alone that does not notice u1 .. un-1 and can be moved before them. It goes on so until it has followed un, with T as t has left
 * it; and it would have noted un then.
 *
 * While a thread waits to send to T with a timeout, t is not followed alone if it receives: it could take the message of a send that expires before t. A
 * send that begins later is noted.
 *
 * A turn is not followed alone if it leads to a state whose turns were followed before. So each cycle of states has one in which all turns are
 * followed, and no turn is left out for ever. */
#include "states.h"
#include <stdlib.h>
#include <string.h>

void single_forget(struct orders *orders) {
    free(orders->races.list);
    memset(&orders->races, 0, sizeof orders->races);
}

static int has_site(const struct races *races, const struct site *site) {
    uint32_t k;
    for (k = 0; k < races->count; k++) {
        if (races->list[k].thread == site->thread && (races->list[k].address == site->address || races->list[k].address == 0))
            return 1;
    }
    return 0;
}

static void add_site(struct races *races, uint32_t thread, uint32_t address) {
    struct site site = {thread, address};
    if (has_site(races, &site))
        return;
    if (races->count == races->room) {
        races->room = races->room * 2 + 64;
        races->list = parts_need(realloc(races->list, races->room * sizeof *races->list));
    }
    races->list[races->count++] = site;
    races->are_new = 1;
}

static int is_controlled(const struct races *races, uint32_t number) {
    uint32_t k;
    for (k = 0; k < races->controlled_count; k++) {
        if (races->controlled[k] == number)
            return 1;
    }
    return 0;
}

/* Notes a thread that others delete, change or look at. One that has no pager yet has taken no turn. */
void single_note_controlled(struct orders *orders, const struct thread *thread) {
    struct races *races = &orders->races;
    if (thread == NULL || thread->state == INACTIVE || is_controlled(races, thread->number))
        return;
    if (races->controlled_count == MAX_SPEAKERS)
        races->of_priorities = 1; /* no turn is followed alone any more */
    else
        races->controlled[races->controlled_count++] = thread->number;
    races->are_new = 1;
}

void single_touch(struct orders *orders, uint32_t number) {
    const struct thread *thread = thread_numbered(orders->bed, number);
    if (number == SIGMA0)
        orders->turn.has_sigma0 = 1;
    if (thread != NULL)
        orders->turn.touched |= UINT64_C(1) << slot_of(orders->bed, thread);
}

/* Returns whether no other turn can create the thread with this id. */
static int is_active(struct bed *bed, uint32_t id) {
    const struct thread *thread = thread_find(bed, id);
    return id == L4_NILTHREAD || id == L4_ANYTHREAD || (thread != NULL && thread->state != INACTIVE);
}

/* Returns whether a send to this thread can expire. */
static int has_limited_sender(struct bed *bed, const struct thread *receiver) {
    uint32_t k;
    for (k = 0; k < L4_MAX_THREADS; k++) {
        const struct thread *sender = &bed->threads[k];
        if (sender->deadline != 0 && thread_wait(bed, sender) == L4_STATE_SENDING && thread_state(bed, sender).partner == receiver->id)
            return 1;
    }
    return 0;
}

/* Returns whether the thread with this id waits with a timeout. */
static int can_expire(struct bed *bed, uint32_t id) {
    const struct thread *thread = thread_find(bed, id);
    return thread != NULL && thread->deadline != 0;
}

/* Returns the address behind the call of a thread that is in an entry of the kernel interface page. */
static uint32_t call_site(struct bed *bed, const struct thread *thread) {
    uint32_t address = 0, k;
    for (k = 0; k < sizeof address; k++) {
        const unsigned char *byte = space_byte(bed, thread->space, thread->registers.esp + k);
        if (byte != NULL)
            address |= (uint32_t)*byte << 8 * k;
    }
    return address;
}

/* A send that can expire succeeds, or would have succeeded, because its receiver waits already. */
static void note_short_send(struct orders *orders, uint32_t sender, const l4_call *call, const l4_state *to) {
    struct bed *bed = orders->bed;
    const struct thread *receiver = thread_find(bed, call->to), *from = thread_numbered(bed, sender);
    uint32_t called;
    if (receiver == NULL || from == NULL || to->state != L4_STATE_RECEIVING)
        return;
    called = orders->extras[slot_of(bed, receiver)].to;
    if (called == from->id)
        return;
    add_site(&orders->races, receiver->number, call_site(bed, receiver));
    if (called != L4_NILTHREAD) /* the receiver waits since a turn of that thread has taken its message */
        add_site(&orders->races, NUMBER(called), 0);
}

static void note_ipc(struct orders *orders, uint32_t caller, const l4_call *call) {
    struct bed *bed = orders->bed;
    const struct thread *thread = thread_numbered(bed, caller);
    l4_state to = l4_state_of(&bed->kernel, NUMBER(call->to));
    int sends = call->to != L4_NILTHREAD, receives = call->from != L4_NILTHREAD;
    single_touch(orders, NUMBER(call->to));
    if (call->from != L4_ANYTHREAD)
        single_touch(orders, NUMBER(call->from));
    if (sends && (call->timeouts >> 16 != 0 || (thread != NULL && thread->send_timeout != 0)))
        note_short_send(orders, caller, call, &to);
    if (thread == NULL || thread != orders->turn.running)
        return;
    orders->turn.site.thread = caller;
    orders->turn.site.address = call_site(bed, thread);
    orders->turn.can_be_single = is_active(bed, call->to) && is_active(bed, call->from) && (sends || receives)
        && (!receives || ((call->timeouts & 0xffff) == 0 && !has_limited_sender(bed, thread)))
        && (!sends || (to.state == L4_STATE_RECEIVING && !to.expires && to.id == call->to && to.partner == thread->id
                       && !can_expire(bed, call->to)));
}

void single_note_call(struct orders *orders, uint32_t caller, const l4_call *call) {
    orders->turn.calls++;
    orders->turn.can_be_single = 0;
    single_touch(orders, caller);
    if (call->kind == L4_IPC)
        note_ipc(orders, caller, call);
    else if (call->kind == L4_FAULT)
        single_touch(orders, NUMBER(l4_state_of(&orders->bed->kernel, caller).pager));
    else if (call->kind != L4_UNMAP)
        single_note_controlled(orders, thread_numbered(orders->bed, NUMBER(call->id)));
}

/* Notes the threads whose pages the turn has changed without their doing. */
static void note_changed_pages(struct orders *orders, const struct thread *running) {
    const struct bed *bed = orders->bed;
    uint32_t k;
    for (k = 0; k < L4_MAX_THREADS; k++) {
        const struct thread *thread = &bed->threads[k];
        int has_received = (orders->turn.waited >> k & 1) && thread->state == READY;
        if (thread->state != ABSENT && thread != running && !has_received && thread->space->has_changed)
            add_site(&orders->races, thread->number, 0);
    }
}

void single_note_end(struct orders *orders, const struct thread *running) {
    struct races *races = &orders->races;
    orders->turn.has_printed |= running->text_length > 0;
    if (orders->bed->end != NOT_ENDED) {
        races->are_new |= !races->of_ends;
        races->of_ends = 1;
    }
    note_changed_pages(orders, running);
}

/* Returns whether the turn has touched a thread that is deleted or changed at some time, or whose pages are. */
static int touches_noted(const struct orders *orders) {
    uint32_t k;
    for (k = 0; k < L4_MAX_THREADS; k++) {
        struct site all = {orders->bed->threads[k].number, 0};
        if (orders->turn.touched >> k & 1 && (is_controlled(&orders->races, all.thread) || has_site(&orders->races, &all)))
            return 1;
    }
    return 0;
}

int single_is_turn(const struct orders *orders) {
    const struct turn *turn = &orders->turn;
    const struct races *races = &orders->races;
    if (turn->calls != 1 || !turn->can_be_single || turn->has_shared || turn->has_sigma0 || orders->bed->end != NOT_ENDED)
        return 0;
    if (races->of_priorities || (races->of_ends && (turn->has_printed || orders->options->page_count > 0)))
        return 0;
    return !touches_noted(orders) && !has_site(races, &turn->site);
}
