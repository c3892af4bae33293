/* Makes the present state of the bed a list of parts. Two things are left out of it, because nothing that follows depends on them: replies that the bed
 * has taken, which the kernel never reads again; and the order of senders to different receivers in the kernel's queue, since at most one thread
 * begins to receive at a time. */
#include "check.h"
#include "states.h"
#include <stdlib.h>
#include <string.h>

/* The frame of a state is a list of blocks, since a turn changes few bytes. */
#define BLOCK_BYTES 256u
#define BLOCKS (PAGE_BYTES / BLOCK_BYTES)

/* Words of a checkpoint before those of the kernel, and behind them. */
#define HEAD_WORDS 8u
#define DIGEST_WORDS 8u
/* Words before the queue of senders: the page size, and the number of the next space. Words of a thread before what it does. */
#define FIRST_WORDS 3u
#define THREAD_WORDS 6u
/* What a thread does, as a checkpoint has it. */
enum { DOES_NOTHING = 0, HAS_IPC_REPLY = 1, HAS_FAILED_FAULT = 4, HAS_LAST_REPLY = 7, RECEIVES = 8, SENDS = 9 };
#define THREAD_NUMBERS (LAST_NUMBER + 1u)

/* Returns how many words say what a thread does: the README of l4_checkpoints has the list. */
static uint32_t words_of_act(const uint32_t *act) {
    uint32_t place;
    switch (act[0]) {
    case HAS_IPC_REPLY: return 5 + act[4];
    case HAS_FAILED_FAULT: return 2;
    case RECEIVES: return 4 + (act[4] == 1 ? 2 : 1);
    case SENDS:
        place = 4 + (act[4] == 1 ? 4 : 1);
        place += 1 + act[place];
        return place + 1 + 3 * act[place];
    default: return 1;
    }
}

/* Sorts the queue by receivers. Senders to one receiver keep their order, which decides what the receiver gets. */
static void sort_queue(uint32_t *queue, uint32_t count, const uint32_t *receivers) {
    uint32_t k, m;
    for (k = 1; k < count; k++) {
        uint32_t sender = queue[k];
        for (m = k; m > 0 && receivers[queue[m - 1]] > receivers[sender]; m--)
            queue[m] = queue[m - 1];
        queue[m] = sender;
    }
}

/* Writes the words of a thread, without a reply. Returns how many words of the checkpoint these are. */
static uint32_t take_thread(const uint32_t *words, uint32_t *receivers, uint32_t *out, size_t *made) {
    const uint32_t *act = words + THREAD_WORDS;
    uint32_t count = THREAD_WORDS + words_of_act(act), kept = count;
    if (act[0] == SENDS)
        receivers[words[1]] = act[1];
    if (act[0] >= HAS_IPC_REPLY && act[0] <= HAS_LAST_REPLY)
        kept = THREAD_WORDS;
    memcpy(out + *made, words, kept * sizeof *out);
    *made += kept;
    if (kept < count)
        out[(*made)++] = HAS_IPC_REPLY;
    return count;
}

/* Writes the words of the kernel's threads. Returns the place of the words behind them. */
static size_t take_threads(const uint32_t *words, size_t end, uint32_t *out, size_t *made) {
    static uint32_t receivers[THREAD_NUMBERS];
    uint32_t senders = words[HEAD_WORDS + FIRST_WORDS];
    size_t place = HEAD_WORDS + FIRST_WORDS + 1 + senders;
    *made = place - HEAD_WORDS;
    memcpy(out, words + HEAD_WORDS, *made * sizeof *out);
    while (place < end && words[place] == 1)
        place += take_thread(words + place, receivers, out, made);
    check_holds(place < end && words[place] == 0, "the words of a kernel are not those that the search expects");
    sort_queue(out + FIRST_WORDS + 1, senders, receivers);
    return place;
}

void keep_checkpoint(struct orders *orders) {
    struct bed *bed = orders->bed;
    l4_count written;
    if (orders->checkpoint_bytes != 0)
        return;
    written = l4_checkpoint_write(&bed->kernel, bed->frames, 0, orders->buffer, orders->buffer_bytes);
    check_library(written.refusal, "l4_checkpoint_write");
    if (written.count > orders->buffer_bytes) {
        orders->buffer_bytes = 2 * (uint32_t)written.count;
        orders->buffer = parts_need(realloc(orders->buffer, orders->buffer_bytes));
        orders->kernel_words = parts_need(realloc(orders->kernel_words, orders->buffer_bytes));
        written = l4_checkpoint_write(&bed->kernel, bed->frames, 0, orders->buffer, orders->buffer_bytes);
        check_library(written.refusal, "l4_checkpoint_write");
    }
    orders->checkpoint_bytes = (uint32_t)written.count;
}

static void keep_kernel(struct orders *orders) {
    const uint32_t *words;
    size_t end, made, mappings;
    orders->checkpoint_bytes = 0;
    if (kernels_find(orders))
        return;
    keep_checkpoint(orders);
    words = (const uint32_t *)(const void *)orders->buffer;
    end = orders->checkpoint_bytes / sizeof *words - DIGEST_WORDS;
    mappings = take_threads(words, end, orders->kernel_words, &made);
    parts_renumber(&orders->parts, &orders->now.heading[OF_THREADS], orders->kernel_words, made * sizeof *words);
    parts_renumber(&orders->parts, &orders->now.heading[OF_MAPPINGS], words + mappings, (end - mappings) * sizeof *words);
    kernels_add(orders);
}

static void fill_thread(const struct bed *bed, const struct thread *thread, const struct extra *extra, struct thread_part *part) {
    const struct registers *registers = &thread->registers;
    const uint32_t general[] = {registers->eax, registers->ebx, registers->ecx, registers->edx, registers->esi,
                                registers->edi, registers->ebp, registers->esp, registers->eip, registers->eflags};
    memset(part, 0, sizeof *part);
    part->state = thread->state;
    part->calling = thread->calling;
    part->number = thread->number;
    part->id = thread->id;
    part->pager = thread->pager;
    part->priority = thread->priority;
    part->space = (uint32_t)(thread->space - bed->spaces);
    part->utcb = thread->utcb;
    part->fault_address = thread->fault_address;
    part->fault_access = thread->fault_access;
    part->vain_answers = thread->vain_answers;
    part->is_halted = (uint32_t)thread->is_halted;
    part->text_length = (uint32_t)thread->text_length;
    part->time = extra->time;
    part->send_timeout = thread->send_timeout;
    part->receive_timeout = thread->receive_timeout;
    part->call_time = thread->call_time;
    part->deadline = thread->deadline;
    part->more_turns = thread->more_turns;
    part->turns_left = thread->turns_left;
    memcpy(part->general, general, sizeof general);
}

/* The words of a call are needed as long as its message is to be sent, and the window as long as the thread receives. */
static void forget_words(struct bed *bed, struct thread *thread, struct extra *extra) {
    uint32_t state = l4_state_of(&bed->kernel, thread->number).state;
    if (state == L4_STATE_SENDING)
        return;
    memset(thread->entered.words, 0, sizeof thread->entered.words);
    if (state != L4_STATE_RECEIVING)
        thread->entered.acceptor = extra->to = 0;
}

static void keep_thread(struct orders *orders, uint32_t slot) {
    struct bed *bed = orders->bed;
    struct thread *thread = &bed->threads[slot];
    struct {
        struct thread_part part;
        unsigned char rest[sizeof thread->entered.words + sizeof thread->text];
    } bytes;
    size_t length = 0;
    if (thread->state == ABSENT) {
        orders->now.threads[slot] = NONE;
        return;
    }
    forget_words(bed, thread, &orders->extras[slot]);
    fill_thread(bed, thread, &orders->extras[slot], &bytes.part);
    bytes.part.to = orders->extras[slot].to;
    bytes.part.acceptor = thread->entered.acceptor;
    bytes.part.floats = parts_number(&orders->parts, thread->registers.floats, FLOAT_BYTES);
    if (l4_state_of(&bed->kernel, thread->number).state == L4_STATE_SENDING)
        bytes.part.word_count = L4_MAX_WORDS;
    length = bytes.part.word_count * sizeof *thread->entered.words;
    memcpy(bytes.rest, thread->entered.words, length);
    memcpy(bytes.rest + length, thread->text, thread->text_length);
    parts_renumber(&orders->parts, &orders->now.threads[slot], &bytes, sizeof bytes.part + length + thread->text_length);
}

static void keep_threads(struct orders *orders) {
    uint32_t k, count = 0;
    for (k = 0; k < L4_MAX_THREADS; k++) {
        keep_thread(orders, k);
        if (orders->now.threads[k] != NONE)
            count = k + 1;
    }
    orders->now.heading[THREAD_COUNT] = count;
}

/* Returns how many pages of the leaf are present, and writes them if there is room. */
static uint32_t take_leaf(const struct space *space, uint32_t leaf, struct page_part *out) {
    uint32_t k, count = 0;
    for (k = 0; space->leaves[leaf] != NULL && k < LEAF_PAGES; k++) {
        if (space->leaves[leaf][k] == 0)
            continue;
        if (out != NULL) {
            out[count].page = leaf * LEAF_PAGES + k;
            out[count].entry = space->leaves[leaf][k];
        }
        count++;
    }
    return count;
}

static void keep_pages(struct orders *orders, uint32_t slot) {
    struct space *space = &orders->bed->spaces[slot];
    struct page_part *pages;
    uint32_t leaf, count = 0;
    if (!space->has_changed && orders->now.pages[slot] != NONE)
        return;
    for (leaf = 0; leaf < L4_SPACE_PAGES / LEAF_PAGES; leaf++)
        count += take_leaf(space, leaf, NULL);
    pages = parts_need(malloc((count + 1) * sizeof *pages));
    for (leaf = 0, count = 0; leaf < L4_SPACE_PAGES / LEAF_PAGES; leaf++)
        count += take_leaf(space, leaf, pages + count);
    parts_renumber(&orders->parts, &orders->now.pages[slot], pages, count * sizeof *pages);
    free(pages);
    space->has_changed = 0;
}

static void keep_space(struct orders *orders, uint32_t slot) {
    struct space *space = &orders->bed->spaces[slot];
    struct space_part part;
    memset(&part, 0, sizeof part);
    part.number = space->number;
    part.exists = (uint32_t)space->exists;
    part.has_engine = space->engine_space != NULL;
    part.kip_page = space->kip_page;
    part.utcb_page = space->utcb_page;
    part.utcb_pages = space->utcb_pages;
    memcpy(part.utcb_frames, space->utcb_frames, sizeof part.utcb_frames);
    parts_renumber(&orders->parts, &orders->now.spaces[slot], &part, sizeof part);
    space->has_changed |= !space->exists;
    keep_pages(orders, slot);
}

static void keep_spaces(struct orders *orders) {
    uint32_t k, count = 0;
    for (k = 0; k < L4_MAX_THREADS; k++) {
        if (orders->bed->spaces[k].exists)
            count = k + 1;
    }
    for (k = 0; k < count || k < orders->now.heading[SPACE_COUNT]; k++)
        keep_space(orders, k);
    orders->now.heading[SPACE_COUNT] = count;
}

static void keep_frame(struct orders *orders, uint32_t frame) {
    const unsigned char *bytes = bed_frame(orders->bed, frame);
    uint32_t *number = &orders->now.frames[frame], before = *number, blocks[BLOCKS], k;
    memset(blocks, 0xff, sizeof blocks);
    if (before != NONE)
        memcpy(blocks, orders->parts.list[before]->bytes, sizeof blocks);
    for (k = 0; k < BLOCKS; k++)
        parts_renumber(&orders->parts, &blocks[k], bytes + k * BLOCK_BYTES, BLOCK_BYTES);
    parts_renumber(&orders->parts, number, blocks, sizeof blocks);
    if (*number == before || orders->varies[frame])
        return;
    orders->varies[frame] = 1;
    orders->varying[orders->varying_count++] = frame;
}

/* The engine has reported each frame that the turn's thread has written. The bed itself writes to UTCBs only. */
static void keep_frames(struct orders *orders) {
    uint32_t k;
    for (k = 0; k < orders->written_count; k++) {
        keep_frame(orders, orders->written[k]);
        orders->is_written[orders->written[k]] = 0;
    }
    orders->written_count = 0;
    for (k = 0; k < L4_MAX_THREADS; k++) {
        if (orders->bed->is_own_frame_used[k])
            keep_frame(orders, orders->bed->frames + 1 + k);
    }
}

static void keep_rest(struct orders *orders) {
    struct bed *bed = orders->bed;
    struct rest rest;
    memset(&rest, 0, sizeof rest);
    rest.end = bed->end;
    rest.has_stopped = (uint32_t)bed->has_stopped;
    rest.named_next = bed->named_next == NULL ? NONE : slot_of(bed, bed->named_next);
    rest.said_count = orders->said_count;
    memcpy(rest.said, orders->said, orders->said_count * sizeof *rest.said);
    memcpy(rest.is_own_frame_used, bed->is_own_frame_used, sizeof rest.is_own_frame_used);
    parts_renumber(&orders->parts, &orders->now.heading[OF_REST], &rest, sizeof rest);
    parts_renumber(&orders->parts, &orders->now.heading[OF_OWNERS], orders->owners, bed->frames * sizeof *orders->owners);
}

/* Frames at the end of the list that are as in the first state are left out, so that a list does not change when further frames begin to vary. */
static uint32_t list_of(const struct orders *orders, uint32_t *list) {
    const struct current *now = &orders->now;
    uint32_t k, count = HEADING;
    memcpy(list, now->heading, sizeof now->heading);
    for (k = 0; k < now->heading[THREAD_COUNT]; k++)
        list[count++] = now->threads[k];
    for (k = 0; k < now->heading[SPACE_COUNT]; k++) {
        list[count++] = now->spaces[k];
        list[count++] = now->pages[k];
    }
    for (k = 0; k < orders->varying_count; k++)
        list[count++] = now->frames[orders->varying[k]];
    for (; k > 0 && list[count - 1] == orders->first_frames[orders->varying[k - 1]]; k--)
        count--;
    return count;
}

uint32_t keep_state(struct orders *orders) {
    static uint32_t list[HEADING + 3 * L4_MAX_THREADS + MAX_BED_FRAMES];
    keep_frames(orders);
    keep_kernel(orders);
    keep_threads(orders);
    keep_spaces(orders);
    keep_rest(orders);
    return parts_number(&orders->parts, list, list_of(orders, list) * sizeof *list);
}

/* The kernel interface page has the address of the running thread's UTCB, and so differs all the time. */
void keep_forget(struct orders *orders) {
    struct bed *bed = orders->bed;
    uint32_t k;
    orders->kernels.key_count = 0;
    memset(&orders->now.heading, 0xff, sizeof orders->now.heading);
    memset(&orders->now.threads, 0xff, sizeof orders->now.threads);
    memset(&orders->now.spaces, 0xff, sizeof orders->now.spaces);
    memset(&orders->now.pages, 0xff, sizeof orders->now.pages);
    orders->now.heading[THREAD_COUNT] = orders->now.heading[SPACE_COUNT] = 0;
    for (k = 0; k < bed->memory.frames; k++) {
        if (k != bed->frames)
            keep_frame(orders, k);
    }
    for (k = 0; k < L4_MAX_THREADS; k++)
        bed->spaces[k].has_changed = 1;
}

void keep_first_state(struct orders *orders) {
    memset(orders->now.frames, 0xff, sizeof orders->now.frames);
    keep_forget(orders);
    memcpy(orders->first_frames, orders->now.frames, sizeof orders->first_frames);
    memset(orders->varies, 0, sizeof orders->varies);
    orders->varying_count = 0;
    orders->first_state = keep_state(orders);
}
