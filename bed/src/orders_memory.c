/* The accesses of threads to memory: which frames a turn writes, and which words threads share. */
#include "check.h"
#include "states.h"
#include <stdlib.h>

#define WORD_LOG 2

static void note_written(struct orders *orders, uint32_t frame) {
    if (orders->is_written[frame])
        return;
    orders->is_written[frame] = 1;
    orders->written[orders->written_count++] = frame;
}

void memory_set_switch(struct orders *orders, uint32_t frame, uint32_t word) {
    if (orders->switches[frame] == NULL)
        orders->switches[frame] = parts_need(calloc(FRAME_WORDS, 1));
    orders->shared_words += !orders->switches[frame][word];
    orders->switches[frame][word] = 1;
}

/* Notes the access. Returns whether threads share the word: two of them access it, and one of them writes it. */
static int take_word(struct orders *orders, uint32_t frame, uint32_t word, uint64_t places, int writes) {
    struct words *words = orders->words[frame];
    words->accessed[word] |= places;
    if (writes)
        words->written[word] |= places;
    if (orders->switches[frame] != NULL && orders->switches[frame][word])
        return 1;
    if (orders->is_replay)
        return 0;
    if (words->written[word] == 0 || (words->accessed[word] & (words->accessed[word] - 1)) == 0)
        return 0;
    memory_set_switch(orders, frame, word);
    orders->has_new_shared = 1;
    return 1;
}

/* Returns the place of the thread whose UTCB has this address, as a bit; or 0. The kernel reads and writes this memory for the thread. */
static uint64_t owner_of(const struct bed *bed, const struct space *space, uint32_t address) {
    uint32_t k;
    for (k = 0; k < L4_MAX_THREADS; k++) {
        const struct thread *thread = &bed->threads[k];
        if (thread->state != ABSENT && thread->space == space && address - (thread->utcb - UTCB_MIDDLE) < UTCB_BYTES)
            return UINT64_C(1) << k;
    }
    return 0;
}

static int take_access(struct orders *orders, uint32_t address, int writes) {
    const struct bed *bed = orders->bed;
    const struct thread *running = orders->turn.running;
    const struct space *space = running->space;
    uint32_t page = address / PAGE_BYTES, utcb_page = page - space->utcb_page, entry = 0, frame;
    uint64_t places = UINT64_C(1) << slot_of(bed, running);
    if (page == space->kip_page)
        return 0;
    if (utcb_page < space->utcb_pages) {
        frame = space->utcb_frames[utcb_page];
        places |= owner_of(bed, space, address);
    } else {
        entry = change_entry(space, page);
        frame = (entry & ~MAPPED) >> 3;
    }
    if (utcb_page < space->utcb_pages ? frame == 0 : entry == 0)
        return 0;
    if (writes)
        note_written(orders, frame);
    if (orders->words[frame] == NULL)
        orders->words[frame] = parts_need(calloc(1, sizeof(struct words)));
    return take_word(orders, frame, address % PAGE_BYTES >> WORD_LOG, places, writes);
}

/* An access may end in another word than the one in which it begins, or in another page. */
static int on_access(void *user, uint32_t address, uint32_t bytes, int writes) {
    struct orders *orders = user;
    uint32_t first = address >> WORD_LOG, count = ((address + bytes - 1) >> WORD_LOG) - first + 1, k;
    int stops = 0;
    for (k = 0; orders->turn.running != NULL && k < count; k++)
        stops |= take_access(orders, (first + k) << WORD_LOG, writes);
    orders->turn.has_shared |= stops;
    return stops && orders->is_switching;
}

void memory_watch(struct orders *orders) {
    struct bed *bed = orders->bed;
    struct watcher watcher = {on_access, orders, orders->is_replay || orders->options->switches_at_memory};
    if (bed->kind->watch == NULL)
        fail(STATUS_INPUT, "--orders and --schedule need the engine unicorn");
    bed->kind->watch(bed->engine, &watcher);
}

void memory_forget(struct orders *orders) {
    uint32_t k;
    for (k = 0; k < MAX_BED_FRAMES; k++) {
        free(orders->words[k]);
        free(orders->switches[k]);
        orders->words[k] = NULL;
        orders->switches[k] = NULL;
    }
    orders->shared_words = 0;
}
