/* Makes the state of a list the present one. Only parts that differ from those of the present state are restored. */
#include "check.h"
#include "states.h"
#include <stdlib.h>
#include <string.h>

#define BLOCK_BYTES 256u
#define BLOCKS (PAGE_BYTES / BLOCK_BYTES)

/* A request for a page, to which sigma0 answers. */
#define SIGMA0_LABEL 0xffa0u

static const struct part *part_of(const struct orders *orders, uint32_t number) {
    return orders->parts.list[number];
}

static uint32_t page_count(const struct part *part) {
    return part->length / (uint32_t)sizeof(struct page_part);
}

static struct page_part page_in(const struct part *part, uint32_t k) {
    struct page_part page = {NONE, 0};
    if (k < page_count(part))
        memcpy(&page, part->bytes + k * sizeof page, sizeof page);
    return page;
}

static void clear_pages(struct orders *orders, uint32_t slot) {
    struct bed *bed = orders->bed;
    struct space *space = &bed->spaces[slot];
    const struct part *part = part_of(orders, orders->now.pages[slot]);
    uint32_t k;
    for (k = 0; k < page_count(part); k++)
        change_set(bed, space, page_in(part, k).page, 0);
    for (k = 0; k < MAX_UTCB_PAGES; k++) {
        if (space->utcb_frames[k] != 0)
            bed->kind->unmap(bed->engine, space->engine_space, space->utcb_page + k);
    }
}

/* An engine's space costs much, so those of spaces that do not exist in this state are kept. They have their kernel interface page. */
static void put_away(struct orders *orders, uint32_t slot) {
    struct space *space = &orders->bed->spaces[slot];
    uint32_t k;
    if (!space->exists)
        return;
    clear_pages(orders, slot);
    if (space->engine_space != NULL) {
        if (orders->spare_count == MAX_SPARES)
            orders->bed->kind->free_space(orders->bed->engine, orders->spares[--orders->spare_count].space);
        orders->spares[orders->spare_count].space = space->engine_space;
        orders->spares[orders->spare_count++].kip_page = space->kip_page;
    }
    for (k = 0; k < L4_SPACE_PAGES / LEAF_PAGES; k++)
        free(space->leaves[k]);
    memset(space, 0, sizeof *space);
}

static struct engine_space *take_spare(struct orders *orders, uint32_t kip_page) {
    struct bed *bed = orders->bed;
    struct engine_space *space;
    uint32_t k = 0;
    while (k < orders->spare_count && orders->spares[k].kip_page != kip_page)
        k++;
    if (k < orders->spare_count) {
        space = orders->spares[k].space;
        orders->spares[k] = orders->spares[--orders->spare_count];
        return space;
    }
    space = bed->kind->new_space(bed->engine, kip_page * PAGE_BYTES + KIP_CURRENT_UTCB);
    bed->kind->map(bed->engine, space, kip_page, bed->frames, L4_READ | L4_EXECUTE);
    return space;
}

static void restore_space(struct orders *orders, uint32_t slot, uint32_t number) {
    struct bed *bed = orders->bed;
    struct space *space = &bed->spaces[slot];
    struct space_part part;
    uint32_t k;
    put_away(orders, slot);
    orders->now.spaces[slot] = number;
    orders->now.pages[slot] = parts_number(&orders->parts, "", 0);
    memcpy(&part, part_of(orders, number)->bytes, sizeof part);
    space->exists = (int)part.exists;
    space->number = part.number;
    space->kip_page = part.kip_page;
    space->utcb_page = part.utcb_page;
    space->utcb_pages = part.utcb_pages;
    memcpy(space->utcb_frames, part.utcb_frames, sizeof part.utcb_frames);
    if (part.has_engine)
        space->engine_space = take_spare(orders, part.kip_page);
    for (k = 0; k < MAX_UTCB_PAGES; k++) {
        if (space->utcb_frames[k] != 0)
            bed->kind->map(bed->engine, space->engine_space, space->utcb_page + k, space->utcb_frames[k], L4_READ | L4_WRITE);
    }
}

/* Both lists are in the order of the pages. */
static void restore_pages(struct orders *orders, uint32_t slot, uint32_t number) {
    const struct part *before = part_of(orders, orders->now.pages[slot]), *part = part_of(orders, number);
    struct space *space = &orders->bed->spaces[slot];
    uint32_t k = 0, m = 0;
    while (k < page_count(before) || m < page_count(part)) {
        struct page_part old = page_in(before, k), page = page_in(part, m);
        if (old.page < page.page)
            change_set(orders->bed, space, old.page, 0);
        else
            change_set(orders->bed, space, page.page, page.entry);
        k += old.page <= page.page;
        m += page.page <= old.page;
    }
    space->has_changed = 0;
    orders->now.pages[slot] = number;
}

static void restore_spaces(struct orders *orders, const uint32_t *list, uint32_t count) {
    struct current *now = &orders->now;
    uint32_t k;
    for (k = count; k < now->heading[SPACE_COUNT]; k++) {
        put_away(orders, k);
        now->spaces[k] = now->pages[k] = NONE;
    }
    for (k = 0; k < count; k++) {
        if (now->spaces[k] != list[2 * k])
            restore_space(orders, k, list[2 * k]);
        if (now->pages[k] != list[2 * k + 1])
            restore_pages(orders, k, list[2 * k + 1]);
    }
    now->heading[SPACE_COUNT] = count;
}

static void set_registers(struct registers *registers, const uint32_t *general) {
    registers->eax = general[0];
    registers->ebx = general[1];
    registers->ecx = general[2];
    registers->edx = general[3];
    registers->esi = general[4];
    registers->edi = general[5];
    registers->ebp = general[6];
    registers->esp = general[7];
    registers->eip = general[8];
    registers->eflags = general[9];
}

static void set_thread(struct bed *bed, struct thread *thread, const struct thread_part *part) {
    memset(thread, 0, sizeof *thread);
    thread->state = (enum state)part->state;
    thread->calling = (enum call_kind)part->calling;
    thread->number = part->number;
    thread->id = part->id;
    thread->pager = part->pager;
    thread->priority = part->priority;
    thread->space = &bed->spaces[part->space];
    thread->utcb = part->utcb;
    if (part->utcb != 0)
        thread->utcb_words = space_utcb(bed, thread->space, part->utcb);
    thread->fault_address = part->fault_address;
    thread->fault_access = part->fault_access;
    thread->vain_answers = part->vain_answers;
    thread->is_halted = (int)part->is_halted;
    thread->text_length = part->text_length;
    thread->entered.acceptor = part->acceptor;
    thread->send_timeout = part->send_timeout;
    thread->receive_timeout = part->receive_timeout;
    thread->call_time = part->call_time;
    thread->deadline = part->deadline;
    thread->more_turns = part->more_turns;
    thread->turns_left = part->turns_left;
    set_registers(&thread->registers, part->general);
}

static void restore_thread(struct orders *orders, uint32_t slot, uint32_t number) {
    const struct part *bytes;
    struct thread *thread = &orders->bed->threads[slot];
    struct thread_part part;
    size_t words;
    orders->now.threads[slot] = number;
    memset(&orders->extras[slot], 0, sizeof orders->extras[slot]);
    if (number == NONE) {
        memset(thread, 0, sizeof *thread);
        return;
    }
    bytes = part_of(orders, number);
    memcpy(&part, bytes->bytes, sizeof part);
    words = part.word_count * sizeof *thread->entered.words;
    set_thread(orders->bed, thread, &part);
    memcpy(thread->registers.floats, part_of(orders, part.floats)->bytes, FLOAT_BYTES);
    memcpy(thread->entered.words, bytes->bytes + sizeof part, words);
    memcpy(thread->text, bytes->bytes + sizeof part + words, part.text_length);
    orders->extras[slot].to = part.to;
    orders->extras[slot].time = part.time;
}

static void restore_threads(struct orders *orders, const uint32_t *list, uint32_t count) {
    struct bed *bed = orders->bed;
    uint32_t k;
    for (k = 0; k < count || k < orders->now.heading[THREAD_COUNT]; k++) {
        uint32_t number = k < count ? list[k] : NONE;
        if (orders->now.threads[k] != number)
            restore_thread(orders, k, number);
    }
    memset(bed->threads_of, 0, sizeof bed->threads_of);
    for (k = 0; k < count; k++)
        bed->threads_of[bed->threads[k].priority] += bed->threads[k].state != ABSENT;
    bed->slots = count > bed->slots ? count : bed->slots;
}

/* Code that was translated from the frame must not run again. */
static void forget_code(struct orders *orders, uint32_t frame) {
    struct bed *bed = orders->bed;
    uint32_t slot, k;
    for (slot = 0; slot < orders->now.heading[SPACE_COUNT]; slot++) {
        const struct part *part = part_of(orders, orders->now.pages[slot]);
        for (k = 0; k < page_count(part); k++) {
            struct page_part page = page_in(part, k);
            if (!(page.entry & L4_EXECUTE) || (page.entry & ~MAPPED) >> 3 != frame)
                continue;
            change_set(bed, &bed->spaces[slot], page.page, 0);
            change_set(bed, &bed->spaces[slot], page.page, page.entry);
            bed->spaces[slot].has_changed = 0;
        }
    }
}

static void restore_frame(struct orders *orders, uint32_t frame, uint32_t number) {
    unsigned char *bytes = bed_frame(orders->bed, frame);
    uint32_t blocks[BLOCKS], before[BLOCKS], k;
    if (orders->now.frames[frame] == number)
        return;
    memcpy(blocks, part_of(orders, number)->bytes, sizeof blocks);
    memcpy(before, part_of(orders, orders->now.frames[frame])->bytes, sizeof before);
    for (k = 0; k < BLOCKS; k++) {
        if (blocks[k] != before[k])
            memcpy(bytes + k * BLOCK_BYTES, part_of(orders, blocks[k])->bytes, BLOCK_BYTES);
    }
    orders->now.frames[frame] = number;
    forget_code(orders, frame);
}

static void restore_rest(struct orders *orders, uint32_t number) {
    struct bed *bed = orders->bed;
    struct rest rest;
    if (orders->now.heading[OF_REST] == number)
        return;
    memcpy(&rest, part_of(orders, number)->bytes, sizeof rest);
    bed->end = (enum end)rest.end;
    bed->has_stopped = (int)rest.has_stopped;
    bed->named_next = rest.named_next == NONE ? NULL : &bed->threads[rest.named_next];
    orders->said_count = rest.said_count;
    memcpy(orders->said, rest.said, sizeof rest.said);
    memcpy(bed->is_own_frame_used, rest.is_own_frame_used, sizeof rest.is_own_frame_used);
}

/* sigma0's table is built anew by the requests that lead to it. */
static void restore_owners(struct orders *orders, uint32_t number) {
    struct bed *bed = orders->bed;
    uint32_t k;
    if (orders->now.heading[OF_OWNERS] == number)
        return;
    memcpy(orders->owners, part_of(orders, number)->bytes, bed->frames * sizeof *orders->owners);
    l4_sigma0_free(&bed->sigma0);
    check_library(l4_sigma0_new(&bed->sigma0, bed->frames), "l4_sigma0_new");
    for (k = 0; k < bed->frames; k++) {
        uint32_t words[3] = {l4_tag(SIGMA0_LABEL, 2, 0), l4_fpage_of_page(k, 0), 0};
        if (orders->owners[k] != 0)
            check_library(l4_sigma0_answer(&bed->sigma0, orders->owners[k] - 1, words, 3).refusal, "l4_sigma0_answer");
    }
}

void restore_state(struct orders *orders, uint32_t state) {
    const struct part *part = part_of(orders, state);
    const uint32_t *list = (const uint32_t *)(const void *)part->bytes, *frames;
    uint32_t k, threads = list[THREAD_COUNT], spaces = list[SPACE_COUNT], count = part->length / 4 - HEADING - threads - 2 * spaces;
    orders->kernels.key_count = 0; /* no turn has led here */
    restore_rest(orders, list[OF_REST]);
    restore_spaces(orders, list + HEADING + threads, spaces);
    restore_threads(orders, list + HEADING, threads);
    frames = list + HEADING + threads + 2 * spaces;
    for (k = 0; k < orders->varying_count; k++)
        restore_frame(orders, orders->varying[k], k < count ? frames[k] : orders->first_frames[orders->varying[k]]);
    restore_owners(orders, list[OF_OWNERS]);
    memcpy(orders->now.heading, list, sizeof orders->now.heading);
}
