/* Whether the parts of a certificate are those of a state, so that the state can be restored. */
#include "states.h"
#include <string.h>

#define BLOCK_BYTES 256u
#define BLOCKS (PAGE_BYTES / BLOCK_BYTES)

/* Returns the part with this number if it has this length, or NULL. */
static const struct part *part_with(const struct orders *orders, uint32_t number, size_t length) {
    return number < orders->parts.count && orders->parts.list[number]->length == length ? orders->parts.list[number] : NULL;
}

/* A line comes after those before it, so there is no circle of them. */
static int are_lines(const struct orders *orders, uint32_t line) {
    while (line != NONE) {
        const struct part *part = line < orders->parts.count ? orders->parts.list[line] : NULL;
        uint32_t before;
        if (part == NULL || part->length <= sizeof before || part->bytes[part->length - 1] != 0)
            return 0;
        memcpy(&before, part->bytes, sizeof before);
        if (before != NONE && before >= line)
            return 0;
        line = before;
    }
    return 1;
}

static int is_rest(const struct orders *orders, uint32_t number) {
    const struct part *part = part_with(orders, number, sizeof(struct rest));
    struct rest rest;
    uint32_t k;
    if (part == NULL)
        return 0;
    memcpy(&rest, part->bytes, sizeof rest);
    if (rest.said_count > MAX_SPEAKERS || (rest.named_next != NONE && rest.named_next >= L4_MAX_THREADS))
        return 0;
    for (k = 0; k < rest.said_count; k++) {
        if (!are_lines(orders, rest.said[k].line))
            return 0;
    }
    return 1;
}

/* The places of spaces begin behind those of the threads in the list. */
static int is_thread(const struct orders *orders, uint32_t number, uint32_t spaces) {
    struct thread_part thread;
    const struct part *part;
    if (number == NONE)
        return 1;
    part = number < orders->parts.count && orders->parts.list[number]->length >= sizeof thread ? orders->parts.list[number] : NULL;
    if (part == NULL)
        return 0;
    memcpy(&thread, part->bytes, sizeof thread);
    if ((thread.word_count != 0 && thread.word_count != L4_MAX_WORDS) || thread.text_length > sizeof ((struct thread *)NULL)->text)
        return 0;
    return part->length == sizeof thread + thread.word_count * sizeof(uint32_t) + thread.text_length && thread.space < spaces && thread.state <= STOPPED
        && thread.priority < PRIORITIES && part_with(orders, thread.floats, FLOAT_BYTES) != NULL;
}

static int is_space(const struct orders *orders, uint32_t number) {
    const struct part *part = part_with(orders, number, sizeof(struct space_part));
    struct space_part space;
    uint32_t k;
    if (part == NULL)
        return 0;
    memcpy(&space, part->bytes, sizeof space);
    if (space.kip_page >= L4_SPACE_PAGES || space.utcb_page >= L4_SPACE_PAGES - MAX_UTCB_PAGES || space.utcb_pages > MAX_UTCB_PAGES)
        return 0;
    for (k = 0; k < MAX_UTCB_PAGES; k++) {
        if (space.utcb_frames[k] != 0 && (!space.has_engine || k >= space.utcb_pages || space.utcb_frames[k] >= orders->bed->memory.frames))
            return 0;
    }
    return 1;
}

static int are_pages(const struct orders *orders, uint32_t number) {
    const struct part *part = number < orders->parts.count ? orders->parts.list[number] : NULL;
    struct page_part page;
    uint32_t k, after = 0;
    if (part == NULL || part->length % sizeof page != 0)
        return 0;
    for (k = 0; k < part->length / sizeof page; k++) {
        memcpy(&page, part->bytes + k * sizeof page, sizeof page);
        if (page.page < after || page.page >= L4_SPACE_PAGES || (page.entry & ~MAPPED) >> 3 >= orders->bed->memory.frames)
            return 0;
        after = page.page + 1;
    }
    return 1;
}

static int is_frame(const struct orders *orders, uint32_t number) {
    uint32_t blocks[BLOCKS], k;
    const struct part *part = part_with(orders, number, sizeof blocks);
    if (part == NULL)
        return 0;
    memcpy(blocks, part->bytes, sizeof blocks);
    for (k = 0; k < BLOCKS; k++) {
        if (part_with(orders, blocks[k], BLOCK_BYTES) == NULL)
            return 0;
    }
    return 1;
}

static int has_parts(const struct orders *orders, const uint32_t *list, uint32_t threads, uint32_t spaces, uint32_t frames) {
    uint32_t k;
    for (k = 0; k < threads; k++) {
        if (!is_thread(orders, *list++, spaces))
            return 0;
    }
    for (k = 0; k < spaces; k++, list += 2) {
        if (!is_space(orders, list[0]) || !are_pages(orders, list[1]))
            return 0;
    }
    for (k = 0; k < frames; k++) {
        if (!is_frame(orders, *list++))
            return 0;
    }
    return is_rest(orders, list[0]);
}

int valid_is_state(const struct orders *orders, uint32_t number) {
    const struct part *part = number < orders->parts.count ? orders->parts.list[number] : NULL;
    uint32_t list[HEADING + 3 * L4_MAX_THREADS + MAX_BED_FRAMES + 1], count, threads, spaces;
    if (part == NULL || part->length < HEADING * sizeof *list || part->length >= sizeof list || part->length % sizeof *list != 0)
        return 0;
    memcpy(list, part->bytes, part->length);
    count = part->length / sizeof *list;
    threads = list[THREAD_COUNT];
    spaces = list[SPACE_COUNT];
    if (threads > L4_MAX_THREADS || spaces > L4_MAX_THREADS || count < HEADING + threads + 2 * spaces
        || count - HEADING - threads - 2 * spaces > orders->varying_count)
        return 0;
    list[count] = list[OF_REST];
    return part_with(orders, list[OF_OWNERS], orders->bed->frames * sizeof *orders->owners) != NULL
        && has_parts(orders, list + HEADING, threads, spaces, count - HEADING - threads - 2 * spaces);
}
