/* Which pages a step can have changed. A message changes only the pages that its items fill, the source pages of its grants, and what
 * descends from these before it. An Unmap changes only the pages that it names and what descends from them, and the end of a space only its
 * own pages and what descends from them. The library lists what descends from a page. So before each step these pages are collected, and
 * after it they are compared with the kernel's. */
#include "bed.h"
#include "check.h"
#include <stdlib.h>

#define ITEM_WORDS 2
#define COMPLETE_LOG 32u

/* The pages from `first` on. */
struct range {
    uint32_t first, count;
};

static uint32_t low_bits(uint32_t log) {
    return log >= COMPLETE_LOG ? ~UINT32_C(0) : (UINT32_C(1) << log) - 1;
}

/* The block of 2^log bytes that has this address. A block that is smaller than a page has no page. */
static struct range pages_at(uint32_t address, uint32_t log) {
    struct range range = {(address & ~low_bits(log)) / PAGE_BYTES, 0};
    if (log >= L4_PAGE_LOG && log <= COMPLETE_LOG)
        range.count = UINT32_C(1) << (log - L4_PAGE_LOG);
    return range;
}

static uint32_t frame_of(uint32_t entry) {
    return (entry & ~MAPPED) >> 3;
}

uint32_t change_entry(const struct space *space, uint32_t page) {
    const uint32_t *leaf = space->leaves[page / LEAF_PAGES];
    return leaf == NULL ? 0 : leaf[page % LEAF_PAGES];
}

static void make_room(struct changes *changes, uint64_t more) {
    if (changes->room - changes->count >= more)
        return;
    changes->room = 2 * changes->room + more;
    changes->list = realloc(changes->list, changes->room * sizeof *changes->list);
    check_holds(changes->list != NULL, "there is not enough memory for the pages that a step changes");
}

/* Writes what descends from a page behind the list, as far as there is room. Returns how many pages these are. */
static uint64_t list_below(struct bed *bed, uint64_t space, uint32_t page) {
    struct changes *changes = &bed->changes;
    l4_count below = l4_descendants(&bed->kernel, space, page, changes->list + changes->count, changes->room - changes->count);
    check_library(below.refusal, "l4_descendants");
    return below.count;
}

/* Collects what descends from a page. */
static void collect_below(struct bed *bed, uint64_t space, uint32_t page) {
    struct changes *changes = &bed->changes;
    uint64_t count;
    make_room(changes, 1);
    count = list_below(bed, space, page);
    if (count > changes->room - changes->count) {
        make_room(changes, count);
        count = list_below(bed, space, page);
    }
    changes->count += count;
}

/* Collects a page and what descends from it. */
static void collect(struct bed *bed, uint64_t space, uint32_t page) {
    l4_place place = {space, page, 0};
    make_room(&bed->changes, 1);
    bed->changes.list[bed->changes.count++] = place;
    collect_below(bed, space, page);
}

/* Calls a function with each page of the kernel in a range. */
static void each_page(struct bed *bed, uint64_t space, struct range range, void (*take)(struct bed *, uint64_t, uint32_t)) {
    uint64_t end = (uint64_t)range.first + range.count;
    l4_page next = l4_next_page(&bed->kernel, space, range.first);
    while (next.there && next.page < end) {
        take(bed, space, next.page);
        next = l4_next_page(&bed->kernel, space, next.page + 1);
    }
    check_library(next.refusal, "l4_next_page");
}

static int is_own(const struct space *space, uint32_t page) {
    return page == space->kip_page || page - space->utcb_page < space->utcb_pages;
}

/* Processors can read wherever they can write or execute. */
static uint32_t rounded(struct bed *bed, uint32_t rights) {
    if (!(rights & (L4_WRITE | L4_EXECUTE)) || rights & L4_READ)
        return rights;
    if (!bed->rounded_rights)
        note("a page with w or x and without r can be read all the same, because the processor has no such rights");
    bed->rounded_rights = 1;
    return rights | L4_READ;
}

static void put(struct bed *bed, struct space *space, uint32_t page, uint32_t entry) {
    uint32_t **leaf = &space->leaves[page / LEAF_PAGES];
    if (*leaf == NULL) {
        *leaf = calloc(LEAF_PAGES, sizeof **leaf);
        check_holds(*leaf != NULL, "there is not enough memory for the pages of a space");
    }
    (*leaf)[page % LEAF_PAGES] = entry;
    space->has_changed = 1;
    if (entry == 0)
        return;
    if (!is_own(space, page))
        bed->kind->map(bed->engine, space->engine_space, page, frame_of(entry), rounded(bed, entry & 7));
    bed->costs.mapped++;
    print_line(bed, "space %u page %u frame %u %s", (unsigned)space->number, page, frame_of(entry), rights_text(entry));
}

static void take_out(struct bed *bed, struct space *space, uint32_t page) {
    if (!is_own(space, page))
        bed->kind->unmap(bed->engine, space->engine_space, page);
    bed->costs.unmapped++;
}

void change_set(struct bed *bed, struct space *space, uint32_t page, uint32_t entry) {
    uint32_t before = change_entry(space, page);
    if (entry == before)
        return;
    if (before != 0)
        take_out(bed, space, page);
    put(bed, space, page, entry);
    if (entry == 0)
        print_line(bed, "space %u page %u gone", (unsigned)space->number, page);
}

/* Makes a page of the engine that of the kernel. */
static void update(struct bed *bed, struct space *space, uint32_t page) {
    l4_mapping mapping = kernel_mapping(bed, space->number, page);
    change_set(bed, space, page, mapping.there ? MAPPED | mapping.frame << 3 | mapping.rights : 0);
}

/* sigma0's space is none of the bed's. */
static struct space *space_numbered(struct bed *bed, uint64_t number) {
    size_t k;
    for (k = 0; k < L4_MAX_THREADS; k++) {
        if (bed->spaces[k].exists && bed->spaces[k].number == number)
            return &bed->spaces[k];
    }
    return NULL;
}

static void update_place(struct bed *bed, uint64_t number, uint32_t page) {
    struct space *space = space_numbered(bed, number);
    if (space != NULL)
        update(bed, space, page);
}

/* The pages that an item moves, and those that it fills. The larger of fpage and window is cut to the size of the other, at the place of the
 * send base. */
static void item_ranges(const uint32_t *item, uint32_t window, struct range *moved, struct range *filled) {
    uint32_t log = l4_fpage_log(item[1]), window_log = l4_fpage_log(window), base = l4_item_base(item[0]);
    if (log <= window_log) {
        *moved = pages_at(l4_fpage_base(item[1]), log);
        *filled = pages_at(l4_fpage_base(window) | (base & low_bits(window_log)), log);
    } else {
        *moved = pages_at(l4_fpage_base(item[1]) | (base & low_bits(log)), window_log);
        *filled = pages_at(l4_fpage_base(window), window_log);
    }
}

/* Calls a function for each item of the message that a sender has entered. */
static void each_item(struct bed *bed, uint32_t sender, uint32_t receiver, void (*take)(struct bed *, const uint32_t *, uint32_t, const struct thread *)) {
    const struct thread *to = thread_numbered(bed, receiver);
    const uint32_t *words = kernel_entered(bed, sender)->words;
    uint32_t untyped = l4_tag_untyped(words[0]), typed = l4_tag_typed(words[0]), k;
    /* sigma0 is not a thread of the bed. Its window is nil, so no message with items is delivered to it. */
    for (k = 0; to != NULL && k + 1 < typed; k += ITEM_WORDS)
        take(bed, words + 1 + untyped + k, sender, to);
}

static void collect_item(struct bed *bed, const uint32_t *item, uint32_t sender, const struct thread *to) {
    struct range moved, filled;
    item_ranges(item, to->entered.acceptor, &moved, &filled);
    each_page(bed, to->space->number, filled, collect);
    if (l4_item_is_grant(item[0]))
        each_page(bed, kernel_space(bed, sender), moved, collect);
}

static void update_item(struct bed *bed, const uint32_t *item, uint32_t sender, const struct thread *to) {
    struct range moved, filled;
    (void)sender;
    item_ranges(item, to->entered.acceptor, &moved, &filled);
    each_page(bed, to->space->number, filled, update_place);
}

void change_before_transfer(struct bed *bed, uint32_t sender, uint32_t receiver) {
    each_item(bed, sender, receiver, collect_item);
}

void change_after_transfer(struct bed *bed, uint32_t sender, uint32_t receiver) {
    each_item(bed, sender, receiver, update_item);
}

void change_before_unmap(struct bed *bed, uint32_t thread, uint32_t control, const uint32_t *words, size_t count) {
    const struct thread *caller = thread_numbered(bed, thread);
    uint32_t k;
    for (k = 0; caller != NULL && k <= (control & 0x3f) && k < count; k++)
        each_page(bed, caller->space->number, pages_at(l4_fpage_base(words[k]), l4_fpage_log(words[k])), collect);
}

void change_before_delete(struct bed *bed, uint32_t id) {
    static const struct range whole = {0, L4_SPACE_PAGES};
    const struct thread *gone = thread_find(bed, id);
    struct changes *changes = &bed->changes;
    uint64_t from = changes->count, to = from;
    if (gone == NULL || !thread_is_alone(bed, gone))
        return;
    each_page(bed, gone->space->number, whole, collect_below);
    for (; from < changes->count; from++) { /* the bed frees the pages of the space itself */
        if (changes->list[from].space != gone->space->number)
            changes->list[to++] = changes->list[from];
    }
    changes->count = to;
}

void change_apply(struct bed *bed) {
    uint64_t k;
    for (k = 0; k < bed->changes.count; k++)
        update_place(bed, bed->changes.list[k].space, bed->changes.list[k].page);
    bed->changes.count = 0;
}

/* Ends the bed unless each page of a space is as the kernel has it. */
static void verify_space(struct bed *bed, const struct space *space) {
    uint32_t page, present = 0;
    l4_page next = l4_next_page(&bed->kernel, space->number, 0);
    while (next.there) {
        l4_mapping mapping = kernel_mapping(bed, space->number, next.page);
        check_holds(change_entry(space, next.page) == (MAPPED | mapping.frame << 3 | mapping.rights), "verify: a page is not as the kernel has it");
        present++;
        next = l4_next_page(&bed->kernel, space->number, next.page + 1);
    }
    check_library(next.refusal, "l4_next_page");
    for (page = 0; page < L4_SPACE_PAGES; page += space->leaves[page / LEAF_PAGES] == NULL ? LEAF_PAGES : 1)
        present -= change_entry(space, page) != 0;
    check_holds(present == 0, "verify: a page is mapped that the kernel does not have");
}

void change_verify(struct bed *bed) {
    uint32_t k;
    for (k = 0; k < L4_MAX_THREADS; k++) {
        if (bed->spaces[k].exists)
            verify_space(bed, &bed->spaces[k]);
    }
}
