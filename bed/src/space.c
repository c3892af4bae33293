#include "bed.h"
#include "check.h"
#include "gdb.h"
#include <stdlib.h>
#include <string.h>

struct space *space_new(struct bed *bed, uint64_t number) {
    size_t k = 0;
    while (k < L4_MAX_THREADS && bed->spaces[k].exists)
        k++;
    check_holds(k < L4_MAX_THREADS, "there are more spaces than threads");
    memset(&bed->spaces[k], 0, sizeof bed->spaces[k]);
    bed->spaces[k].exists = 1;
    bed->spaces[k].number = number;
    return &bed->spaces[k];
}

void space_free(struct bed *bed, struct space *space) {
    size_t k;
    for (k = 0; k < MAX_UTCB_PAGES; k++) {
        if (space->utcb_frames[k] != 0)
            bed_free_frame(bed, space->utcb_frames[k]);
    }
    if (space->engine_space != NULL)
        bed->kind->free_space(bed->engine, space->engine_space);
    for (k = 0; k < sizeof space->leaves / sizeof *space->leaves; k++)
        free(space->leaves[k]);
    memset(space, 0, sizeof *space);
}

void space_set_areas(struct bed *bed, struct space *space, uint32_t kip, uint32_t utcbs, uint32_t utcbs_log) {
    space->kip_page = kip / PAGE_BYTES;
    space->utcb_page = utcbs / PAGE_BYTES;
    space->utcb_pages = 1u << (utcbs_log - L4_PAGE_LOG);
    space->engine_space = bed->kind->new_space(bed->engine, kip + KIP_CURRENT_UTCB);
    bed->kind->map(bed->engine, space->engine_space, space->kip_page, bed->frames, L4_READ | L4_EXECUTE);
    if (bed->has_gdb)
        gdb_add_space(bed, space);
}

int space_has_utcb(const struct space *space, uint32_t address) {
    uint32_t place = address - UTCB_MIDDLE - space->utcb_page * PAGE_BYTES;
    return space->engine_space != NULL && place < space->utcb_pages * PAGE_BYTES && place % UTCB_BYTES == 0;
}

uint32_t *space_utcb(struct bed *bed, struct space *space, uint32_t address) {
    uint32_t place = address / PAGE_BYTES - space->utcb_page;
    if (space->utcb_frames[place] == 0) {
        space->utcb_frames[place] = bed_new_frame(bed);
        bed->kind->map(bed->engine, space->engine_space, address / PAGE_BYTES, space->utcb_frames[place], L4_READ | L4_WRITE);
    }
    return (uint32_t *)(void *)(bed_frame(bed, space->utcb_frames[place]) + address % PAGE_BYTES);
}

const unsigned char *space_byte(struct bed *bed, struct space *space, uint32_t address) {
    uint32_t page = address / PAGE_BYTES, frame;
    if (page == space->kip_page) {
        frame = bed->frames;
    } else if (page - space->utcb_page < space->utcb_pages) {
        frame = space->utcb_frames[page - space->utcb_page];
        if (frame == 0)
            return NULL;
    } else {
        l4_mapping mapping = kernel_mapping(bed, space->number, page);
        if (!mapping.there || mapping.rights == 0)
            return NULL;
        frame = mapping.frame;
    }
    return bed_frame(bed, frame) + address % PAGE_BYTES;
}
