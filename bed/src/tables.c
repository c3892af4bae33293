#define _GNU_SOURCE
#include "tables.h"
#include "check.h"
#include <l4.h>
#include <string.h>
#include <sys/mman.h>

#define LARGE_BYTES (UINT32_C(2) << 20)
#define TABLE_ENTRIES 512u
#define ADDRESS_BITS UINT64_C(0x000ffffffffff000)
#define LEVELS 4u

uint64_t *tables_words(const struct tables *tables, uint32_t place) {
    return (uint64_t *)(void *)(tables->system + place);
}

static void write_segments(struct tables *tables) {
    uint64_t *gdt = tables_words(tables, GDT), task = SHIM + TSS;
    gdt[SYSTEM_CODE >> 3] = UINT64_C(0x00af9b000000ffff);
    gdt[SYSTEM_DATA >> 3] = UINT64_C(0x00cf93000000ffff);
    gdt[USER_CODE >> 3] = UINT64_C(0x00cffb000000ffff);
    gdt[USER_DATA >> 3] = UINT64_C(0x00cff3000000ffff);
    gdt[TASK >> 3] = TSS_LIMIT | (task & 0xffffff) << 16 | UINT64_C(0x8b) << 40 | (task >> 24 & 0xff) << 56;
    gdt[(TASK >> 3) + 1] = task >> 32;
    gdt[USER_GS >> 3] = gdt[USER_DATA >> 3];
}

void tables_open(struct tables *tables, uint64_t base) {
    uint64_t *directory;
    uint32_t k;
    memset(tables, 0, sizeof *tables);
    tables->base = base;
    tables->system = mmap(NULL, SYSTEM_BYTES, PROT_READ | PROT_WRITE, MAP_SHARED | MAP_ANONYMOUS | MAP_NORESERVE, -1, 0);
    check_holds(tables->system != MAP_FAILED, "there is not enough memory for page tables");
    tables->next_table = FIRST_TABLE;
    write_segments(tables);
    directory = tables_words(tables, SHIM_DIRECTORY);
    for (k = 0; k < SYSTEM_BYTES / LARGE_BYTES; k++)
        directory[k] = (base + (uint64_t)k * LARGE_BYTES) | PRESENT | WRITABLE | LARGE;
}

void tables_close(struct tables *tables) {
    munmap(tables->system, SYSTEM_BYTES);
}

static uint32_t new_table(struct tables *tables) {
    uint32_t table = tables->next_table;
    check_holds(table < SYSTEM_BYTES, "there is no memory left for page tables");
    tables->next_table += PAGE_BYTES;
    return table;
}

uint32_t tables_new_tree(struct tables *tables) {
    uint32_t root, directories;
    if (tables->unused_count > 0)
        return tables->unused[--tables->unused_count];
    root = new_table(tables);
    directories = new_table(tables);
    tables_words(tables, root)[0] = (tables->base + directories) | PRESENT | WRITABLE | USER;
    tables_words(tables, directories)[SHIM >> 30] = (tables->base + SHIM_DIRECTORY) | PRESENT | WRITABLE | USER;
    return root;
}

void tables_free_tree(struct tables *tables, uint32_t root) {
    check_holds(tables->unused_count < MAX_TREES, "there are more spaces than the engine has room for");
    tables->unused[tables->unused_count++] = root;
}

static uint32_t place_of(const struct tables *tables, uint64_t entry) {
    return (uint32_t)((entry & ADDRESS_BITS) - tables->base);
}

static uint32_t index_of(uint32_t page, uint32_t level) {
    return level == LEVELS - 1 ? 0 : page >> (9 * level) & (TABLE_ENTRIES - 1);
}

uint32_t tables_entry_place(struct tables *tables, uint32_t root, uint32_t page) {
    uint32_t table = root, level;
    for (level = LEVELS - 1; level > 0; level--) {
        uint64_t *entry = &tables_words(tables, table)[index_of(page, level)];
        if (*entry == 0)
            *entry = (tables->base + new_table(tables)) | PRESENT | WRITABLE | USER;
        table = place_of(tables, *entry);
    }
    return table + index_of(page, 0) * (uint32_t)sizeof(uint64_t);
}

/* Returns how many pages from this one on have no entry at this level or above, or 0 if the page is present. */
static uint32_t absent_pages(const struct tables *tables, uint32_t root, uint32_t page) {
    uint32_t table = root, level;
    for (level = LEVELS - 1; level < LEVELS; level--) {
        uint64_t entry = tables_words(tables, table)[index_of(page, level)];
        uint32_t pages = level == LEVELS - 1 ? LAST_PAGE + 1 : 1u << (9 * level);
        if (entry == 0)
            return pages - (page & (pages - 1));
        table = place_of(tables, entry);
    }
    return 0;
}

uint32_t tables_next_page(const struct tables *tables, uint32_t root, uint32_t page) {
    while (page <= LAST_PAGE) {
        uint32_t absent = absent_pages(tables, root, page);
        if (absent == 0)
            break;
        page += absent;
    }
    return page;
}

uint64_t tables_entry(uint64_t address, uint32_t rights) {
    uint64_t entry = address | PRESENT | USER;
    if (rights & L4_WRITE)
        entry |= WRITABLE;
    entry |= rights & L4_EXECUTE ? EXECUTABLE : NO_EXECUTE;
    return entry;
}

uint64_t tables_find(const struct tables *tables, uint32_t root, uint32_t page) {
    uint32_t table = root, level;
    for (level = LEVELS - 1; level > 0; level--) {
        uint64_t entry = tables_words(tables, table)[index_of(page, level)];
        if (entry == 0)
            return 0;
        table = place_of(tables, entry);
    }
    return tables_words(tables, table)[index_of(page, 0)];
}
