/* Page tables of x86-64 for the engines that have a processor of their own (Unicorn and KVM). The processor is in 64-bit mode, and programs
 * are 32-bit code in it (compatibility mode). The engine's system memory has the tables and all that the
 * processor needs for itself. Every space has it at SHIM, from 4 GiB on, where 32-bit code cannot reach, and only ring 0 can. Programs
 * run in ring 3. */
#ifndef TABLES_H
#define TABLES_H

#include "engine.h"

/* Room for the tables of 64 spaces that have pages everywhere. The host gives memory for what is written. */
#define SYSTEM_BYTES (UINT32_C(1) << 30)
#define SHIM (UINT64_C(1) << 32)

/* Places in the system memory. */
enum {
    GDT = 0x1000,
    IDT = 0x2000,
    TSS = 0x3000,
    HANDLERS = 0x4000,
    CODE = 0x5000,
    STACK = 0x6000,
    STACK_END = 0x7000,
    SHIM_DIRECTORY = 0x8000,
    CHANGES = 0x9000,
    FIRST_TABLE = 0x10000
};

/* Selectors of the segments in the GDT. */
enum { SYSTEM_CODE = 0x08, SYSTEM_DATA = 0x10, USER_CODE = 0x1b, USER_DATA = 0x23, TASK = 0x28, USER_GS = 0x3b };
#define GDT_BYTES 0x40
#define TSS_LIMIT 0x67

/* Bits of an entry. The processor ignores EXECUTABLE; it is for engines whose processor has no NO_EXECUTE. */
enum { PRESENT = 1, WRITABLE = 2, USER = 4, LARGE = 0x80, EXECUTABLE = 0x200 };
#define NO_EXECUTE (UINT64_C(1) << 63)

/* Bits of the error code of a page fault. */
enum { FAULT_WRITE = 2, FAULT_FETCH = 16 };

/* Numbers of exceptions. */
enum { DEBUG = 1, BREAKPOINT = 3, OVERFLOW = 4, INVALID_OPCODE = 6, NO_COPROCESSOR = 7, GENERAL_PROTECTION = 13, PAGE_FAULT = 14 };

/* Values of the control registers. TASK_SWITCHED makes the next instruction that uses floats raise NO_COPROCESSOR. */
#define CONTROL_0 UINT64_C(0x80010033) /* paging, write protection, exceptions of the coprocessor, protection */
#define TASK_SWITCHED UINT64_C(8)
#define CONTROL_4 UINT64_C(0x620) /* long entries, and SSE */
#define NO_TIME_STAMP UINT64_C(4) /* in control register 4: programs may not read the time stamp */
#define EXTENDED_FEATURES UINT64_C(0xd00) /* 64-bit mode, and pages that may not be executed */

#define MAX_TREES 80

struct tables {
    unsigned char *system;
    uint64_t base; /* the physical address of the system memory */
    uint32_t next_table;
    uint32_t unused[MAX_TREES], unused_count; /* trees of spaces that no longer exist; no page is present in them */
};

/* Allocates the system memory, and writes the segments and the shim's mapping. */
void tables_open(struct tables *tables, uint64_t base);
void tables_close(struct tables *tables);

/* Returns the words at a place of the system memory. */
uint64_t *tables_words(const struct tables *tables, uint32_t place);

/* Returns the place of the root of an empty tree, and gives a tree back in which no page is present. */
uint32_t tables_new_tree(struct tables *tables);
void tables_free_tree(struct tables *tables, uint32_t root);

/* Returns the place of the entry of a page. Tables are added where they are missing. */
uint32_t tables_entry_place(struct tables *tables, uint32_t root, uint32_t page);

/* Returns the lowest present page that is not below `page`, or LAST_PAGE + 1. */
#define LAST_PAGE UINT32_C(0xfffff)
uint32_t tables_next_page(const struct tables *tables, uint32_t root, uint32_t page);

/* Returns the entry of a page that lies at this physical address and has these rights. */
uint64_t tables_entry(uint64_t address, uint32_t rights);

/* Returns the entry of a page, or 0 if there is none. */
uint64_t tables_find(const struct tables *tables, uint32_t root, uint32_t page);

#endif
