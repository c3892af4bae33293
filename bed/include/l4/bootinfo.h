/* The boot info describes the programs that were loaded beside the root task: a header, and a record for each program. */
#ifndef L4_BOOTINFO_H
#define L4_BOOTINFO_H

#include <l4/types.h>

#define L4_BOOTINFO_MAGIC 0x14b0021du
#define L4_BOOTINFO_VERSION 1u

typedef struct {
    L4_Word_t magic;
    L4_Word_t version;
    L4_Word_t size;        /* in bytes, with all records */
    L4_Word_t first_entry; /* the offset of the first record in bytes */
    L4_Word_t num_entries;
} L4_BootInfo_t;

/* Types of records. The bed has records of the type SimpleExec only. */
#define L4_BootInfo_Module 1u
#define L4_BootInfo_SimpleExec 2u

/* What all records begin with. */
typedef struct {
    L4_Word_t type;
    L4_Word_t version;
    L4_Word_t offset_next; /* of the next record from this one, in bytes */
} L4_BootRec_t;

/* A part of a program: its address in physical memory, the address for which it was linked, and its bytes. */
typedef struct {
    L4_Word_t pstart;
    L4_Word_t vstart;
    L4_Word_t size;
} L4_BootPart_t;

typedef struct {
    L4_Word_t type;
    L4_Word_t version;
    L4_Word_t offset_next;
    L4_BootPart_t text;
    L4_BootPart_t data;
    L4_BootPart_t bss;
    L4_Word_t initial_ip;
    L4_Word_t flags;
    L4_Word_t label;
    L4_Word_t cmdline_offset;
} L4_Boot_SimpleExec_t;

typedef struct {
    L4_Word_t type;
    L4_Word_t version;
    L4_Word_t offset_next;
    L4_Word_t start;
    L4_Word_t size;
    L4_Word_t cmdline_offset;
} L4_Boot_Module_t;

L4_BEGIN_C

L4_INLINE L4_Bool_t L4_BootInfo_Valid(const void *info) {
    return ((const L4_BootInfo_t *)info)->magic == L4_BOOTINFO_MAGIC;
}

L4_INLINE L4_Word_t L4_BootInfo_Size(const void *info) {
    return ((const L4_BootInfo_t *)info)->size;
}

L4_INLINE L4_Word_t L4_BootInfo_Entries(const void *info) {
    return ((const L4_BootInfo_t *)info)->num_entries;
}

L4_INLINE L4_BootRec_t *L4_BootInfo_FirstEntry(const void *info) {
    return (L4_BootRec_t *)((L4_Word_t)info + ((const L4_BootInfo_t *)info)->first_entry);
}

L4_INLINE L4_Word_t L4_BootRec_Type(const L4_BootRec_t *record) {
    return record->type;
}

L4_INLINE L4_BootRec_t *L4_BootRec_Next(const L4_BootRec_t *record) {
    return (L4_BootRec_t *)((L4_Word_t)record + record->offset_next);
}

/* The words of a record of the type SimpleExec. */
L4_INLINE const L4_Boot_SimpleExec_t *L4_SimpleExecOf(const L4_BootRec_t *record) {
    return (const L4_Boot_SimpleExec_t *)record;
}

L4_INLINE L4_Word_t L4_SimpleExec_TextVstart(const L4_BootRec_t *e) {
    return L4_SimpleExecOf(e)->text.vstart;
}

L4_INLINE L4_Word_t L4_SimpleExec_TextPstart(const L4_BootRec_t *e) {
    return L4_SimpleExecOf(e)->text.pstart;
}

L4_INLINE L4_Word_t L4_SimpleExec_TextSize(const L4_BootRec_t *e) {
    return L4_SimpleExecOf(e)->text.size;
}

L4_INLINE L4_Word_t L4_SimpleExec_DataVstart(const L4_BootRec_t *e) {
    return L4_SimpleExecOf(e)->data.vstart;
}

L4_INLINE L4_Word_t L4_SimpleExec_DataPstart(const L4_BootRec_t *e) {
    return L4_SimpleExecOf(e)->data.pstart;
}

L4_INLINE L4_Word_t L4_SimpleExec_DataSize(const L4_BootRec_t *e) {
    return L4_SimpleExecOf(e)->data.size;
}

L4_INLINE L4_Word_t L4_SimpleExec_BssVstart(const L4_BootRec_t *e) {
    return L4_SimpleExecOf(e)->bss.vstart;
}

L4_INLINE L4_Word_t L4_SimpleExec_BssPstart(const L4_BootRec_t *e) {
    return L4_SimpleExecOf(e)->bss.pstart;
}

L4_INLINE L4_Word_t L4_SimpleExec_BssSize(const L4_BootRec_t *e) {
    return L4_SimpleExecOf(e)->bss.size;
}

L4_INLINE L4_Word_t L4_SimpleExec_InitialIP(const L4_BootRec_t *e) {
    return L4_SimpleExecOf(e)->initial_ip;
}

L4_INLINE L4_Word_t L4_SimpleExec_Flags(const L4_BootRec_t *e) {
    return L4_SimpleExecOf(e)->flags;
}

L4_INLINE L4_Word_t L4_SimpleExec_Label(const L4_BootRec_t *e) {
    return L4_SimpleExecOf(e)->label;
}

/* Returns the command line, or a null pointer if there is none. */
L4_INLINE char *L4_SimpleExec_Cmdline(const L4_BootRec_t *e) {
    L4_Word_t offset = L4_SimpleExecOf(e)->cmdline_offset;
    return offset == 0 ? (char *)0 : (char *)((L4_Word_t)e + offset);
}

/* The words of a record of the type Module. */
L4_INLINE L4_Word_t L4_Module_Start(const L4_BootRec_t *e) {
    return ((const L4_Boot_Module_t *)(const void *)e)->start;
}

L4_INLINE L4_Word_t L4_Module_Size(const L4_BootRec_t *e) {
    return ((const L4_Boot_Module_t *)(const void *)e)->size;
}

L4_INLINE char *L4_Module_Cmdline(const L4_BootRec_t *e) {
    L4_Word_t offset = ((const L4_Boot_Module_t *)(const void *)e)->cmdline_offset;
    return offset == 0 ? (char *)0 : (char *)((L4_Word_t)e + offset);
}

L4_END_C

#endif
