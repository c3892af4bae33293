/* Unicorn, a portable emulator: each space has an emulated processor of its own. All 4 GiB of a space are one block of the processor's
 * memory, in which the host maps each frame at its page, so a page costs the same however many there are. The processor's page tables map
 * each page to itself, with the rights. They make faults precise: registers and flags are those at the instruction. (Unicorn 2.0 reads
 * memory at the virtual address, and later versions at the physical address; here both are the same.) */
#define _GNU_SOURCE
#include "check.h"
#include "engine.h"
#include "signals.h"
#include "tables.h"
#include <errno.h>
#include <l4.h>
#include <stdlib.h>
#include <string.h>
#include <sys/mman.h>
#include <unicorn/unicorn.h>

#define AREA_BYTES SHIM

/* A run ends at this address, which no program reaches. Unicorn looks it up after each run as the program could, and a fault there would make
 * the next one a double fault. So its large page, the last of the system memory, is readable in ring 3. */
#define RUN_END (SHIM + SYSTEM_BYTES - PAGE_BYTES)
#define LAST_LARGE_PAGE 511
#define FLUSH_PLACE (UINT64_C(3) << 32)

/* A block of instructions takes this many nanoseconds of virtual time. */
#define BLOCK_TIME 200u
#define MILLISECOND 1000000u
#define MAX_INSTRUCTION 15u
#define INT 0xcd
#define INT_BYTES 2u
#define FIRST_NO_EXCEPTION 32u
#define FEATURES_MSR UINT32_C(0xc0000080)

/* The flag with which a processor raises DEBUG after each instruction; and more instructions than a block has. */
#define TRAP_FLAG UINT32_C(0x100)
#define MAX_STEPS 4096u

/* A breakpoint: a hook at its address. */
#define MAX_BREAKS 64
struct stop_place {
    uint32_t address;
    uc_hook hook;
};

struct engine {
    const struct memory *memory;
    struct watcher watcher;
    uint32_t blocks_of_turn;
};

struct engine_space {
    const struct watcher *watcher; /* NULL if there is none */
    uc_engine *unicorn;
    uc_context *clean; /* the processor in ring 3, before any exception */
    struct tables tables;
    uint32_t root;
    unsigned char *area;
    uint64_t gs_base;
    int is_changed; /* the processor may remember pages that have changed */
    struct registers *float_owner;
    struct stop_place breaks[MAX_BREAKS];
    uint32_t break_count;
    /* of the present run */
    struct stop *stop;
    uint32_t blocks, most_blocks, block_first, block_bytes;
    int has_accessed; /* the block has accessed memory, last with the right `access` */
    uint32_t access;
    int has_touched; /* the last instruction has accessed memory at which the watcher wants to stop */
    int has_raised;  /* the processor has raised an exception */
    int is_behind;   /* eip is behind the instruction, which has two bytes: `int n`, sysenter or syscall */
    uint32_t run_on; /* the address of a page that the block continues into and may not execute, or 0 */
};

static void check_unicorn(uc_err error, const char *what) {
    if (error != UC_ERR_OK)
        fail(STATUS_HOST, "Unicorn: %s: %s", what, uc_strerror(error));
}

static struct engine *open_engine(const struct memory *memory, uint32_t turn) {
    struct engine *engine = calloc(1, sizeof *engine);
    check_holds(engine != NULL, "there is not enough memory for an engine");
    engine->memory = memory;
    engine->blocks_of_turn = turn * (MILLISECOND / BLOCK_TIME);
    return engine;
}

static void close_engine(struct engine *engine) {
    free(engine);
}

static void set_fault(struct engine_space *space, uint32_t address, uint32_t access) {
    space->stop->kind = STOP_BY_FAULT;
    space->stop->address = address;
    space->stop->access = access;
}

static void stop_at_fault(struct engine_space *space, uint32_t address, uint32_t access) {
    set_fault(space, address, access);
    check_unicorn(uc_emu_stop(space->unicorn), "uc_emu_stop");
}

static int is_prefix(unsigned char byte) {
    return byte == 0x66 || byte == 0x67 || byte == 0xf0 || byte == 0xf2 || byte == 0xf3 || byte == 0x64 || byte == 0x65 || (byte & 0xe7) == 0x26;
}

/* Returns whether an instruction whose opcode has two bytes, the first of them 0x0f, writes the operand in memory that it reads. */
static int writes_long(unsigned char code, unsigned number) {
    switch (code) {
    case 0xa4: case 0xa5: case 0xab: case 0xac: case 0xad: case 0xb0: case 0xb1: case 0xb3: case 0xbb: case 0xc0: case 0xc1: case 0xc7: return 1;
    case 0xba: return number >= 5;
    default: return 0;
    }
}

static int writes_short(unsigned char code, unsigned number) {
    if (code < 0x38)
        return (code & 7) < 2;
    switch (code) {
    case 0x80: case 0x81: case 0x82: case 0x83: return number != 7;
    case 0x86: case 0x87: case 0xc0: case 0xc1: case 0xd0: case 0xd1: case 0xd2: case 0xd3: return 1;
    case 0xf6: case 0xf7: return number == 2 || number == 3;
    case 0xfe: case 0xff: return number < 2;
    default: return 0;
    }
}

static uint32_t eip_of(struct engine_space *space) {
    uint64_t eip = 0;
    check_unicorn(uc_reg_read(space->unicorn, UC_X86_REG_RIP, &eip), "uc_reg_read");
    return (uint32_t)eip;
}

static int is_executable(const struct engine_space *space, uint32_t address) {
    return (tables_find(&space->tables, space->root, address / PAGE_BYTES) & EXECUTABLE) != 0;
}

/* Reads the code from eip on, as far as it may be executed, and returns the place of the first byte that is no prefix. Behind the last byte
 * there are zeros. */
#define CODE_ROOM (MAX_INSTRUCTION + 2)
static uint32_t read_code(const struct engine_space *space, uint32_t eip, unsigned char *code) {
    uint32_t k;
    memset(code, 0, CODE_ROOM);
    for (k = 0; k < MAX_INSTRUCTION && is_executable(space, eip + k); k++)
        code[k] = space->area[eip + k];
    for (k = 0; k < MAX_INSTRUCTION && is_prefix(code[k]); k++)
        continue;
    return k;
}

/* Returns whether the instruction is a far call or jump whose operand is a register, which a processor does not have. Unicorn calls abort() when
 * it translates one, unless an instruction before it in the block has an operand in memory: then Unicorn takes that operand's address. */
static int is_invalid(const struct engine_space *space, uint32_t eip) {
    unsigned char code[CODE_ROOM];
    uint32_t k = read_code(space, eip, code);
    return code[k] == 0xff && (code[k + 1] & 0xf0) >= 0xd0 && (code[k + 1] & 8) != 0 && code[k + 1] < 0xf0;
}

static void set_invalid(struct stop *stop) {
    stop->kind = STOP_BY_TRAP;
    stop->number = INVALID_OPCODE;
}

/* An instruction that reads and writes one operand faults for w on a processor, and for r in Unicorn. */
static int writes_what_it_reads(const struct engine_space *space, uint32_t eip) {
    unsigned char code[CODE_ROOM];
    uint32_t k = read_code(space, eip, code);
    if (code[k] == 0x0f)
        return code[k + 2] < 0xc0 && writes_long(code[k + 1], code[k + 2] >> 3 & 7);
    return code[k + 1] < 0xc0 && writes_short(code[k], code[k + 1] >> 3 & 7);
}

/* The fault belongs to an access of the present block, or to the fetch of the next. */
static void take_page_fault(struct engine_space *space, uint32_t eip) {
    uint64_t address = 0;
    int is_data = space->has_accessed && eip - space->block_first < space->block_bytes;
    uint32_t access = is_data ? space->access : L4_EXECUTE;
    check_unicorn(uc_reg_read(space->unicorn, UC_X86_REG_CR2, &address), "uc_reg_read");
    if (access == L4_READ && writes_what_it_reads(space, eip))
        access = L4_WRITE;
    stop_at_fault(space, (uint32_t)address, access);
}

/* Returns whether this is `int n`, which ring 3 may not execute, unless n is that of a breakpoint or an overflow. Unicorn executes it, and eip is
 * behind it, at the end of the block. */
static int is_interrupt(const struct engine_space *space, uint32_t eip, uint32_t number) {
    uint32_t first = eip - INT_BYTES;
    if (number == BREAKPOINT || number == OVERFLOW)
        return 0;
    if (number >= FIRST_NO_EXCEPTION)
        return 1;
    return eip == space->block_first + space->block_bytes && is_executable(space, first) && is_executable(space, eip - 1)
        && space->area[first] == INT && space->area[eip - 1] == number;
}

static void on_exception(uc_engine *unicorn, uint32_t number, void *user) {
    struct engine_space *space = user;
    uint32_t eip = eip_of(space);
    space->has_raised = 1;
    space->is_behind = is_interrupt(space, eip, number);
    if (space->is_behind)
        number = GENERAL_PROTECTION;
    if ((number == PAGE_FAULT || number == GENERAL_PROTECTION) && is_invalid(space, eip)) {
        set_invalid(space->stop);
    } else if (number == PAGE_FAULT) {
        take_page_fault(space, eip);
        return;
    } else {
        space->stop->kind = STOP_BY_EXCEPTION;
        space->stop->number = number;
    }
    check_unicorn(uc_emu_stop(unicorn), "uc_emu_stop");
}

static bool on_invalid(uc_engine *unicorn, void *user) {
    struct engine_space *space = user;
    (void)unicorn;
    set_invalid(space->stop);
    return false;
}

static void on_access(uc_engine *unicorn, uc_mem_type type, uint64_t address, int size, int64_t value, void *user) {
    struct engine_space *space = user;
    (void)unicorn, (void)value;
    if (space->watcher != NULL && address < SHIM)
        space->has_touched |= space->watcher->accessed(space->watcher->user, (uint32_t)address, (uint32_t)size, type == UC_MEM_WRITE);
    space->has_accessed = 1;
    space->access = type == UC_MEM_WRITE ? L4_WRITE : L4_READ;
}

/* Before each instruction, if the watcher stops programs. */
static void on_instruction(uc_engine *unicorn, uint64_t address, uint32_t size, void *user) {
    struct engine_space *space = user;
    (void)address, (void)size;
    if (!space->has_touched)
        return;
    space->stop->kind = STOP_BY_ACCESS;
    check_unicorn(uc_emu_stop(unicorn), "uc_emu_stop");
}

/* The emulated processor has no right to execute, so each block of instructions is checked before it runs. */
static void on_block(uc_engine *unicorn, uint64_t address, uint32_t size, void *user) {
    struct engine_space *space = user;
    uint32_t first = (uint32_t)address, last = first + size - 1;
    space->block_first = first;
    space->block_bytes = size;
    space->has_accessed = 0;
    if (!is_executable(space, first)) {
        stop_at_fault(space, first, L4_EXECUTE);
    } else if (first / PAGE_BYTES != last / PAGE_BYTES && !is_executable(space, last)) {
        space->run_on = last / PAGE_BYTES * PAGE_BYTES;
        check_unicorn(uc_emu_stop(unicorn), "uc_emu_stop");
    } else if (++space->blocks >= space->most_blocks) {
        check_unicorn(uc_emu_stop(unicorn), "uc_emu_stop");
    }
}

/* Programs have neither sysenter nor syscall. Unicorn continues behind them, at the end of the block. */
static void stop_at_call(struct engine_space *space, enum stop_kind kind, uint32_t number) {
    space->stop->kind = kind;
    space->stop->number = number;
    space->is_behind = 1;
    check_unicorn(uc_emu_stop(space->unicorn), "uc_emu_stop");
}

static void on_sysenter(uc_engine *unicorn, void *user) {
    (void)unicorn;
    stop_at_call(user, STOP_BY_EXCEPTION, GENERAL_PROTECTION);
}

static void on_syscall(uc_engine *unicorn, void *user) {
    (void)unicorn;
    stop_at_call(user, STOP_BY_TRAP, INVALID_OPCODE);
}

static void hook_instruction(struct engine_space *space, int instruction, uintptr_t function) {
    uc_hook handle;
    check_unicorn(uc_hook_add(space->unicorn, &handle, UC_HOOK_INSN, (void *)function, space, 1, 0, instruction), "uc_hook_add");
}

static void hook(struct engine_space *space, int types, uintptr_t function) {
    uc_hook handle;
    check_unicorn(uc_hook_add(space->unicorn, &handle, types, (void *)function, space, 1, 0), "uc_hook_add");
}

static void write_register(struct engine_space *space, int name, uint64_t value) {
    check_unicorn(uc_reg_write(space->unicorn, name, &value), "uc_reg_write");
}

/* Unicorn 2.0 forgets translations of addresses only when its memory changes, so a page comes and goes where no other memory is. */
static void flush(struct engine_space *space) {
    check_unicorn(uc_mem_map_ptr(space->unicorn, FLUSH_PLACE, PAGE_BYTES, UC_PROT_READ, space->tables.system), "uc_mem_map_ptr");
    check_unicorn(uc_mem_unmap(space->unicorn, FLUSH_PLACE, PAGE_BYTES), "uc_mem_unmap");
}

static void unmap_host_page(struct engine_space *space, uint64_t address) {
    void *unmapped = mmap(space->area + address, PAGE_BYTES, PROT_NONE, MAP_PRIVATE | MAP_ANONYMOUS | MAP_NORESERVE | MAP_FIXED, -1, 0);
    check_holds(unmapped != MAP_FAILED, "the host cannot unmap a page");
}

static void set_processor(struct engine_space *space) {
    static const int flat[] = {UC_X86_REG_DS, UC_X86_REG_ES, UC_X86_REG_FS};
    uc_x86_mmr table;
    uc_x86_msr features = {FEATURES_MSR, EXTENDED_FEATURES};
    size_t k;
    memset(&table, 0, sizeof table);
    table.base = SHIM + GDT;
    table.limit = GDT_BYTES - 1;
    check_unicorn(uc_reg_write(space->unicorn, UC_X86_REG_GDTR, &table), "uc_reg_write");
    check_unicorn(uc_reg_write(space->unicorn, UC_X86_REG_MSR, &features), "uc_reg_write");
    /* under a watcher, a run can be repeated, and so depends on nothing but the program */
    write_register(space, UC_X86_REG_CR4, space->watcher == NULL ? CONTROL_4 : CONTROL_4 | NO_TIME_STAMP);
    write_register(space, UC_X86_REG_CR3, SHIM + space->root);
    write_register(space, UC_X86_REG_CR0, CONTROL_0);
    for (k = 0; k < sizeof flat / sizeof *flat; k++)
        write_register(space, flat[k], USER_DATA);
    write_register(space, UC_X86_REG_GS, USER_GS);
}

#define NOP 0x90
#define NOPS 8u

/* Only the instruction iretq enters ring 3. It goes to some nops in a page at 0, which exists for them alone. */
static void enter_ring_3(struct engine_space *space) {
    static const unsigned char code[] = {0x48, 0xcf}; /* iretq */
    const uint64_t frame[] = {0, USER_CODE, FIXED_FLAGS, 0, USER_DATA};
    uint64_t *entry = tables_words(&space->tables, tables_entry_place(&space->tables, space->root, 0));
    memcpy(space->tables.system + CODE, code, sizeof code);
    memcpy(space->tables.system + STACK_END - sizeof frame, frame, sizeof frame);
    check_holds(mprotect(space->area, PAGE_BYTES, PROT_READ | PROT_WRITE) == 0, "a page cannot be mapped");
    memset(space->area, NOP, 2 * NOPS);
    *entry = tables_entry(0, L4_READ | L4_EXECUTE) & ~NO_EXECUTE;
    write_register(space, UC_X86_REG_RSP, SHIM + STACK_END - sizeof frame);
    check_unicorn(uc_emu_start(space->unicorn, SHIM + CODE, NOPS, 0, 0), "uc_emu_start");
    check_holds(eip_of(space) == NOPS, "Unicorn does not enter ring 3");
    unmap_host_page(space, 0);
    *entry = 0;
    flush(space);
    check_unicorn(uc_context_save(space->unicorn, space->clean), "uc_context_save");
}

static void open_memory(struct engine_space *space) {
    space->area = mmap(NULL, AREA_BYTES, PROT_NONE, MAP_PRIVATE | MAP_ANONYMOUS | MAP_NORESERVE, -1, 0);
    check_holds(space->area != MAP_FAILED, "there is not enough memory for a space");
    tables_open(&space->tables, SHIM);
    space->root = tables_new_tree(&space->tables);
    tables_words(&space->tables, SHIM_DIRECTORY)[LAST_LARGE_PAGE] |= USER;
}

/* Opens a processor over the memory of the space. */
static void open_processor(struct engine_space *space) {
    check_unicorn(uc_open(UC_ARCH_X86, UC_MODE_64, &space->unicorn), "uc_open");
    check_unicorn(uc_mem_map_ptr(space->unicorn, 0, AREA_BYTES, UC_PROT_ALL, space->area), "uc_mem_map_ptr");
    check_unicorn(uc_mem_map_ptr(space->unicorn, SHIM, SYSTEM_BYTES, UC_PROT_ALL, space->tables.system), "uc_mem_map_ptr");
    set_processor(space);
}

static void on_break(uc_engine *unicorn, uint64_t address, uint32_t size, void *user) {
    struct engine_space *space = user;
    (void)address, (void)size;
    space->stop->kind = STOP_BY_BREAK;
    check_unicorn(uc_emu_stop(unicorn), "uc_emu_stop");
}

static void add_break_hook(struct engine_space *space, struct stop_place *place) {
    check_unicorn(uc_hook_add(space->unicorn, &place->hook, UC_HOOK_CODE, (void *)(uintptr_t)on_break, space, place->address, place->address),
                  "uc_hook_add");
}

static void add_hooks(struct engine_space *space) {
    uint32_t k;
    for (k = 0; k < space->break_count; k++)
        add_break_hook(space, &space->breaks[k]);
    hook(space, UC_HOOK_INTR, (uintptr_t)on_exception);
    hook(space, UC_HOOK_INSN_INVALID, (uintptr_t)on_invalid);
    hook(space, UC_HOOK_MEM_READ | UC_HOOK_MEM_WRITE, (uintptr_t)on_access);
    hook(space, UC_HOOK_BLOCK, (uintptr_t)on_block);
    if (space->watcher != NULL && space->watcher->stops)
        hook(space, UC_HOOK_CODE, (uintptr_t)on_instruction);
    hook_instruction(space, UC_X86_INS_SYSENTER, (uintptr_t)on_sysenter);
    hook_instruction(space, UC_X86_INS_SYSCALL, (uintptr_t)on_syscall);
}

static struct engine_space *new_space(struct engine *engine, uint32_t gs_base) {
    struct engine_space *space = calloc(1, sizeof *space);
    check_holds(space != NULL, "there is not enough memory for a space");
    space->watcher = engine->watcher.accessed == NULL ? NULL : &engine->watcher;
    space->gs_base = gs_base;
    open_memory(space);
    open_processor(space);
    check_unicorn(uc_context_alloc(space->unicorn, &space->clean), "uc_context_alloc");
    enter_ring_3(space);
    add_hooks(space);
    return space;
}

static void free_space(struct engine *engine, struct engine_space *space) {
    (void)engine;
    check_unicorn(uc_context_free(space->clean), "uc_context_free");
    check_unicorn(uc_close(space->unicorn), "uc_close");
    tables_close(&space->tables);
    munmap(space->area, AREA_BYTES);
    free(space);
}

static uint64_t *entry_of(struct engine_space *space, uint32_t page) {
    return tables_words(&space->tables, tables_entry_place(&space->tables, space->root, page));
}

static void map(struct engine *engine, struct engine_space *space, uint32_t page, uint32_t frame, uint32_t rights) {
    unsigned char *place = space->area + (size_t)page * PAGE_BYTES;
    if (mmap(place, PAGE_BYTES, PROT_READ | PROT_WRITE, MAP_SHARED | MAP_FIXED, engine->memory->file, (off_t)frame * PAGE_BYTES) == MAP_FAILED)
        fail(STATUS_HOST, "the host cannot map a page (vm.max_map_count may be the reason): %s", strerror(errno));
    *entry_of(space, page) = tables_entry((uint64_t)page * PAGE_BYTES, rights) & ~NO_EXECUTE;
}

/* Code that was translated from the page would run again if another frame came to the same page. */
static void unmap(struct engine *engine, struct engine_space *space, uint32_t page) {
    uint64_t *entry = entry_of(space, page), address = (uint64_t)page * PAGE_BYTES;
    (void)engine;
    if (*entry & EXECUTABLE)
        check_unicorn(uc_ctl_remove_cache(space->unicorn, address, address + PAGE_BYTES), "uc_ctl_remove_cache");
    *entry = 0;
    space->is_changed = 1;
    unmap_host_page(space, address);
}

#define GENERAL_COUNT 10
static int general_names[GENERAL_COUNT] = {UC_X86_REG_RAX, UC_X86_REG_RBX, UC_X86_REG_RCX, UC_X86_REG_RDX, UC_X86_REG_RSI,
                                           UC_X86_REG_RDI, UC_X86_REG_RBP, UC_X86_REG_RSP, UC_X86_REG_RIP, UC_X86_REG_EFLAGS};

static void point_to_general(struct registers *registers, uint32_t **places) {
    uint32_t *const words[GENERAL_COUNT] = {&registers->eax, &registers->ebx, &registers->ecx, &registers->edx, &registers->esi,
                                            &registers->edi, &registers->ebp, &registers->esp, &registers->eip, &registers->eflags};
    memcpy(places, words, sizeof words);
}

static void load_general(struct engine_space *space, struct registers *registers) {
    uint64_t words[GENERAL_COUNT];
    uint32_t *places[GENERAL_COUNT];
    void *pointers[GENERAL_COUNT];
    size_t k;
    point_to_general(registers, places);
    for (k = 0; k < GENERAL_COUNT; k++) {
        words[k] = *places[k];
        pointers[k] = &words[k];
    }
    check_unicorn(uc_reg_write_batch(space->unicorn, general_names, pointers, GENERAL_COUNT), "uc_reg_write_batch");
    write_register(space, UC_X86_REG_GS_BASE, space->gs_base);
}

static void keep_general(struct engine_space *space, struct registers *registers) {
    uint64_t words[GENERAL_COUNT] = {0};
    uint32_t *places[GENERAL_COUNT];
    void *pointers[GENERAL_COUNT];
    size_t k;
    for (k = 0; k < GENERAL_COUNT; k++)
        pointers[k] = &words[k];
    check_unicorn(uc_reg_read_batch(space->unicorn, general_names, pointers, GENERAL_COUNT), "uc_reg_read_batch");
    point_to_general(registers, places);
    for (k = 0; k < GENERAL_COUNT; k++)
        *places[k] = (uint32_t)words[k];
    registers->eflags = (registers->eflags & USER_FLAGS) | FIXED_FLAGS;
}

/* Offsets in the image of fxsave, and its registers. Unicorn numbers the x87 registers from the first and not from the top of the stack. */
enum { IMAGE_STATUS = 2, IMAGE_TAGS = 4, IMAGE_SSE_CONTROL = 24, IMAGE_X87 = 32, IMAGE_SSE = 160 };
enum { FLOATS = 8, FLOAT_SLOT = 16, X87_BYTES = 10, TOP_SHIFT = 11, EMPTY_TAG = 3 };

static void keep_x87(struct engine_space *space, unsigned char *image) {
    uint16_t control = 0, status = 0, tags = 0;
    unsigned k, top;
    check_unicorn(uc_reg_read(space->unicorn, UC_X86_REG_FPCW, &control), "uc_reg_read");
    check_unicorn(uc_reg_read(space->unicorn, UC_X86_REG_FPSW, &status), "uc_reg_read");
    check_unicorn(uc_reg_read(space->unicorn, UC_X86_REG_FPTAG, &tags), "uc_reg_read");
    memcpy(image, &control, sizeof control);
    memcpy(image + IMAGE_STATUS, &status, sizeof status);
    top = status >> TOP_SHIFT & 7u;
    image[IMAGE_TAGS] = 0;
    for (k = 0; k < FLOATS; k++) {
        if ((tags >> 2 * k & 3) != EMPTY_TAG)
            image[IMAGE_TAGS] |= (unsigned char)(1u << k);
        check_unicorn(uc_reg_read(space->unicorn, UC_X86_REG_FP0 + (int)k, image + IMAGE_X87 + ((k - top) & 7) * FLOAT_SLOT), "uc_reg_read");
    }
}

static void load_x87(struct engine_space *space, const unsigned char *image) {
    uint16_t control, status, tags = 0;
    unsigned k, top;
    memcpy(&control, image, sizeof control);
    memcpy(&status, image + IMAGE_STATUS, sizeof status);
    top = status >> TOP_SHIFT & 7u;
    check_unicorn(uc_reg_write(space->unicorn, UC_X86_REG_FPCW, &control), "uc_reg_write");
    check_unicorn(uc_reg_write(space->unicorn, UC_X86_REG_FPSW, &status), "uc_reg_write");
    for (k = 0; k < FLOATS; k++) {
        if (!(image[IMAGE_TAGS] >> k & 1))
            tags |= (uint16_t)(EMPTY_TAG << 2 * k);
        check_unicorn(uc_reg_write(space->unicorn, UC_X86_REG_FP0 + (int)k, image + IMAGE_X87 + ((k - top) & 7) * FLOAT_SLOT), "uc_reg_write");
    }
    check_unicorn(uc_reg_write(space->unicorn, UC_X86_REG_FPTAG, &tags), "uc_reg_write");
}

static void keep_floats(struct engine_space *space) {
    unsigned k;
    if (space->float_owner != NULL) {
        unsigned char *image = space->float_owner->floats;
        keep_x87(space, image);
        check_unicorn(uc_reg_read(space->unicorn, UC_X86_REG_MXCSR, image + IMAGE_SSE_CONTROL), "uc_reg_read");
        for (k = 0; k < FLOATS; k++)
            check_unicorn(uc_reg_read(space->unicorn, UC_X86_REG_XMM0 + (int)k, image + IMAGE_SSE + k * FLOAT_SLOT), "uc_reg_read");
    }
    space->float_owner = NULL;
}

static void load_floats(struct engine_space *space, struct registers *registers) {
    unsigned k;
    if (space->float_owner == registers)
        return;
    keep_floats(space);
    load_x87(space, registers->floats);
    check_unicorn(uc_reg_write(space->unicorn, UC_X86_REG_MXCSR, registers->floats + IMAGE_SSE_CONTROL), "uc_reg_write");
    for (k = 0; k < FLOATS; k++)
        check_unicorn(uc_reg_write(space->unicorn, UC_X86_REG_XMM0 + (int)k, registers->floats + IMAGE_SSE + k * FLOAT_SLOT), "uc_reg_write");
    space->float_owner = registers;
}

/* After an exception the processor is as in its delivery, in which a second exception would be a double fault. */
static void end_exception(struct engine_space *space) {
    keep_floats(space);
    check_unicorn(uc_context_restore(space->unicorn, space->clean), "uc_context_restore");
}

/* Returns 0 if Unicorn cannot translate the next block: it calls abort() then. */
static int start(struct engine_space *space, uint32_t from, uint64_t until) {
    space->stop->kind = STOP_BY_BUDGET;
    space->run_on = 0;
    space->block_bytes = 0;
    space->has_accessed = space->has_touched = space->has_raised = space->is_behind = 0;
    if (sigsetjmp(signals_abort_return, 0) != 0) {
        signals_forget_abort();
        return 0;
    }
    signals_abort_is_caught = 1;
    /* the result is known from the hooks */
    uc_emu_start(space->unicorn, from, until, 0, 0);
    signals_abort_is_caught = 0;
    return 1;
}

/* A processor that called abort() is not used again: the space gets another one, in ring 3. */
static void renew_processor(struct engine_space *space) {
    keep_floats(space);
    check_unicorn(uc_close(space->unicorn), "uc_close");
    open_processor(space);
    check_unicorn(uc_context_restore(space->unicorn, space->clean), "uc_context_restore");
    add_hooks(space);
}

/* Executes one instruction, by the flag that makes the processor raise DEBUG behind it. Returns 0 if Unicorn cannot translate it. */
static int step(struct engine_space *space, struct registers *registers) {
    struct registers from = *registers;
    int is_done;
    from.eflags |= TRAP_FLAG;
    load_floats(space, registers);
    load_general(space, &from);
    is_done = start(space, registers->eip, RUN_END);
    keep_general(space, registers);
    if (is_done)
        end_exception(space);
    return is_done;
}

/* Unicorn could not translate a block. Its instructions are executed one by one, up to the one that Unicorn cannot translate, and that one is an
 * invalid instruction. */
static void step_up(struct engine_space *space, struct registers *registers, struct stop *stop) {
    uint32_t steps, eip;
    keep_general(space, registers);
    renew_processor(space);
    for (steps = 0; steps < MAX_STEPS; steps++) {
        eip = registers->eip;
        if (!step(space, registers)) {
            renew_processor(space);
            if (registers->eip != eip)
                continue;
            set_invalid(stop);
            return;
        }
        if (stop->kind != STOP_BY_EXCEPTION || stop->number != DEBUG)
            return;
    }
    stop->kind = STOP_BY_BUDGET;
}

/* Unicorn translates a block before it runs the first instruction. If the block continues into a page that may not be executed, the
 * instructions before that page run here: up to the page, or to an instruction that lies in both pages. Returns 0 if Unicorn cannot translate
 * them. */
static int run_up_to(struct engine_space *space, uint32_t page) {
    struct registers *owner = space->float_owner, general;
    uint32_t first = eip_of(space), bytes;
    keep_general(space, &general);
    for (bytes = 0; bytes < MAX_INSTRUCTION && first != page - bytes; bytes++) {
        check_unicorn(uc_ctl_remove_cache(space->unicorn, first, page), "uc_ctl_remove_cache");
        end_exception(space);
        load_floats(space, owner);
        load_general(space, &general);
        if (!start(space, first, page - bytes))
            return 0;
        if (space->run_on != 0 || (space->stop->kind == STOP_BY_FAULT && space->stop->access == L4_EXECUTE && eip_of(space) == first))
            continue;
        check_unicorn(uc_ctl_remove_cache(space->unicorn, first, page), "uc_ctl_remove_cache");
        if (space->stop->kind != STOP_BY_BUDGET || eip_of(space) != page - bytes)
            return 1;
        break;
    }
    set_fault(space, page, L4_EXECUTE);
    return 1;
}

/* Returns the page that the next block continues into and may not execute, or 0. */
static uint32_t page_ahead(struct engine_space *space) {
    const struct stop *stop = space->stop;
    uint32_t eip = eip_of(space);
    if (space->run_on != 0)
        return space->run_on;
    if (stop->kind == STOP_BY_FAULT && stop->access == L4_EXECUTE && stop->address / PAGE_BYTES == eip / PAGE_BYTES + 1)
        return stop->address / PAGE_BYTES * PAGE_BYTES;
    return 0;
}

/* Returns 0 if Unicorn cannot translate a block. */
static int execute(struct engine_space *space, struct registers *registers) {
    uint32_t page;
    load_floats(space, registers);
    load_general(space, registers);
    if (!start(space, registers->eip, RUN_END))
        return 0;
    page = page_ahead(space);
    if (page != 0 && !run_up_to(space, page))
        return 0;
    keep_general(space, registers);
    if (space->stop->kind == STOP_BY_FAULT || space->has_raised)
        end_exception(space);
    return 1;
}

/* Unicorn does not distinguish `int 6` from an invalid instruction. */
static int is_interrupt_6(const struct engine_space *space, uint32_t eip) {
    return space->area[eip] == INT && is_executable(space, eip + 1) && space->area[eip + 1] == INVALID_OPCODE;
}

static void run(struct engine *engine, struct engine_space *space, struct registers *registers, struct stop *stop) {
    space->stop = stop;
    space->blocks = 0;
    space->most_blocks = engine->blocks_of_turn;
    if (space->is_changed)
        flush(space);
    space->is_changed = 0;
    if (!execute(space, registers))
        step_up(space, registers, stop);
    if (space->is_behind) /* an exception of an instruction is reported at the instruction */
        registers->eip -= INT_BYTES;
    if (stop->kind == STOP_BY_TRAP && is_interrupt_6(space, registers->eip)) {
        stop->kind = STOP_BY_EXCEPTION;
        stop->number = GENERAL_PROTECTION;
    }
    stop->time = (uint64_t)space->blocks * BLOCK_TIME;
}

static void forget(struct engine *engine, struct engine_space *space, const struct registers *registers) {
    (void)engine;
    if (space->float_owner == registers)
        space->float_owner = NULL;
}

static void watch(struct engine *engine, const struct watcher *watcher) {
    engine->watcher = *watcher;
}

static void keep(struct engine *engine, struct engine_space *space) {
    (void)engine;
    keep_floats(space);
}

/* Code that was translated before has no hook at the address, or still has one. (Unicorn would raise a page fault if the page were absent.) */
static void set_break(struct engine *engine, struct engine_space *space, uint32_t address, int is_set) {
    uint32_t k = 0;
    (void)engine;
    while (k < space->break_count && space->breaks[k].address != address)
        k++;
    if (is_set && k == space->break_count && k < MAX_BREAKS) {
        space->breaks[k].address = address;
        add_break_hook(space, &space->breaks[k]);
        space->break_count++;
    } else if (!is_set && k < space->break_count) {
        check_unicorn(uc_hook_del(space->unicorn, space->breaks[k].hook), "uc_hook_del");
        space->breaks[k] = space->breaks[--space->break_count];
    }
    if (is_executable(space, address))
        check_unicorn(uc_ctl_remove_cache(space->unicorn, address, address + 1), "uc_ctl_remove_cache");
}

const struct engine_kind engine_unicorn = {"unicorn", 1, 10, open_engine, close_engine, NULL, new_space, free_space, map, unmap, run, forget, set_break, watch,
                                           keep};
