/* Checks one engine behind its interface, without a kernel: engines NAME. What it prints has to be expected/engines. */
#define _GNU_SOURCE
#include "../src/check.h"
#include "../src/engine.h"
#include "../src/signals.h"
#include <l4.h>
#include <stdio.h>
#include <string.h>
#include <sys/mman.h>
#include <unistd.h>

#define FRAMES 8u
#define TURN 20u
/* Pages of the space: code (r-x), data (rw-), constants (r--), and one that is absent. gs:[0] is the first word of the constants. */
#define CODE UINT32_C(0x400000)
#define DATA UINT32_C(0x500000)
#define CONSTANTS UINT32_C(0x600000)
#define CODE_BYTES 64

static const struct engine_kind *kind;
static struct engine *engine;
static struct engine_space *space;
static struct memory memory;
static struct registers registers;

static unsigned char *frame(uint32_t number) {
    return memory.bytes + (size_t)number * PAGE_BYTES;
}

static void reset(struct registers *reset_registers, uint32_t eip) {
    static const unsigned char control[2] = {0x7f, 0x03}, sse_control[2] = {0x80, 0x1f};
    memset(reset_registers, 0, sizeof *reset_registers);
    memcpy(reset_registers->floats, control, sizeof control);
    memcpy(reset_registers->floats + 24, sse_control, sizeof sse_control);
    reset_registers->eflags = FIXED_FLAGS;
    reset_registers->eip = eip;
    reset_registers->esp = DATA + PAGE_BYTES;
}

static void print_stop(const char *name, const struct registers *now, const struct stop *stop) {
    printf("%s: ", name);
    switch (stop->kind) {
    case STOP_BY_TRAP: printf("trap"); break;
    case STOP_BY_FAULT: printf("fault %08x for %u", stop->address, stop->access); break;
    case STOP_BY_EXCEPTION: printf("exception %u", stop->number); break;
    case STOP_BY_BREAK: printf("breakpoint"); break;
    case STOP_BY_ACCESS: printf("access"); break;
    case STOP_BY_HOST: printf("the host"); break;
    case STOP_BY_BUDGET: printf("budget\n"); return;
    }
    printf(" at %08x, eax %08x, flags %03x\n", now->eip, now->eax, now->eflags);
}

/* A budget may end by chance. */
#define MAX_BUDGETS 50
static void run_to_stop(struct registers *from, struct stop *stop) {
    int budgets = 0;
    do {
        kind->run(engine, space, from, stop);
    } while (stop->kind == STOP_BY_BUDGET && ++budgets < MAX_BUDGETS);
}

static void run(const char *name, struct registers *from) {
    struct stop stop;
    run_to_stop(from, &stop);
    print_stop(name, from, &stop);
}

/* Runs this code at the next unused place of the code page. Every code is at a place of its own, since engines may keep translated code. */
static uint32_t next_code = CODE;

static void run_code(const char *name, const unsigned char *code, size_t length) {
    uint32_t at = next_code;
    next_code += CODE_BYTES;
    memset(frame(0) + (at - CODE), 0x90, CODE_BYTES);
    memcpy(frame(0) + (at - CODE), code, length);
    reset(&registers, at);
    run(name, &registers);
}

#define RUN(name, ...) \
    do { \
        static const unsigned char code_bytes[] = {__VA_ARGS__}; \
        run_code(name, code_bytes, sizeof code_bytes); \
    } while (0)

static void check_faults(void) {
    RUN("trap", 0x40, 0x0f, 0x0b);                                                            /* inc eax; ud2 */
    RUN("gs", 0x65, 0xa1, 0, 0, 0, 0, 0x0f, 0x0b);                                            /* mov eax, gs:[0]; ud2 */
    RUN("read absent, flags of compare", 0x40, 0x39, 0xc0, 0x8b, 0x1d, 0, 0, 0x70, 0, 0x90);  /* inc eax; cmp eax, eax; mov ebx, [0x700000] */
    RUN("read absent, flags of subtraction", 0x83, 0xe8, 1, 0x8b, 0x1d, 0x10, 0, 0x70, 0);    /* sub eax, 1; mov ebx, [0x700010] */
    RUN("write absent", 0xa3, 0, 0, 0x70, 0);                                                 /* mov [0x700000], eax */
    RUN("write constant", 0xa3, 4, 0, 0x60, 0);                                               /* mov [0x600004], eax */
    RUN("add to absent", 0x83, 0x05, 8, 0, 0x70, 0, 5);                                       /* add dword [0x700008], 5 */
    RUN("add to constant", 0x83, 0x05, 8, 0, 0x60, 0, 5);                                     /* add dword [0x600008], 5 */
    RUN("exchange with absent", 0xf0, 0x0f, 0xc1, 0x05, 0, 0, 0x70, 0);                       /* lock xadd [0x700000], eax */
    RUN("compare with absent", 0x83, 0x3d, 8, 0, 0x70, 0, 5);                                 /* cmp dword [0x700008], 5 */
    RUN("jump to data", 0xb8, 0, 0, 0x50, 0, 0xff, 0xe0);                                     /* mov eax, 0x500000; jmp eax */
    RUN("jump to absent", 0xb8, 0, 0, 0x70, 0, 0xff, 0xe0);                                   /* mov eax, 0x700000; jmp eax */
    RUN("push to absent", 0xbc, 0, 0, 0x70, 0, 0x50);                                         /* mov esp, 0x700000; push eax */
    RUN("read the shim", 0xb8, 0, 0x10, 0, 0, 0x8b, 0x00);                                    /* mov eax, 0x1000; mov eax, [eax] */
    RUN("call to absent", 0xe8, 0, 0, 0x30, 0, 0x90);                                         /* call .+5+0x300000 */
}

static void check_exceptions(void) {
    RUN("division", 0x31, 0xc9, 0xf7, 0xf1);         /* xor ecx, ecx; div ecx */
    RUN("second division", 0x31, 0xc9, 0xf7, 0xf1);
    RUN("halt", 0xf4);                               /* hlt */
    RUN("second halt", 0xf4);
    RUN("no interrupts", 0xfa);                      /* cli */
    RUN("host call", 0xb8, 20, 0, 0, 0, 0xcd, 0x80); /* mov eax, 20; int 0x80 */
    RUN("breakpoint", 0xcc);                         /* int3 */
    RUN("page tables", 0x0f, 0x22, 0xd8);            /* mov cr3, eax */
    RUN("privileged table", 0x0f, 0x01, 0x10);       /* lgdt [eax] */
    RUN("then a fault", 0xa1, 0, 0, 0x70, 0);        /* mov eax, [0x700000] */
}

static void check_budget(void) {
    struct stop stop;
    memcpy(frame(0) + (next_code - CODE), "\xeb\xfe", 2); /* jmp $ */
    reset(&registers, next_code);
    next_code += CODE_BYTES;
    kind->run(engine, space, &registers, &stop);
    print_stop("for ever", &registers, &stop);
}

/* Code that ends with the code page: the next page is absent. */
static void run_at_end(const char *name, const unsigned char *code, uint32_t length, uint32_t beyond) {
    uint32_t place = PAGE_BYTES - length + beyond;
    memcpy(frame(3) + place, code, length - beyond);
    reset(&registers, CODE + 2 * PAGE_BYTES + place);
    run(name, &registers);
}

/* The engine may keep translated code of a page until the page is unmapped. */
static void remap_end(void) {
    kind->unmap(engine, space, CODE / PAGE_BYTES + 2);
    kind->map(engine, space, CODE / PAGE_BYTES + 2, 3, L4_READ | L4_EXECUTE);
}

static void check_page_ends(void) {
    static const unsigned char increments[] = {0x40, 0x40, 0x40}, move[] = {0x40, 0xb8, 1, 2, 3, 4}; /* inc eax..; mov eax, 0x04030201 */
    kind->map(engine, space, CODE / PAGE_BYTES + 2, 3, L4_READ | L4_EXECUTE);
    run_at_end("run on", increments, 3, 0);
    remap_end();
    run_at_end("instruction in two pages", move, 6, 2);
    memcpy(frame(4), "\3\4\x0f\x0b", 4);
    kind->map(engine, space, CODE / PAGE_BYTES + 3, 4, L4_READ | L4_EXECUTE);
    run("and on", &registers);
    kind->unmap(engine, space, CODE / PAGE_BYTES + 3);
    kind->map(engine, space, CODE / PAGE_BYTES + 3, 4, L4_READ | L4_WRITE);
    remap_end();
    run_at_end("run on into data", increments, 3, 0);
    kind->unmap(engine, space, CODE / PAGE_BYTES + 3);
    kind->unmap(engine, space, CODE / PAGE_BYTES + 2);
}

/* mov eax, [0x500000]; ud2 */
static const unsigned char read_data[] = {0xa1, 0, 0, 0x50, 0, 0x0f, 0x0b};

static void check_mappings(void) {
    memcpy(frame(1), "\1\0\0\0", 4);
    memcpy(frame(5), "\5\0\0\0", 4);
    run_code("frame 1", read_data, sizeof read_data);
    kind->unmap(engine, space, DATA / PAGE_BYTES);
    run_code("no frame", read_data, sizeof read_data);
    kind->map(engine, space, DATA / PAGE_BYTES, 5, L4_READ);
    run("frame 5", &registers);
    RUN("frame 5 is constant", 0xa3, 0, 0, 0x50, 0);
    kind->unmap(engine, space, DATA / PAGE_BYTES);
    kind->map(engine, space, DATA / PAGE_BYTES, 5, L4_READ | L4_WRITE);
    run("frame 5 is writable", &registers);
}

/* Maps a frame with other code to a page from which code was executed before. */
static void check_replaced_code(void) {
    uint32_t page = CODE / PAGE_BYTES + 4;
    memcpy(frame(6), "\xb8\6\0\0\0\x0f\x0b", 7); /* mov eax, 6; ud2 */
    memcpy(frame(7), "\xb8\7\0\0\0\x0f\x0b", 7);
    kind->map(engine, space, page, 6, L4_READ | L4_EXECUTE);
    reset(&registers, page * PAGE_BYTES);
    run("code of frame 6", &registers);
    kind->unmap(engine, space, page);
    kind->map(engine, space, page, 7, L4_READ | L4_EXECUTE);
    reset(&registers, page * PAGE_BYTES);
    run("code of frame 7", &registers);
    kind->unmap(engine, space, page);
    reset(&registers, page * PAGE_BYTES);
    run("no code", &registers);
}

/* Two threads load 1 and pi on the x87 stack and words into xmm1, are stopped by faults, and store what they have. */
static void check_floats(void) {
    static const unsigned char code[] = {
        0xd9, 0xe8,                               /* fld1 */
        0x66, 0x0f, 0x6e, 0xc8,                   /* movd xmm1, eax */
        0x8b, 0x1d, 0, 0, 0x70, 0,                /* mov ebx, [0x700000] */
        0x66, 0x0f, 0x7e, 0xc8,                   /* movd eax, xmm1 */
        0xda, 0x0d, 0, 1, 0x60, 0,                /* fimul dword [0x600100] */
        0xdb, 0x1d, 0, 1, 0x50, 0,                /* fistp dword [0x500100] */
        0x03, 0x05, 0, 1, 0x50, 0,                /* add eax, [0x500100] */
        0x0f, 0x0b};                              /* ud2 */
    static const unsigned char other[] = {
        0xd9, 0xeb, 0xd9, 0xeb,                   /* fldpi; fldpi */
        0x66, 0x0f, 0x6e, 0xc8,                   /* movd xmm1, eax */
        0x8b, 0x1d, 0, 0, 0x70, 0,                /* mov ebx, [0x700000] */
        0x66, 0x0f, 0x7e, 0xc8, 0x0f, 0x0b};      /* movd eax, xmm1; ud2 */
    static struct registers first, second;
    memcpy(frame(2) + 0x100, "\7\0\0\0", 4);
    memcpy(frame(0) + (next_code - CODE), code, sizeof code);
    memcpy(frame(0) + (next_code + CODE_BYTES - CODE), other, sizeof other);
    reset(&first, next_code);
    reset(&second, next_code + CODE_BYTES);
    first.eax = 0x11110000, second.eax = 0x22220000;
    run("floats of the first", &first);
    run("floats of the second", &second);
    kind->map(engine, space, 0x700, 5, L4_READ);
    run("the first again", &first);
    run("the second again", &second);
    kind->unmap(engine, space, 0x700);
    kind->forget(engine, space, &first);
    kind->forget(engine, space, &second);
    next_code += 2 * CODE_BYTES;
}

/* Only int 3 and int 4 may be executed. */
static void check_interrupts(void) {
    RUN("int 0", 0xcd, 0);
    RUN("int 6", 0x40, 0xcd, 6);
    RUN("int 8", 0xcd, 8);
    RUN("int 13", 0xcd, 13);
    RUN("int 14", 0xcd, 14);
    RUN("int 14 behind a fault", 0xa1, 0, 0, 0x70, 0, 0xcd, 14); /* mov eax, [0x700000] */
    RUN("int 48", 0xcd, 48);
    RUN("division behind int", 0xeb, 2, 0xcd, 0, 0x31, 0xc9, 0xf7, 0xf1); /* jmp over int 0; xor ecx, ecx; div ecx */
}

/* Far calls and jumps whose operand is a register. Unicorn calls abort() when it translates them. */
static void check_untranslatable(void) {
    static const unsigned char code[] = {
        0xd9, 0xe8,                 /* fld1 */
        0x66, 0x0f, 0x6e, 0xc8,     /* movd xmm1, eax */
        0xff, 0xe9,                 /* a far jump */
        0x66, 0x0f, 0x7e, 0xc8,     /* movd eax, xmm1 */
        0xdb, 0x1d, 0, 1, 0x50, 0,  /* fistp dword [0x500100] */
        0x03, 0x05, 0, 1, 0x50, 0,  /* add eax, [0x500100] */
        0x0f, 0x0b}, at_end[] = {0x40, 0xff, 0xd8};
    RUN("far call", 0xff, 0xd8);
    RUN("far call behind others", 0x40, 0x40, 0x66, 0xff, 0xdf);
    RUN("far call behind a fault", 0xa1, 0, 0, 0x70, 0, 0xff, 0xd8); /* mov eax, [0x700000] */
    RUN("far jump behind a division", 0x31, 0xc9, 0xf7, 0xf1, 0xff, 0xe8);
    kind->map(engine, space, CODE / PAGE_BYTES + 2, 3, L4_READ | L4_EXECUTE);
    run_at_end("far call at the end", at_end, 3, 0);
    kind->unmap(engine, space, CODE / PAGE_BYTES + 2);
    memcpy(frame(0) + (next_code - CODE), code, sizeof code);
    reset(&registers, next_code);
    registers.eax = 0x11110000;
    next_code += CODE_BYTES;
    run("floats before a far jump", &registers);
    registers.eax = 0;
    registers.eip += 2;
    run("floats behind a far jump", &registers);
}

static void open_space(void) {
    space = kind->new_space(engine, CONSTANTS);
    kind->map(engine, space, CODE / PAGE_BYTES, 0, L4_READ | L4_EXECUTE);
    kind->map(engine, space, DATA / PAGE_BYTES, 1, L4_READ | L4_WRITE);
    kind->map(engine, space, CONSTANTS / PAGE_BYTES, 2, L4_READ);
    memcpy(frame(2), "\x78\x56\x34\x12", 4);
    next_code = CODE;
}

/* Many spaces, one after another, with pages at both ends. */
static void check_spaces(void) {
    uint32_t k, traps = 0;
    memcpy(frame(6), "\x40\x0f\x0b", 3);
    for (k = 0; k < 300; k++) {
        struct stop stop;
        space = kind->new_space(engine, CONSTANTS);
        kind->map(engine, space, CODE / PAGE_BYTES + k, 6, L4_READ | L4_EXECUTE);
        kind->map(engine, space, 0xfff00 - k, 1, L4_READ | L4_WRITE);
        reset(&registers, CODE + k * PAGE_BYTES);
        run_to_stop(&registers, &stop);
        traps += stop.kind == STOP_BY_TRAP && registers.eax == 1;
        reset(&registers, CODE + (k - 1) * PAGE_BYTES); /* the page of the space before */
        run_to_stop(&registers, &stop);
        traps += stop.kind == STOP_BY_FAULT && stop.access == L4_EXECUTE;
        kind->forget(engine, space, &registers);
        kind->free_space(engine, space);
    }
    printf("spaces: %u of 600 stops are right\n", traps);
}

static const struct engine_kind *named(const char *name) {
    const struct engine_kind *kinds[] = {
#ifdef HAVE_UNICORN
        &engine_unicorn,
#endif
#ifdef HAVE_NATIVE
        &engine_ptrace, &engine_kvm,
#endif
    };
    size_t k;
    for (k = 0; k < sizeof kinds / sizeof *kinds; k++) {
        if (strcmp(kinds[k]->name, name) == 0)
            return kinds[k];
    }
    fail(STATUS_INPUT, "%s: no such engine", name);
}

static void save_nothing(void) {
}

int main(int count, char **words) {
    signals_begin(save_nothing);
    check_holds(count == 2, "usage: engines NAME");
    kind = named(words[1]);
    memory.frames = FRAMES;
    memory.file = memfd_create("engines", MFD_CLOEXEC);
    check_system(ftruncate(memory.file, FRAMES * PAGE_BYTES), "ftruncate");
    memory.bytes = mmap(NULL, FRAMES * PAGE_BYTES, PROT_READ | PROT_WRITE, MAP_SHARED, memory.file, 0);
    check_holds(memory.bytes != MAP_FAILED, "mmap");
    engine = kind->open(&memory, TURN);
    open_space();
    check_faults();
    check_exceptions();
    check_budget();
    check_page_ends();
    check_mappings();
    check_replaced_code();
    check_floats();
    check_untranslatable();
    check_interrupts();
    kind->forget(engine, space, &registers);
    kind->free_space(engine, space);
    check_spaces();
    kind->close(engine);
    munmap(memory.bytes, FRAMES * PAGE_BYTES);
    close(memory.file);
    return 0;
}
