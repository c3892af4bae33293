/* An engine executes the instructions of programs, and lets them access only the pages that the bed has mapped for it. */
#ifndef ENGINE_H
#define ENGINE_H

#include <stddef.h>
#include <stdint.h>

#define PAGE_BYTES 4096u

/* The flags that belong to a thread (results of instructions, and the direction), and the flags that are always set. */
#define USER_FLAGS UINT32_C(0x00000cd5)
#define FIXED_FLAGS UINT32_C(0x202)

/* The registers of a thread while it does not run. `floats` is the image that the instruction fxsave writes: x87, MMX and SSE. */
#define FLOAT_BYTES 512
struct registers {
    uint32_t eax, ebx, ecx, edx, esi, edi, ebp, esp, eip, eflags;
    _Alignas(16) unsigned char floats[FLOAT_BYTES];
};

enum stop_kind {
    STOP_BY_TRAP,      /* the instruction at eip is invalid: the stub of a system call, the look-up of the KIP, or a mistake */
    STOP_BY_FAULT,     /* the mapped pages do not permit the instruction's access to `address` */
    STOP_BY_EXCEPTION, /* the processor raised exception `number` */
    STOP_BY_BUDGET,    /* the thread ran for a whole turn */
    STOP_BY_BREAK,     /* there is a breakpoint at eip */
    STOP_BY_ACCESS,    /* the last instruction has accessed memory at which the watcher wants to stop */
    STOP_BY_HOST       /* the host has refused a page of the space, so nothing runs in it any more */
};

struct stop {
    enum stop_kind kind;
    uint32_t address;
    uint32_t access; /* L4_READ, L4_WRITE or L4_EXECUTE */
    uint32_t number;
    uint64_t time; /* how long it ran, in nanoseconds of virtual time; 0 if the engine has none */
};

/* The frames, in a file in memory, so that engines can map each frame wherever a space has it. */
struct memory {
    unsigned char *bytes;
    uint32_t frames;
    int file;
};

/* An engine, and an address space in it. Each engine defines both. */
struct engine;
struct engine_space;

/* A function that gets each access of a program to memory. If it returns 1 and `stops` is set, the program stops behind the instruction. The
 * instruction rdtsc, which returns the host's time, is exception 13 then. */
struct watcher {
    int (*accessed)(void *user, uint32_t address, uint32_t bytes, int writes);
    void *user;
    int stops;
};

struct engine_kind {
    const char *name;
    int has_virtual_time; /* counts what it executes, so that each run takes the same time as the last */
    uint32_t turn;        /* the milliseconds of a turn by default */
    /* Opens the engine over this memory, which does not move until the engine is closed. A program runs for at most a turn of some milliseconds
     * at a time. */
    struct engine *(*open)(const struct memory *memory, uint32_t turn);
    void (*close)(struct engine *engine);
    /* No program runs any more: spaces are only freed from now on. NULL if that changes nothing. */
    void (*end)(struct engine *engine);
    /* Makes an empty space, in which gs:[0] is the word at gs_base. */
    struct engine_space *(*new_space)(struct engine *engine, uint32_t gs_base);
    void (*free_space)(struct engine *engine, struct engine_space *space);
    /* Maps a frame at a page that is not mapped. Rights with w or x must include r. */
    void (*map)(struct engine *engine, struct engine_space *space, uint32_t page, uint32_t frame, uint32_t rights);
    /* Unmaps a page that is mapped. */
    void (*unmap)(struct engine *engine, struct engine_space *space, uint32_t page);
    /* Runs from these registers until something stops the program, and writes the registers back. `floats` may stay in the engine until
     * other registers run. */
    void (*run)(struct engine *engine, struct engine_space *space, struct registers *registers, struct stop *stop);
    /* The thread with these registers no longer exists. */
    void (*forget)(struct engine *engine, struct engine_space *space, const struct registers *registers);
    /* Sets or removes a breakpoint, at which programs stop before its instruction. NULL if the engine has none. */
    void (*set_break)(struct engine *engine, struct engine_space *space, uint32_t address, int is_set);
    /* Sets the watcher of all accesses, before the first space is made. NULL if the engine has none. */
    void (*watch)(struct engine *engine, const struct watcher *watcher);
    /* Writes the floats that are still in the engine to the registers that they belong to. NULL if the engine has no watcher. */
    void (*keep)(struct engine *engine, struct engine_space *space);
};

extern const struct engine_kind engine_kvm;
extern const struct engine_kind engine_ptrace;
extern const struct engine_kind engine_unicorn;

#endif
