/* KVM: one virtual processor runs all threads. An exception enters the shim in ring 0, whose handler leaves to the bed by an `out` to the
 * port of the exception's number. The bed writes entries of page tables that the processor has not seen. All others are changed by the shim,
 * because a KVM that keeps shadow tables does not notice other writes. */
#define _GNU_SOURCE
#include "check.h"
#include "engine.h"
#include "tables.h"
#include <errno.h>
#include <fcntl.h>
#include <l4.h>
#include <linux/kvm.h>
#include <signal.h>
#include <stdlib.h>
#include <string.h>
#include <sys/ioctl.h>
#include <sys/mman.h>
#include <sys/time.h>
#include <time.h>
#include <unistd.h>

#define VECTORS 256
#define HANDLER_BYTES 16

/* A turn is looked at this often. */
#define TICKS_OF_TURN 4

/* Physical memory: the system memory, and then the frames. */
#define FRAMES_START SYSTEM_BYTES

/* What the shim does before a program runs: the word at `place` becomes `entry`, and the processor forgets the page at `address`. */
struct change {
    uint64_t place;
    uint64_t entry;
    uint64_t address;
};
#define MAX_CHANGES ((FIRST_TABLE - CHANGES) / sizeof(struct change))

struct engine_space {
    uint32_t root;
    uint32_t gs_base;
};

struct engine {
    int kvm, machine, processor;
    struct kvm_run *run;
    size_t run_bytes;
    struct tables tables;
    uint32_t change_count;
    uint32_t changed_root;          /* all changes are for the space with this root, so the shim makes them there */
    struct registers *float_owner; /* the registers whose floats are in the processor, or NULL */
    int has_ended;
};

/* The code of the shim: makes rcx changes from rsi on, and leaves to the port of the last vector, which no exception has. */
static const unsigned char change_code[] = {
    0x48, 0x8b, 0x06,       /* again: mov rax, [rsi]      the place */
    0x48, 0x8b, 0x56, 0x08, /* mov rdx, [rsi + 8]         the entry */
    0x48, 0x89, 0x10,       /* mov [rax], rdx */
    0x48, 0x8b, 0x56, 0x10, /* mov rdx, [rsi + 16]        the address */
    0x0f, 0x01, 0x3a,       /* invlpg [rdx] */
    0x48, 0x83, 0xc6, 0x18, /* add rsi, 24 */
    0x48, 0xff, 0xc9,       /* dec rcx */
    0x75, 0xe6,             /* jnz again */
    0xe6, VECTORS - 1       /* out */
};

static struct kvm_run *interrupted_run;

/* The end of the program's turn by the clock of the bed's own time on the processor, or 0 before the first tick. */
static volatile uint64_t turn_end;
static uint64_t turn_nanoseconds;
static volatile sig_atomic_t turn_is_over;

static void on_alarm(int number) {
    struct timespec time;
    uint64_t now;
    (void)number;
    if (interrupted_run == NULL || clock_gettime(CLOCK_PROCESS_CPUTIME_ID, &time) < 0)
        return;
    now = (uint64_t)time.tv_sec * 1000000000 + (uint64_t)time.tv_nsec;
    if (turn_end == 0)
        turn_end = now + turn_nanoseconds;
    turn_is_over = now >= turn_end;
    if (turn_is_over)
        interrupted_run->immediate_exit = 1;
}

static void set_alarm(uint32_t microseconds) {
    struct itimerval interval;
    interval.it_interval.tv_sec = microseconds / 1000000;
    interval.it_interval.tv_usec = microseconds % 1000000;
    interval.it_value = interval.it_interval;
    check_system(setitimer(ITIMER_REAL, &interval, NULL), "setitimer");
}

/* With SA_RESTART a run of the processor ends all the same, and output is written whole. */
static void begin_alarms(struct kvm_run *run, uint32_t turn) {
    struct sigaction action;
    memset(&action, 0, sizeof action);
    action.sa_handler = on_alarm;
    action.sa_flags = SA_RESTART;
    interrupted_run = run;
    check_system(sigaction(SIGALRM, &action, NULL), "sigaction");
    turn_nanoseconds = (uint64_t)turn * 1000000;
    set_alarm(turn * 1000 / TICKS_OF_TURN);
}

/* Programs may raise BREAKPOINT and OVERFLOW by instructions; the gates of all other vectors are closed to ring 3. */
static void write_handlers(struct engine *engine) {
    uint32_t vector;
    for (vector = 0; vector < VECTORS; vector++) {
        uint64_t kind = vector == BREAKPOINT || vector == OVERFLOW ? 0xee : 0x8e;
        uint64_t target = SHIM + HANDLERS + vector * HANDLER_BYTES;
        uint64_t *gate = tables_words(&engine->tables, IDT + vector * 16);
        unsigned char *code = engine->tables.system + HANDLERS + vector * HANDLER_BYTES;
        gate[0] = (target & 0xffff) | (uint64_t)SYSTEM_CODE << 16 | kind << 40 | (target >> 16 & 0xffff) << 48;
        gate[1] = target >> 32;
        code[0] = 0xe6; /* out vector, al */
        code[1] = (unsigned char)vector;
    }
}

static void write_shim(struct engine *engine) {
    uint64_t stack = SHIM + STACK_END;
    uint16_t no_ports = TSS_LIMIT + 1;
    memcpy(engine->tables.system + TSS + 4, &stack, sizeof stack);
    memcpy(engine->tables.system + TSS + 0x66, &no_ports, sizeof no_ports);
    memcpy(engine->tables.system + CODE, change_code, sizeof change_code);
    write_handlers(engine);
}

static void add_memory(struct engine *engine, uint32_t slot, uint64_t place, unsigned char *bytes, uint64_t length) {
    struct kvm_userspace_memory_region region;
    memset(&region, 0, sizeof region);
    region.slot = slot;
    region.guest_phys_addr = place;
    region.memory_size = length;
    region.userspace_addr = (uint64_t)(uintptr_t)bytes;
    check_system(ioctl(engine->machine, KVM_SET_USER_MEMORY_REGION, &region), "KVM_SET_USER_MEMORY_REGION");
}

#define MAX_IDENTITIES 256
static void set_identity(struct engine *engine) {
    struct kvm_cpuid2 *identity = calloc(1, sizeof *identity + MAX_IDENTITIES * sizeof(struct kvm_cpuid_entry2));
    check_holds(identity != NULL, "there is not enough memory for the identity of the processor");
    identity->nent = MAX_IDENTITIES;
    check_system(ioctl(engine->kvm, KVM_GET_SUPPORTED_CPUID, identity), "KVM_GET_SUPPORTED_CPUID");
    check_system(ioctl(engine->processor, KVM_SET_CPUID2, identity), "KVM_SET_CPUID2");
    free(identity);
}

static struct kvm_segment segment(uint16_t selector, uint8_t type, uint8_t ring, int is_long) {
    struct kvm_segment made;
    memset(&made, 0, sizeof made);
    made.limit = 0xffffffff;
    made.selector = selector;
    made.type = type;
    made.present = 1;
    made.dpl = ring;
    made.db = !is_long;
    made.l = (uint8_t)is_long;
    made.s = 1;
    made.g = 1;
    return made;
}

static void set_processor(struct engine *engine) {
    struct kvm_sregs *special = &engine->run->s.regs.sregs;
    check_system(ioctl(engine->processor, KVM_GET_SREGS, special), "KVM_GET_SREGS");
    special->tr = segment(TASK, 11, 0, 0);
    special->tr.s = special->tr.g = special->tr.db = 0;
    special->tr.base = SHIM + TSS;
    special->tr.limit = TSS_LIMIT;
    special->ldt.present = 0;
    special->ldt.unusable = 1;
    special->gdt.base = SHIM + GDT;
    special->gdt.limit = GDT_BYTES - 1;
    special->idt.base = SHIM + IDT;
    special->idt.limit = VECTORS * 16 - 1;
    special->cr0 = CONTROL_0;
    special->cr4 = CONTROL_4;
    special->efer = EXTENDED_FEATURES;
}

static void open_machine(struct engine *engine) {
    engine->kvm = open("/dev/kvm", O_RDWR | O_CLOEXEC);
    check_system(engine->kvm, "/dev/kvm");
    check_holds(ioctl(engine->kvm, KVM_CHECK_EXTENSION, KVM_CAP_SYNC_REGS) > 0, "this KVM lacks KVM_CAP_SYNC_REGS");
    engine->machine = ioctl(engine->kvm, KVM_CREATE_VM, 0);
    check_system(engine->machine, "KVM_CREATE_VM");
}

static void open_processor(struct engine *engine) {
    long bytes;
    engine->processor = ioctl(engine->machine, KVM_CREATE_VCPU, 0);
    check_system(engine->processor, "KVM_CREATE_VCPU");
    set_identity(engine);
    bytes = ioctl(engine->kvm, KVM_GET_VCPU_MMAP_SIZE, 0);
    check_system(bytes, "KVM_GET_VCPU_MMAP_SIZE");
    engine->run_bytes = (size_t)bytes;
    engine->run = mmap(NULL, engine->run_bytes, PROT_READ | PROT_WRITE, MAP_SHARED, engine->processor, 0);
    check_holds(engine->run != MAP_FAILED, "the registers of the processor cannot be mapped");
    set_processor(engine);
    engine->run->kvm_valid_regs = KVM_SYNC_X86_REGS | KVM_SYNC_X86_SREGS;
}

static struct engine *open_engine(const struct memory *memory, uint32_t turn) {
    struct engine *engine = calloc(1, sizeof *engine);
    check_holds(engine != NULL, "there is not enough memory for an engine");
    open_machine(engine);
    tables_open(&engine->tables, 0);
    write_shim(engine);
    add_memory(engine, 0, 0, engine->tables.system, SYSTEM_BYTES);
    add_memory(engine, 1, FRAMES_START, memory->bytes, (uint64_t)memory->frames * PAGE_BYTES);
    open_processor(engine);
    begin_alarms(engine->run, turn);
    return engine;
}

static void close_engine(struct engine *engine) {
    set_alarm(0);
    interrupted_run = NULL;
    munmap(engine->run, engine->run_bytes);
    close(engine->processor);
    close(engine->machine);
    close(engine->kvm);
    tables_close(&engine->tables);
    free(engine);
}

static void end_engine(struct engine *engine) {
    engine->has_ended = 1;
}

static struct engine_space *new_space(struct engine *engine, uint32_t gs_base) {
    struct engine_space *space = malloc(sizeof *space);
    check_holds(space != NULL, "there is not enough memory for a space");
    space->root = tables_new_tree(&engine->tables);
    space->gs_base = gs_base;
    return space;
}

/* Returns whether the processor is in a program, and no exception is pending, which the next program would get. */
static int is_in_program(struct engine *engine) {
    struct kvm_vcpu_events events;
    if ((engine->run->s.regs.sregs.cs.selector & 3) == 0)
        return 0;
    check_system(ioctl(engine->processor, KVM_GET_VCPU_EVENTS, &events), "KVM_GET_VCPU_EVENTS");
    return !events.exception.injected && !events.exception.pending;
}

/* Runs the processor until it leaves. Returns 0 if the timer stopped it. */
static int leave(struct engine *engine) {
    engine->run->kvm_dirty_regs = KVM_SYNC_X86_REGS | KVM_SYNC_X86_SREGS;
    while (ioctl(engine->processor, KVM_RUN, 0) < 0) {
        check_system(errno == EINTR || errno == EAGAIN ? 0 : -1, "KVM_RUN");
        engine->run->immediate_exit = 0;
        engine->run->kvm_dirty_regs = 0;
        if (turn_is_over && is_in_program(engine))
            return 0;
    }
    engine->run->kvm_dirty_regs = 0;
    check_holds(engine->run->exit_reason == KVM_EXIT_IO && engine->run->s.regs.sregs.cs.selector == SYSTEM_CODE, "the processor of KVM has stopped");
    return 1;
}

/* A program may have loaded every register, so every register is set. */
static void set_program(struct engine *engine, const struct engine_space *space, const struct registers *from) {
    struct kvm_regs *general = &engine->run->s.regs.regs;
    struct kvm_sregs *special = &engine->run->s.regs.sregs;
    struct kvm_segment data = segment(USER_DATA, 3, 3, 0);
    general->rax = from->eax, general->rbx = from->ebx, general->rcx = from->ecx, general->rdx = from->edx;
    general->rsi = from->esi, general->rdi = from->edi, general->rbp = from->ebp, general->rsp = from->esp;
    general->rip = from->eip, general->rflags = from->eflags;
    special->cr0 = from == engine->float_owner ? CONTROL_0 : CONTROL_0 | TASK_SWITCHED;
    special->cr3 = space->root;
    special->cs = segment(USER_CODE, 11, 3, 0);
    special->ss = special->ds = special->es = special->fs = special->gs = data;
    special->gs.selector = USER_GS;
    special->gs.base = space->gs_base;
}

/* Lets the shim make the changes. */
static void run_changes(struct engine *engine) {
    struct kvm_regs *general = &engine->run->s.regs.regs;
    struct kvm_sregs *special = &engine->run->s.regs.sregs;
    if (engine->change_count == 0)
        return;
    general->rip = SHIM + CODE, general->rsp = SHIM + STACK_END, general->rflags = 2;
    general->rcx = engine->change_count, general->rsi = SHIM + CHANGES;
    special->cr3 = engine->changed_root;
    special->cs = segment(SYSTEM_CODE, 11, 0, 1);
    special->ss = segment(SYSTEM_DATA, 3, 0, 0);
    check_holds(leave(engine) && engine->run->io.port == VECTORS - 1, "the shim has not come back");
    engine->change_count = 0;
}

static void add_change(struct engine *engine, const struct engine_space *space, const struct change *added) {
    struct change *changes = (struct change *)(void *)(engine->tables.system + CHANGES);
    if (engine->change_count == MAX_CHANGES || (engine->change_count > 0 && engine->changed_root != space->root))
        run_changes(engine);
    engine->changed_root = space->root;
    changes[engine->change_count++] = *added;
}

/* The bed writes entries without a page: the processor keeps nothing of those. */
static void change(struct engine *engine, const struct engine_space *space, uint32_t page, uint64_t entry) {
    const struct change *changes = (const struct change *)(const void *)(engine->tables.system + CHANGES);
    uint32_t place = tables_entry_place(&engine->tables, space->root, page), k;
    struct change added = {SHIM + place, entry, (uint64_t)page * PAGE_BYTES};
    int is_seen = (*tables_words(&engine->tables, place) & PRESENT) != 0;
    for (k = 0; k < engine->change_count && !is_seen; k++)
        is_seen = changes[k].place == added.place;
    if (is_seen)
        add_change(engine, space, &added);
    else
        *tables_words(&engine->tables, place) = entry;
}

static void map(struct engine *engine, struct engine_space *space, uint32_t page, uint32_t frame, uint32_t rights) {
    change(engine, space, page, tables_entry(FRAMES_START + (uint64_t)frame * PAGE_BYTES, rights));
}

static void unmap(struct engine *engine, struct engine_space *space, uint32_t page) {
    change(engine, space, page, 0);
}

/* The tree serves the next space: KVM may still have shadows of its tables, which agree with them once the shim has removed all pages. */
static void free_space(struct engine *engine, struct engine_space *space) {
    uint32_t page = engine->has_ended ? LAST_PAGE + 1 : tables_next_page(&engine->tables, space->root, 0);
    while (page <= LAST_PAGE) {
        unmap(engine, space, page);
        page = tables_next_page(&engine->tables, space->root, page + 1);
    }
    if (!engine->has_ended)
        run_changes(engine);
    tables_free_tree(&engine->tables, space->root);
    free(space);
}

static void keep_general(struct engine *engine, struct registers *to) {
    const struct kvm_regs *general = &engine->run->s.regs.regs;
    to->eax = (uint32_t)general->rax, to->ebx = (uint32_t)general->rbx, to->ecx = (uint32_t)general->rcx;
    to->edx = (uint32_t)general->rdx, to->esi = (uint32_t)general->rsi, to->edi = (uint32_t)general->rdi;
    to->ebp = (uint32_t)general->rbp;
}

/* The exceptions that push an error code before the frame. */
static int has_error(uint32_t vector) {
    return vector == 8 || (vector >= 10 && vector <= 14) || vector == 17 || vector == 21;
}

static void explain(struct engine *engine, struct stop *stop, uint32_t vector, uint64_t error) {
    stop->number = vector;
    stop->kind = vector == INVALID_OPCODE ? STOP_BY_TRAP : STOP_BY_EXCEPTION;
    if (vector != PAGE_FAULT)
        return;
    stop->kind = STOP_BY_FAULT;
    stop->address = (uint32_t)engine->run->s.regs.sregs.cr2;
    stop->access = error & FAULT_WRITE ? L4_WRITE : error & FAULT_FETCH ? L4_EXECUTE : L4_READ;
}

static void keep_registers(struct engine *engine, int is_in_shim, struct registers *registers, struct stop *stop) {
    const struct kvm_regs *general = &engine->run->s.regs.regs;
    keep_general(engine, registers);
    if (is_in_shim) {
        uint32_t vector = engine->run->io.port;
        const uint64_t *stack = tables_words(&engine->tables, (uint32_t)(general->rsp - SHIM));
        uint64_t error = has_error(vector) ? *stack++ : 0;
        registers->eip = (uint32_t)stack[0];
        registers->eflags = ((uint32_t)stack[2] & USER_FLAGS) | FIXED_FLAGS;
        registers->esp = (uint32_t)stack[3];
        explain(engine, stop, vector, error);
    } else {
        registers->eip = (uint32_t)general->rip;
        registers->eflags = ((uint32_t)general->rflags & USER_FLAGS) | FIXED_FLAGS;
        registers->esp = (uint32_t)general->rsp;
        stop->kind = STOP_BY_BUDGET;
    }
}

/* Offsets in the image of fxsave. */
enum { IMAGE_STATUS = 2, IMAGE_TAGS = 4, IMAGE_OPCODE = 6, IMAGE_IP = 8, IMAGE_DP = 16, IMAGE_SSE_CONTROL = 24, IMAGE_X87 = 32, IMAGE_SSE = 160 };

static void keep_floats(struct engine *engine) {
    struct kvm_fpu fpu;
    unsigned char *image = engine->float_owner->floats;
    check_system(ioctl(engine->processor, KVM_GET_FPU, &fpu), "KVM_GET_FPU");
    memcpy(image, &fpu.fcw, sizeof fpu.fcw);
    memcpy(image + IMAGE_STATUS, &fpu.fsw, sizeof fpu.fsw);
    image[IMAGE_TAGS] = fpu.ftwx;
    memcpy(image + IMAGE_OPCODE, &fpu.last_opcode, sizeof fpu.last_opcode);
    memcpy(image + IMAGE_IP, &fpu.last_ip, sizeof fpu.last_ip);
    memcpy(image + IMAGE_DP, &fpu.last_dp, sizeof fpu.last_dp);
    memcpy(image + IMAGE_SSE_CONTROL, &fpu.mxcsr, sizeof fpu.mxcsr);
    memcpy(image + IMAGE_X87, fpu.fpr, sizeof fpu.fpr);
    memcpy(image + IMAGE_SSE, fpu.xmm, sizeof fpu.xmm);
}

static void load_floats(struct engine *engine, const unsigned char *image) {
    struct kvm_fpu fpu;
    memset(&fpu, 0, sizeof fpu);
    memcpy(&fpu.fcw, image, sizeof fpu.fcw);
    memcpy(&fpu.fsw, image + IMAGE_STATUS, sizeof fpu.fsw);
    fpu.ftwx = image[IMAGE_TAGS];
    memcpy(&fpu.last_opcode, image + IMAGE_OPCODE, sizeof fpu.last_opcode);
    memcpy(&fpu.last_ip, image + IMAGE_IP, sizeof fpu.last_ip);
    memcpy(&fpu.last_dp, image + IMAGE_DP, sizeof fpu.last_dp);
    memcpy(&fpu.mxcsr, image + IMAGE_SSE_CONTROL, sizeof fpu.mxcsr);
    memcpy(fpu.fpr, image + IMAGE_X87, sizeof fpu.fpr);
    memcpy(fpu.xmm, image + IMAGE_SSE, sizeof fpu.xmm);
    check_system(ioctl(engine->processor, KVM_SET_FPU, &fpu), "KVM_SET_FPU");
}

/* Gives the processor's floats to the thread that has just used them. */
static void take_floats(struct engine *engine, struct registers *registers) {
    if (engine->float_owner != NULL)
        keep_floats(engine);
    load_floats(engine, registers->floats);
    engine->float_owner = registers;
}

static void run(struct engine *engine, struct engine_space *space, struct registers *registers, struct stop *stop) {
    int wants_floats = 1;
    run_changes(engine);
    turn_end = 0;
    turn_is_over = 0;
    while (wants_floats) {
        int is_in_shim;
        set_program(engine, space, registers);
        is_in_shim = leave(engine);
        keep_registers(engine, is_in_shim, registers, stop);
        wants_floats = stop->kind == STOP_BY_EXCEPTION && stop->number == NO_COPROCESSOR && engine->float_owner != registers;
        if (wants_floats)
            take_floats(engine, registers);
    }
}

static void forget(struct engine *engine, struct engine_space *space, const struct registers *registers) {
    (void)space;
    if (engine->float_owner == registers)
        engine->float_owner = NULL;
}

const struct engine_kind engine_kvm = {"kvm", 0, 50, open_engine, close_engine, end_engine, new_space, free_space, map, unmap, run, forget, NULL, NULL, NULL};
