/* ptrace: the host's processor executes the programs, and the host's page tables enforce the mappings. Each space is a process of its own,
 * the stub: a 64-bit process that has only two parts of its own, far above 4 GiB. Programs are 32-bit code in it (compatibility mode), which
 * can reach only what lies below 4 GiB. The host executes no system call of a program: PTRACE_SYSEMU stops at each. The stub itself calls
 * only mmap and munmap of the frames' file, when the bed tells it to. */
#define _GNU_SOURCE
#include "check.h"
#include "engine.h"
#include <l4.h>
#include <asm/ldt.h>
#include <elf.h>
#include <errno.h>
#include <fcntl.h>
#include <linux/audit.h>
#include <linux/filter.h>
#include <linux/seccomp.h>
#include <sched.h>
#include <signal.h>
#include <stdio.h>
#include <stdlib.h>
#include <string.h>
#include <sys/mman.h>
#include <sys/prctl.h>
#include <sys/ptrace.h>
#include <sys/resource.h>
#include <sys/syscall.h>
#include <sys/time.h>
#include <sys/uio.h>
#include <sys/user.h>
#include <sys/wait.h>
#include <time.h>
#include <ucontext.h>
#include <unistd.h>

/* The stub's parts: the file of its program, and behind it the calls that it has to make, and a stack for the host's signals. */
#define STUB (UINT64_C(1) << 44)
#define CALLS (STUB + PAGE_BYTES)
#define CALLS_BYTES UINT64_C(0x4000)
#define STACK (CALLS + CALLS_BYTES)
#define STACK_BYTES UINT64_C(0x4000)
#define STUB_END (STACK + STACK_BYTES)
#define PROCESS_END (UINT64_C(0x7ffffffff000))

/* Selectors that Linux has for all programs. The entry for gs is the first of those that a thread can set. */
enum { CODE_32 = 0x23, DATA = 0x2b, CODE_64 = 0x33, GS_ENTRY = 12, GS = GS_ENTRY << 3 | 3 };

#define INVALID_OPCODE 6
#define GENERAL_PROTECTION 13
#define PAGE_FAULT 14
enum { FAULT_WRITE = 2, FAULT_FETCH = 16, FAULT_KEY = 32 };

#define INT_BYTES 2
#define UNKNOWN UINT32_C(0xffffffff)

/* A turn is looked at this often. */
#define TICKS_OF_TURN 4

/* Stops of a stub that are not signals. */
enum { GONE = 0, SYSTEM_CALL = SIGTRAP | 0x80 };

/* A system call that the stub has to make. */
struct call {
    uint64_t number, words[6];
};
#define MAX_CALLS (CALLS_BYTES / sizeof(struct call))

struct engine {
    int frames;  /* the file of the frames */
    int program; /* the file of the stub's program */
    cpu_set_t processors;
};

struct engine_space {
    pid_t stub; /* 0 once it has ended */
    clockid_t clock;
    int frames;
    int is_lost; /* the stub has ended, or has not made its calls */
    int is_refused; /* it is lost because the host has refused a call */
    uint32_t gs_base;
    uint32_t sysenter_end; /* where Linux continues after a sysenter whose ebp is no readable address; 0 if the processor has no sysenter */
    struct registers *float_owner; /* the registers whose floats are in the stub, or NULL */
    uint32_t count;
    struct call calls[MAX_CALLS]; /* to be made before the next run */
};

/* The stub's program: makes rbp calls from rbx on. If the host refuses a call, it stops with that call and the rest still to be made. */
__asm__(".pushsection .rodata\n"
        "stub_start:  int3\n"
        "stub_next:   mov    (%rbx), %rax\n"
        "             mov    8(%rbx), %rdi\n"
        "             mov    16(%rbx), %rsi\n"
        "             mov    24(%rbx), %rdx\n"
        "             mov    32(%rbx), %r10\n"
        "             mov    40(%rbx), %r8\n"
        "             mov    48(%rbx), %r9\n"
        "             syscall\n"
        "stub_called: cmp    $-4096, %rax\n"
        "             ja     stub_start\n"
        "             add    $56, %rbx\n"
        "             dec    %rbp\n"
        "             jnz    stub_next\n"
        "             jmp    stub_start\n"
        "stub_enter:  sysenter\n"
        "stub_end:\n"
        ".popsection");
extern const unsigned char stub_start[], stub_next[], stub_called[], stub_enter[], stub_end[];

#define CODE_BYTES 128
#define FILTER_LENGTH 11
#define RESTORER 0x04000000 /* SA_RESTORER, which is not in the headers of the C library */

/* The file of the stub's program, which is mapped at STUB. */
struct program {
    Elf64_Ehdr header;
    Elf64_Phdr parts[3];
    struct {
        uint64_t handler, flags, restorer, mask;
    } action;
    struct sock_filter filter[FILTER_LENGTH];
    struct sock_fprog filter_place;
    unsigned char code[CODE_BYTES];
};

#define PLACE(member) (STUB + offsetof(struct program, member))

static uint64_t code_place(const unsigned char *label) {
    return PLACE(code) + (uint64_t)(label - stub_start);
}

static Elf64_Phdr part_of(uint32_t type, uint32_t flags, uint64_t address, uint64_t in_file, uint64_t bytes) {
    Elf64_Phdr part;
    memset(&part, 0, sizeof part);
    part.p_type = type;
    part.p_flags = flags;
    part.p_vaddr = part.p_paddr = address;
    part.p_filesz = in_file;
    part.p_memsz = bytes;
    part.p_align = PAGE_BYTES;
    return part;
}

static void make_header(struct program *program) {
    Elf64_Ehdr *header = &program->header;
    memcpy(header->e_ident, ELFMAG, SELFMAG);
    header->e_ident[EI_CLASS] = ELFCLASS64;
    header->e_ident[EI_DATA] = ELFDATA2LSB;
    header->e_ident[EI_VERSION] = EV_CURRENT;
    header->e_type = ET_EXEC;
    header->e_machine = EM_X86_64;
    header->e_version = EV_CURRENT;
    header->e_entry = code_place(stub_start);
    header->e_phoff = offsetof(struct program, parts);
    header->e_ehsize = sizeof *header;
    header->e_phentsize = sizeof *program->parts;
    header->e_phnum = sizeof program->parts / sizeof *program->parts;
    program->parts[0] = part_of(PT_LOAD, PF_R | PF_X, STUB, sizeof *program, sizeof *program);
    program->parts[1] = part_of(PT_LOAD, PF_R | PF_W, CALLS, 0, STUB_END - CALLS);
    program->parts[2] = part_of(PT_GNU_STACK, PF_R | PF_W, 0, 0, 0); /* without it, some hosts make every readable page executable */
}

/* The host kills a stub that makes any call but mmap and munmap, or makes one from other code than its own. */
static void make_filter(struct program *program) {
    const uint64_t place = code_place(stub_called);
    const struct sock_filter filter[FILTER_LENGTH] = {
        BPF_STMT(BPF_LD | BPF_W | BPF_ABS, offsetof(struct seccomp_data, arch)),
        BPF_JUMP(BPF_JMP | BPF_JEQ | BPF_K, AUDIT_ARCH_X86_64, 0, 7),
        BPF_STMT(BPF_LD | BPF_W | BPF_ABS, offsetof(struct seccomp_data, instruction_pointer)),
        BPF_JUMP(BPF_JMP | BPF_JEQ | BPF_K, (uint32_t)place, 0, 5),
        BPF_STMT(BPF_LD | BPF_W | BPF_ABS, offsetof(struct seccomp_data, instruction_pointer) + 4),
        BPF_JUMP(BPF_JMP | BPF_JEQ | BPF_K, (uint32_t)(place >> 32), 0, 3),
        BPF_STMT(BPF_LD | BPF_W | BPF_ABS, offsetof(struct seccomp_data, nr)),
        BPF_JUMP(BPF_JMP | BPF_JEQ | BPF_K, SYS_mmap, 2, 0),
        BPF_JUMP(BPF_JMP | BPF_JEQ | BPF_K, SYS_munmap, 1, 0),
        BPF_STMT(BPF_RET | BPF_K, SECCOMP_RET_KILL_PROCESS),
        BPF_STMT(BPF_RET | BPF_K, SECCOMP_RET_ALLOW)};
    memcpy(program->filter, filter, sizeof filter);
    program->filter_place.len = FILTER_LENGTH;
    program->filter_place.filter = (struct sock_filter *)(uintptr_t)PLACE(filter);
}

static int new_file(const char *name, const void *bytes, size_t length) {
    int file = memfd_create(name, MFD_CLOEXEC);
    check_system(file, "memfd_create");
    check_system(ftruncate(file, (off_t)length), "ftruncate of a file in memory");
    check_holds(pwrite(file, bytes, length, 0) == (ssize_t)length, "a file in memory cannot be written");
    return file;
}

static int new_program(void) {
    struct program program;
    memset(&program, 0, sizeof program);
    check_holds((size_t)(stub_end - stub_start) <= sizeof program.code, "the code of the stub is too long");
    make_header(&program);
    make_filter(&program);
    program.action.handler = program.action.restorer = code_place(stub_start);
    program.action.flags = SA_NODEFER | SA_SIGINFO | RESTORER;
    memcpy(program.code, stub_start, (size_t)(stub_end - stub_start));
    return new_file("stub", &program, sizeof program);
}

/* The stub in which a program runs, or 0; its clock, which counts the processor's time; and the end of its turn by this clock, or 0 before the
 * first tick. */
static volatile pid_t running;
static volatile clockid_t running_clock;
static volatile uint64_t turn_end;
static uint64_t turn_nanoseconds;

static void on_alarm(int number) {
    struct timespec time;
    int error = errno;
    (void)number;
    if (running != 0 && clock_gettime(running_clock, &time) == 0) {
        uint64_t now = (uint64_t)time.tv_sec * 1000000000 + (uint64_t)time.tv_nsec;
        if (turn_end == 0)
            turn_end = now + turn_nanoseconds;
        else if (now >= turn_end)
            ptrace(PTRACE_INTERRUPT, running, 0, 0);
    }
    errno = error;
}

static void set_alarm(uint32_t microseconds) {
    struct itimerval interval;
    interval.it_interval.tv_sec = microseconds / 1000000;
    interval.it_interval.tv_usec = microseconds % 1000000;
    interval.it_value = interval.it_interval;
    check_system(setitimer(ITIMER_REAL, &interval, NULL), "setitimer");
}

static void begin_alarms(uint32_t turn) {
    struct sigaction action;
    memset(&action, 0, sizeof action);
    action.sa_handler = on_alarm;
    action.sa_flags = SA_RESTART;
    check_system(sigaction(SIGALRM, &action, NULL), "sigaction");
    turn_nanoseconds = (uint64_t)turn * 1000000;
    set_alarm(turn * 1000 / TICKS_OF_TURN);
}

/* The bed and the stubs take turns. A change of processor at each turn would cost up to three times as much. */
static void stay_on_processor(struct engine *engine) {
    cpu_set_t one;
    int processor = sched_getcpu();
    check_system(processor, "sched_getcpu");
    CPU_ZERO(&one);
    CPU_SET((size_t)processor, &one);
    check_system(sched_getaffinity(0, sizeof engine->processors, &engine->processors), "sched_getaffinity");
    check_system(sched_setaffinity(0, sizeof one, &one), "sched_setaffinity");
}

static struct engine *open_engine(const struct memory *memory, uint32_t turn) {
    struct engine *engine = calloc(1, sizeof *engine);
    check_holds(engine != NULL, "there is not enough memory for an engine");
    engine->frames = memory->file;
    engine->program = new_program();
    stay_on_processor(engine);
    begin_alarms(turn);
    return engine;
}

static void close_engine(struct engine *engine) {
    set_alarm(0);
    close(engine->program);
    sched_setaffinity(0, sizeof engine->processors, &engine->processors);
    free(engine);
}

/* The bed continues without the space: its threads raise an exception when they run. */
static void lose(struct engine_space *space, const char *why) {
    if (!space->is_lost)
        note("a space can no longer run: %s", why);
    space->is_lost = 1;
}

/* As above, but its threads are stopped as those of a space that the host does not serve. */
static void lose_by_host(struct engine_space *space, int error) {
    char why[160];
    snprintf(why, sizeof why, "the host refuses to map a page (vm.mmap_min_addr or vm.max_map_count may be the reason): %s", strerror(error));
    lose(space, why);
    space->is_refused = 1;
}

/* Waits for the next stop of the stub, and returns it. */
static int wait_for(struct engine_space *space) {
    int status;
    while (waitpid(space->stub, &status, __WALL) < 0)
        check_system(errno == EINTR ? 0 : -1, "waitpid");
    if (WIFSTOPPED(status))
        return status >> 8;
    space->stub = 0;
    return GONE;
}

/* A stub that has just ended is not an error here: the wait for its next stop reports it. */
static void check_traced(long answer, const char *what) {
    check_system(answer < 0 && errno != ESRCH ? -1 : 0, what);
}

static int resume(struct engine_space *space, enum __ptrace_request how, int signal) {
    check_traced(ptrace(how, space->stub, 0, signal), "PTRACE_CONT");
    return wait_for(space);
}

/* An interruption that comes too late for a program must not count for the stub. */
static int resume_stub(struct engine_space *space, enum __ptrace_request how, int signal) {
    int stop = resume(space, how, signal);
    while (stop >> 8 == PTRACE_EVENT_STOP)
        stop = resume(space, how, 0);
    return stop;
}

static void set_registers(struct engine_space *space, struct user_regs_struct *all) {
    check_traced(ptrace(PTRACE_SETREGS, space->stub, 0, all), "PTRACE_SETREGS");
}

/* Returns 0 if the stub has ended. */
static int get_registers(struct engine_space *space, struct user_regs_struct *all) {
    long answer = ptrace(PTRACE_GETREGS, space->stub, 0, all);
    check_traced(answer, "PTRACE_GETREGS");
    return answer >= 0;
}

/* The stub's own registers, whatever a program has left in them. */
static struct user_regs_struct stub_registers(const unsigned char *label) {
    struct user_regs_struct all;
    memset(&all, 0, sizeof all);
    all.rip = code_place(label);
    all.rsp = STUB_END;
    all.eflags = FIXED_FLAGS;
    all.cs = CODE_64;
    all.ss = DATA;
    all.orig_rax = UINT64_MAX;
    return all;
}

/* The image of fxsave is what Linux calls the floating point registers. */
static void keep_floats(struct engine_space *space) {
    if (space->float_owner != NULL)
        check_traced(ptrace(PTRACE_GETFPREGS, space->stub, 0, space->float_owner->floats), "PTRACE_GETFPREGS");
    space->float_owner = NULL;
}

static void load_floats(struct engine_space *space, struct registers *registers) {
    if (space->float_owner == registers)
        return;
    keep_floats(space);
    check_traced(ptrace(PTRACE_SETFPREGS, space->stub, 0, registers->floats), "PTRACE_SETFPREGS");
    space->float_owner = registers;
}

static int is_written(struct engine_space *space) {
    struct iovec here = {space->calls, space->count * sizeof *space->calls}, there = {(void *)(uintptr_t)CALLS, here.iov_len};
    return process_vm_writev(space->stub, &here, 1, &there, 1, 0) == (ssize_t)here.iov_len;
}

static void make_calls(struct engine_space *space) {
    struct user_regs_struct all = stub_registers(stub_next);
    if (space->count == 0 || space->is_lost)
        return;
    all.rbx = CALLS;
    all.rbp = space->count;
    set_registers(space, &all);
    if (!is_written(space) || resume_stub(space, PTRACE_CONT, 0) != SIGTRAP || !get_registers(space, &all))
        lose(space, "its process does not make its system calls");
    else if (all.rbp != 0)
        lose_by_host(space, (int)-(long)all.rax);
    space->count = 0;
}

static struct call *add_call(struct engine_space *space, long number) {
    struct call *added;
    if (space->count == MAX_CALLS)
        make_calls(space);
    if (space->is_lost) /* such a space makes no calls */
        space->count = 0;
    added = &space->calls[space->count++];
    memset(added, 0, sizeof *added);
    added->number = (uint64_t)number;
    return added;
}

static void add_munmap(struct engine_space *space, uint64_t begin, uint64_t end) {
    struct call *added = add_call(space, SYS_munmap);
    added->words[0] = begin;
    added->words[1] = end - begin;
}

/* The child process becomes the stub once the bed traces it. It keeps no file but that of the frames, leaves the terminal's session, and ends
 * with the bed. */
static void become_stub(const struct engine *engine, int gate) {
    static const struct rlimit no_dump = {0, 0};
    static char name[] = "stub", *words[2] = {name, NULL};
    char byte;
    int is_traced = read(gate, &byte, 1) == 1;
    if (is_traced && setsid() >= 0 && setrlimit(RLIMIT_CORE, &no_dump) >= 0 && prctl(PR_SET_PDEATHSIG, SIGKILL) >= 0
        && prctl(PR_SET_NO_NEW_PRIVS, 1, 0, 0, 0) >= 0 && close_range(0, ~0u, CLOSE_RANGE_CLOEXEC) >= 0
        && fcntl(engine->frames, F_SETFD, 0) >= 0)
        execveat(engine->program, "", words, words + 1, AT_EMPTY_PATH);
    _exit(1);
}

static pid_t new_stub(struct engine *engine) {
    int gate[2];
    pid_t stub;
    check_system(pipe(gate), "pipe");
    stub = fork();
    check_system(stub, "fork");
    if (stub == 0) {
        close(gate[1]);
        become_stub(engine, gate[0]);
    }
    check_system(ptrace(PTRACE_SEIZE, stub, 0, PTRACE_O_EXITKILL | PTRACE_O_TRACESYSGOOD), "PTRACE_SEIZE");
    check_system(write(gate[1], "", 1), "write");
    close(gate[0]);
    close(gate[1]);
    return stub;
}

static void set_gs(struct engine_space *space) {
    struct user_desc entry;
    memset(&entry, 0, sizeof entry);
    entry.entry_number = GS_ENTRY;
    entry.base_addr = space->gs_base;
    entry.limit = 0xfffff;
    entry.seg_32bit = entry.limit_in_pages = entry.useable = 1;
    check_system(ptrace(PTRACE_SET_THREAD_AREA, space->stub, GS_ENTRY, &entry), "PTRACE_SET_THREAD_AREA");
}

/* Sets handlers for the signals of exceptions, unmaps all but the stub's parts, and then forbids all other calls. */
static void prepare(struct engine_space *space) {
    static const int signals[] = {SIGSEGV, SIGBUS, SIGFPE, SIGTRAP};
    struct call *added;
    size_t k;
    for (k = 0; k < sizeof signals / sizeof *signals; k++) {
        added = add_call(space, SYS_rt_sigaction);
        added->words[0] = (uint64_t)signals[k];
        added->words[1] = PLACE(action);
        added->words[3] = sizeof(uint64_t);
    }
    add_munmap(space, 0, STUB);
    add_munmap(space, STUB_END, PROCESS_END);
    added = add_call(space, SYS_seccomp);
    added->words[0] = SECCOMP_SET_MODE_FILTER;
    added->words[2] = PLACE(filter_place);
    make_calls(space);
}

/* After such a sysenter Linux continues in 32-bit code, at the low half of an address in a page that it maps for programs. The address differs
 * from process to process, and the page is no longer mapped. */
static void find_sysenter_end(struct engine_space *space) {
    struct user_regs_struct all = stub_registers(stub_enter);
    set_registers(space, &all);
    if (resume_stub(space, PTRACE_SYSEMU, 0) == SIGSEGV && get_registers(space, &all) && all.cs == CODE_32)
        space->sysenter_end = (uint32_t)all.rip;
}

static struct engine_space *new_space(struct engine *engine, uint32_t gs_base) {
    struct engine_space *space = calloc(1, sizeof *space);
    check_holds(space != NULL, "there is not enough memory for a space");
    space->frames = engine->frames;
    space->gs_base = gs_base;
    space->stub = new_stub(engine);
    check_holds(wait_for(space) == SIGTRAP, "the process of a space does not begin (can this machine run 32-bit code?)");
    check_holds(clock_getcpuclockid(space->stub, &space->clock) == 0, "the process of a space has no clock");
    set_gs(space);
    prepare(space);
    find_sysenter_end(space);
    check_holds(!space->is_lost, "the process of a space does not begin (can this machine run 32-bit code?)");
    return space;
}

static void free_space(struct engine *engine, struct engine_space *space) {
    (void)engine;
    if (space->stub != 0) {
        kill(space->stub, SIGKILL);
        while (wait_for(space) != GONE)
            continue;
    }
    free(space);
}

static void map(struct engine *engine, struct engine_space *space, uint32_t page, uint32_t frame, uint32_t rights) {
    struct call *added = add_call(space, SYS_mmap);
    (void)engine;
    added->words[0] = (uint64_t)page * PAGE_BYTES;
    added->words[1] = PAGE_BYTES;
    added->words[2] = (rights & L4_READ ? PROT_READ : 0u) | (rights & L4_WRITE ? PROT_WRITE : 0u) | (rights & L4_EXECUTE ? PROT_EXEC : 0u);
    added->words[3] = MAP_SHARED | MAP_FIXED;
    added->words[4] = (uint64_t)space->frames;
    added->words[5] = (uint64_t)frame * PAGE_BYTES;
}

static void unmap(struct engine *engine, struct engine_space *space, uint32_t page) {
    (void)engine;
    add_munmap(space, (uint64_t)page * PAGE_BYTES, ((uint64_t)page + 1) * PAGE_BYTES);
}

/* A program may have loaded every register, so every register is set. */
static void set_program(struct engine_space *space, const struct registers *from) {
    struct user_regs_struct all;
    memset(&all, 0, sizeof all);
    all.rax = from->eax, all.rbx = from->ebx, all.rcx = from->ecx, all.rdx = from->edx;
    all.rsi = from->esi, all.rdi = from->edi, all.rbp = from->ebp, all.rsp = from->esp;
    all.rip = from->eip, all.eflags = from->eflags;
    all.orig_rax = UINT64_MAX; /* there is no system call to restart */
    all.cs = CODE_32;
    all.ss = all.ds = all.es = all.fs = DATA;
    all.gs = GS;
    all.gs_base = space->gs_base;
    set_registers(space, &all);
}

static void keep_registers(struct registers *to, const struct user_regs_struct *all) {
    to->eax = (uint32_t)all->rax, to->ebx = (uint32_t)all->rbx, to->ecx = (uint32_t)all->rcx, to->edx = (uint32_t)all->rdx;
    to->esi = (uint32_t)all->rsi, to->edi = (uint32_t)all->rdi, to->ebp = (uint32_t)all->rbp, to->esp = (uint32_t)all->rsp;
    to->eip = (uint32_t)all->rip;
    to->eflags = ((uint32_t)all->eflags & USER_FLAGS) | FIXED_FLAGS;
}

static void set_exception(struct stop *stop, uint32_t number) {
    stop->kind = number == INVALID_OPCODE ? STOP_BY_TRAP : STOP_BY_EXCEPTION;
    stop->number = number;
}

/* sysenter keeps neither eip nor esp. Linux takes ebp as its esp, and a word of the stack as its ebp. */
static void take_sysenter(struct registers *registers, struct stop *stop) {
    registers->ebp = registers->esp;
    registers->eip = registers->esp = UNKNOWN;
    set_exception(stop, GENERAL_PROTECTION);
}

/* int 0x80 keeps all registers; Linux has eax in orig_rax. After a sysenter, eip is above 4 GiB here. */
static void take_system_call(struct registers *registers, const struct user_regs_struct *all, struct stop *stop) {
    registers->eax = (uint32_t)all->orig_rax;
    registers->eip -= INT_BYTES;
    set_exception(stop, GENERAL_PROTECTION);
    if (all->rip >> 32 != 0)
        take_sysenter(registers, stop);
}

/* What the processor reported of an exception is on the stack that Linux prepares for a signal's handler. So the signal is delivered on the
 * stub's stack, and the stub stops before the handler's first instruction. Linux resets the floats for the handler, so they are kept first.
 * Returns 0 if that fails. */
static int read_exception(struct engine_space *space, int signal, greg_t *words) {
    struct user_regs_struct all = stub_registers(stub_start);
    struct iovec here = {words, NGREG * sizeof *words}, there = {NULL, NGREG * sizeof *words};
    keep_floats(space);
    set_registers(space, &all);
    if (resume_stub(space, PTRACE_SINGLESTEP, signal) != SIGTRAP || !get_registers(space, &all))
        return 0;
    there.iov_base = (void *)(uintptr_t)(all.rdx + offsetof(ucontext_t, uc_mcontext.gregs));
    return process_vm_readv(space->stub, &here, 1, &there, 1, 0) == (ssize_t)here.iov_len;
}

static void explain(struct engine_space *space, struct registers *registers, struct stop *stop, int signal) {
    greg_t words[NGREG];
    if (!read_exception(space, signal, words)) {
        lose(space, "its process does not report an exception");
        return;
    }
    set_exception(stop, (uint32_t)words[REG_TRAPNO]);
    if (words[REG_TRAPNO] != PAGE_FAULT)
        return;
    check_holds(signal == SIGSEGV, "the host has no memory for a frame");
    if (words[REG_ERR] & FAULT_KEY) { /* the program has forbidden itself the access, by wrpkru */
        set_exception(stop, GENERAL_PROTECTION);
        return;
    }
    stop->kind = STOP_BY_FAULT;
    stop->address = (uint32_t)words[REG_CR2];
    stop->access = words[REG_ERR] & FAULT_WRITE ? L4_WRITE : words[REG_ERR] & FAULT_FETCH ? L4_EXECUTE : L4_READ;
    if (stop->access == L4_EXECUTE && stop->address == space->sysenter_end && registers->eax == (uint32_t)-EFAULT) {
        registers->eax = UNKNOWN;
        take_sysenter(registers, stop);
    }
}

static void take_stop(struct engine_space *space, struct registers *registers, struct stop *stop, int signal) {
    struct user_regs_struct all;
    if (signal == GONE || !get_registers(space, &all)) {
        lose(space, "its process has ended");
        return;
    }
    keep_registers(registers, &all);
    if (all.cs != CODE_32) { /* it changed to 64-bit code */
        set_exception(stop, GENERAL_PROTECTION);
        return;
    }
    switch (signal) {
    case SYSTEM_CALL: take_system_call(registers, &all, stop); break;
    case SIGILL: set_exception(stop, INVALID_OPCODE); break;
    case SIGSEGV:
    case SIGBUS:
    case SIGFPE:
    case SIGTRAP: explain(space, registers, stop, signal); break;
    default: stop->kind = STOP_BY_BUDGET; /* an interruption, or a signal from another process */
    }
}

static void run(struct engine *engine, struct engine_space *space, struct registers *registers, struct stop *stop) {
    (void)engine;
    make_calls(space);
    if (!space->is_lost) {
        int signal;
        load_floats(space, registers);
        set_program(space, registers);
        turn_end = 0;
        running_clock = space->clock;
        running = space->stub;
        signal = resume(space, PTRACE_SYSEMU, 0);
        running = 0;
        take_stop(space, registers, stop, signal);
    }
    if (space->is_refused)
        stop->kind = STOP_BY_HOST;
    else if (space->is_lost)
        set_exception(stop, GENERAL_PROTECTION);
}

static void forget(struct engine *engine, struct engine_space *space, const struct registers *registers) {
    (void)engine;
    if (space->float_owner == registers)
        space->float_owner = NULL;
}

const struct engine_kind engine_ptrace = {"ptrace", 0, 50, open_engine, close_engine, NULL, new_space, free_space, map, unmap, run, forget, NULL, NULL, NULL};
