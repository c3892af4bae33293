/* Which engines work on this machine: each runs one instruction in a process of its own, so that a failure ends only that process. */
#define _GNU_SOURCE
#include "bed.h"
#include "check.h"
#include <stdio.h>
#include <stdlib.h>
#include <string.h>
#include <sys/mman.h>
#include <sys/wait.h>
#include <unistd.h>

static const struct engine_kind *const kinds[] = {
#ifdef HAVE_UNICORN
    &engine_unicorn,
#endif
#ifdef HAVE_NATIVE
    &engine_ptrace,
    &engine_kvm,
#endif
};
#define KINDS (sizeof kinds / sizeof *kinds)

static const char *const names[] = {"unicorn", "ptrace", "kvm"};
#define NAMES (sizeof names / sizeof *names)

static const struct engine_kind *built(const char *name) {
    size_t k;
    for (k = 0; k < KINDS; k++) {
        if (strcmp(kinds[k]->name, name) == 0)
            return kinds[k];
    }
    return NULL;
}

static const char *why_not_built(const char *name) {
    return strcmp(name, "unicorn") == 0 ? "l4_bed was built without libunicorn" : "l4_bed was not built for Linux on x86-64";
}

const struct engine_kind *engine_named(const char *name) {
    const struct engine_kind *kind;
    size_t k;
    if (name == NULL && KINDS == 0)
        fail(STATUS_HOST, "no engine was built: unicorn needs libunicorn, and ptrace and kvm need Linux on x86-64");
    if (name == NULL)
        return kinds[0];
    kind = built(name);
    for (k = 0; kind == NULL && k < NAMES; k++) {
        if (strcmp(names[k], name) == 0)
            fail(STATUS_HOST, "--engine %s: %s", name, why_not_built(name));
    }
    if (kind == NULL)
        fail(STATUS_INPUT, "--engine: %s is not unicorn, ptrace or kvm", name);
    return kind;
}

#define CODE_PAGE 0x400u
#define PROBE_TURN 20u
#define FLOAT_BYTES_OF_CODE 2u

/* Exit statuses of the process, beside those of a failure. */
enum { RUNS_NOTHING = 0, RUNS_WITHOUT_FLOATS = 10, RUNS = 11 };

static void reset(struct registers *registers) {
    static const unsigned char control[2] = {0x7f, 0x03}, sse_control[2] = {0x80, 0x1f};
    memset(registers, 0, sizeof *registers);
    memcpy(registers->floats, control, sizeof control);
    memcpy(registers->floats + 24, sse_control, sizeof sse_control);
    registers->eflags = FIXED_FLAGS;
    registers->eip = CODE_PAGE * PAGE_BYTES;
}

/* Runs `fld1; ud2` in a page of its own. */
static int runs(const struct engine_kind *kind) {
    static const unsigned char code[] = {0xd9, 0xe8, 0x0f, 0x0b};
    struct memory memory = {NULL, 1, memfd_create("probe", MFD_CLOEXEC)};
    struct registers registers;
    struct stop stop;
    struct engine *engine;
    struct engine_space *space;
    check_system(ftruncate(memory.file, PAGE_BYTES), "ftruncate of a frame");
    memory.bytes = mmap(NULL, PAGE_BYTES, PROT_READ | PROT_WRITE, MAP_SHARED, memory.file, 0);
    check_holds(memory.bytes != MAP_FAILED, "there is not enough memory");
    memcpy(memory.bytes, code, sizeof code);
    reset(&registers);
    engine = kind->open(&memory, PROBE_TURN);
    space = kind->new_space(engine, CODE_PAGE * PAGE_BYTES);
    kind->map(engine, space, CODE_PAGE, 0, L4_READ | L4_EXECUTE);
    kind->run(engine, space, &registers, &stop);
    kind->free_space(engine, space);
    kind->close(engine);
    if (stop.kind != STOP_BY_TRAP)
        return RUNS_NOTHING;
    return registers.eip == CODE_PAGE * PAGE_BYTES + FLOAT_BYTES_OF_CODE ? RUNS : RUNS_WITHOUT_FLOATS;
}

static void probe_in_process(const struct engine_kind *kind, int output) {
    int result;
    check_system(dup2(output, STDERR_FILENO), "dup2");
    result = runs(kind);
    if (result == RUNS_NOTHING)
        fail(STATUS_HOST, "the engine does not stop at an invalid instruction");
    _exit(result);
}

/* Writes what the engine said, without `l4_bed: ` and the end of the line. */
static void print_reason(int input) {
    char text[400];
    ssize_t length = read(input, text, sizeof text - 1);
    const char *reason = text;
    text[length < 0 ? 0 : length] = 0;
    text[strcspn(text, "\n")] = 0;
    if (strncmp(reason, "l4_bed: ", 8) == 0)
        reason += 8;
    printf("does not work: %s\n", *reason == 0 ? "it gives no reason" : reason);
}

static void probe(const struct engine_kind *kind) {
    int ends[2], status;
    pid_t child;
    check_output();
    check_system(pipe(ends), "pipe");
    child = fork();
    check_system(child, "fork");
    if (child == 0)
        probe_in_process(kind, ends[1]);
    close(ends[1]);
    check_system(waitpid(child, &status, 0), "waitpid");
    if (WIFEXITED(status) && WEXITSTATUS(status) == RUNS)
        printf("works\n");
    else if (WIFEXITED(status) && WEXITSTATUS(status) == RUNS_WITHOUT_FLOATS)
        printf("works without floats\n");
    else
        print_reason(ends[0]);
    close(ends[0]);
}

void probe_engines(void) {
    size_t k;
    for (k = 0; k < NAMES; k++) {
        const struct engine_kind *kind = built(names[k]);
        printf("%-8s ", names[k]);
        if (kind == NULL)
            printf("does not work: %s\n", why_not_built(names[k]));
        else
            probe(kind);
    }
}
