#include "bed.h"
#include <string.h>

#define STUB_TRAP_BYTES 2
#define NO_CHANGE UINT32_C(0xffffffff)

/* These bits are 0 in local ids, and not all 0 in global ones. */
#define LOCAL_BITS UINT32_C(0x3f)

/* If the kernel refuses an Ipc, the program gets the ErrorCode of a message that is too long, in the send phase; or in the receive phase if the Ipc
 * has no other. */
#define REFUSED_MESSAGE 8u
#define RECEIVE_PHASE 1u

static void print_refused(struct bed *bed, struct thread *thread, uint32_t refusal) {
    char code[10], text[160];
    l4_refusal_code(refusal, code, sizeof code);
    l4_refusal_text(refusal, text, sizeof text);
    print_line(bed, "%u refused %s: %s", thread->number, code, text);
}

/* A local id is the address of a UTCB, and names a thread of the caller's space. Returns the global id; or the id itself if it is global, or names no
 * thread. */
uint32_t call_global_id(const struct bed *bed, const struct thread *caller, uint32_t id) {
    size_t k;
    if (id == L4_NILTHREAD || (id & LOCAL_BITS) != 0)
        return id;
    for (k = 0; k < L4_MAX_THREADS; k++) {
        const struct thread *named = &bed->threads[k];
        if (named->state != ABSENT && named->space == caller->space && named->utcb == id)
            return named->id;
    }
    return id;
}

static void take_ipc(struct bed *bed, struct thread *thread) {
    struct registers *registers = &thread->registers;
    l4_call call = kernel_call(L4_IPC);
    uint32_t words[L4_MAX_WORDS], refusal;
    memcpy(words, thread->utcb_words, sizeof words);
    words[0] = registers->esi;
    call.to = call_global_id(bed, thread, registers->eax);
    call.from = call_global_id(bed, thread, registers->edx);
    call.timeouts = registers->ecx;
    call.acceptor = thread->utcb_words[TCR_BUFFER_0];
    print_line(bed, "%u calls ipc %08x %08x %08x %08x", thread->number, call.to, call.from, call.timeouts, call.acceptor);
    timeouts_begin(bed, thread, &call);
    refusal = thread_enter(bed, thread, CALL_IPC, &call, words, L4_MAX_WORDS);
    if (refusal == L4_OK)
        return;
    timeouts_forget(thread);
    print_refused(bed, thread, refusal);
    thread->utcb_words[TCR_ERROR_CODE] = call.to == L4_NILTHREAD ? REFUSED_MESSAGE | RECEIVE_PHASE : REFUSED_MESSAGE;
    registers->esi = FAILED_TAG;
    registers->eax = L4_NILTHREAD;
    registers->ebx = thread->utcb_words[1];
    registers->ebp = thread->utcb_words[2];
}

static void take_unmap(struct bed *bed, struct thread *thread) {
    l4_call call = kernel_call(L4_UNMAP);
    uint32_t words[L4_MAX_WORDS], refusal;
    memcpy(words, thread->utcb_words, sizeof words);
    words[0] = thread->registers.esi;
    call.control = thread->registers.eax;
    print_line(bed, "%u calls unmap %08x", thread->number, call.control);
    refusal = thread_enter(bed, thread, CALL_UNMAP, &call, words, L4_MAX_WORDS);
    if (refusal != L4_OK)
        print_refused(bed, thread, refusal);
}

static void end_control(struct thread *thread, uint32_t error) {
    thread->registers.eax = error == 0;
    thread->utcb_words[TCR_ERROR_CODE] = error;
}

static uint32_t control_error(uint32_t refusal) {
    switch (refusal) {
    case L4_OK: return 0;
    case L4_H1: return NO_PRIVILEGE;
    case L4_H5:
    case L4_NO_MEMORY: return OUT_OF_MEMORY;
    default: return INVALID_THREAD;
    }
}

uint32_t call_control(struct bed *bed, struct thread *thread, uint32_t kind, uint32_t id, uint32_t space, uint32_t pager) {
    l4_call call = kernel_call(kind);
    uint32_t none = 0, refusal;
    call.id = id;
    call.space = space;
    call.pager = pager;
    trace_call(bed, thread->number, &call, &none);
    refusal = kernel_enter(bed, thread->number, &call, &none, 0);
    if (refusal != L4_OK)
        print_refused(bed, thread, refusal);
    return control_error(refusal);
}

static uint32_t delete_thread(struct bed *bed, struct thread *caller, uint32_t id) {
    struct thread *gone = thread_find(bed, id);
    uint32_t error = call_control(bed, caller, L4_DELETE, id, 0, 0);
    if (error == 0 && gone != NULL)
        thread_free(bed, gone);
    return error;
}

static uint32_t create_thread(struct bed *bed, struct thread *caller, uint32_t id, uint32_t specifier, uint32_t pager, uint32_t utcb) {
    struct thread *mate = thread_find(bed, specifier), *created;
    struct space *space = specifier == id || mate == NULL ? NULL : mate->space;
    uint32_t error;
    if (specifier != id && mate == NULL)
        return INVALID_SPACE;
    if (pager != L4_NILTHREAD && (space == NULL || !space_has_utcb(space, utcb)))
        return INVALID_UTCB_AREA;
    error = call_control(bed, caller, L4_CREATE, id, specifier, pager);
    if (error != 0)
        return error;
    if (specifier == id)
        space = space_new(bed, kernel_space(bed, NUMBER(id)));
    created = thread_new(bed, id, space);
    if (space_has_utcb(space, utcb))
        thread_set_utcb(bed, created, utcb);
    if (pager != L4_NILTHREAD)
        thread_activate(bed, created, pager);
    return 0;
}

static uint32_t change_thread(struct bed *bed, struct thread *caller, struct thread *changed, uint32_t specifier, uint32_t pager, uint32_t utcb) {
    struct thread *mate = specifier == changed->id ? changed : thread_find(bed, specifier);
    int is_new_utcb = utcb != NO_CHANGE && utcb != changed->utcb;
    uint32_t error = 0;
    if (mate == NULL || mate->space != changed->space)
        return INVALID_SPACE;
    if (is_new_utcb && (changed->state != INACTIVE || !space_has_utcb(changed->space, utcb)))
        return INVALID_UTCB_AREA;
    if (pager != L4_NILTHREAD && changed->utcb == 0 && !is_new_utcb)
        return INVALID_UTCB_AREA;
    if (pager != L4_NILTHREAD)
        error = call_control(bed, caller, L4_SET_PAGER, changed->id, 0, pager);
    if (error != 0)
        return error;
    if (is_new_utcb)
        thread_set_utcb(bed, changed, utcb);
    if (pager == L4_NILTHREAD)
        return 0;
    changed->pager = pager;
    changed->utcb_words[TCR_PAGER] = pager;
    if (changed->state == INACTIVE)
        thread_activate(bed, changed, pager);
    return 0;
}

static uint32_t unused_number(struct bed *bed) {
    uint32_t number = LAST_NUMBER;
    while (thread_numbered(bed, number) != NULL)
        number--;
    return number;
}

/* A placeholder keeps the thread's space alive. */
uint32_t call_recreate(struct bed *bed, struct thread *caller, const struct thread *changed, uint32_t id) {
    uint32_t placeholder = ID(unused_number(bed)), error;
    error = call_control(bed, caller, L4_CREATE, placeholder, changed->id, L4_NILTHREAD);
    if (error != 0)
        return error;
    error = call_control(bed, caller, L4_DELETE, changed->id, 0, 0);
    if (error == 0)
        error = call_control(bed, caller, L4_CREATE, id, placeholder, changed->pager);
    if (call_control(bed, caller, L4_DELETE, placeholder, 0, 0) != 0)
        return INVALID_THREAD;
    return error;
}

/* By the manual a new version cancels the thread's Ipc, and leaves its registers and its space as they are. The kernel cannot change the version of
 * an id, so the thread is deleted and created again. A thread that has not started waits for its start again. */
static uint32_t change_version(struct bed *bed, struct thread *caller, struct thread *changed, uint32_t id) {
    uint32_t error, wait;
    int has_started;
    if (changed == caller || changed->number == ROOT)
        return INVALID_THREAD;
    thread_take_reply(bed, changed);
    has_started = changed->state != CALLING || changed->calling != CALL_START;
    wait = thread_wait(bed, changed);
    error = call_recreate(bed, caller, changed, id);
    if (error != 0)
        return error;
    thread_set_id(changed, id);
    thread_cancel(changed, wait);
    if (!has_started)
        thread_activate(bed, changed, changed->pager);
    return 0;
}

/* A UTCB is named by its address, or by the start of its bytes. */
static uint32_t middle_of(uint32_t utcb) {
    return utcb % UTCB_BYTES == 0 ? utcb + UTCB_MIDDLE : utcb;
}

static uint32_t control_thread(struct bed *bed, struct thread *thread) {
    const struct registers *registers = &thread->registers;
    uint32_t id = call_global_id(bed, thread, registers->eax), pager = call_global_id(bed, thread, registers->ecx);
    uint32_t specifier = call_global_id(bed, thread, registers->esi), utcb = middle_of(registers->edi);
    struct thread *target = thread_numbered(bed, NUMBER(id));
    uint32_t error;
    if (specifier == L4_NILTHREAD)
        return delete_thread(bed, thread, target == NULL ? id : target->id);
    if (target == NULL)
        return create_thread(bed, thread, id, specifier, pager, utcb);
    if (target->id != id) {
        if (specifier == target->id) /* the thread's own space, by its old id */
            specifier = id;
        error = change_version(bed, thread, target, id);
        if (error != 0)
            return error;
    }
    return change_thread(bed, thread, target, specifier, pager, utcb);
}

static void take_thread_control(struct bed *bed, struct thread *thread) {
    const struct registers *registers = &thread->registers;
    print_line(bed, "%u calls thread control %08x %08x %08x", thread->number, registers->eax, registers->esi, registers->ecx);
    end_control(thread, control_thread(bed, thread));
}

static int is_area(uint32_t fpage, uint32_t least, uint32_t most) {
    uint32_t log = fpage >> 4 & 0x3f;
    return log >= least && log <= most && (fpage & ((1u << log) - 1) & ~UINT32_C(0x3ff)) == 0;
}

static uint32_t utcb_area_log(const struct space *space) {
    uint32_t log = L4_PAGE_LOG;
    while (1u << (log - L4_PAGE_LOG) < space->utcb_pages)
        log++;
    return log;
}

/* The areas of a space are set once. Later, they can be given again, or as nil. */
static uint32_t changed_area(const struct space *space, uint32_t kip, uint32_t utcbs) {
    uint32_t utcbs_now = space->utcb_page * PAGE_BYTES | utcb_area_log(space) << 4;
    if (kip != 0 && (kip & ~UINT32_C(0xf)) != (space->kip_page * PAGE_BYTES | L4_PAGE_LOG << 4))
        return INVALID_KIP_AREA;
    return utcbs != 0 && (utcbs & ~UINT32_C(0xf)) != utcbs_now ? INVALID_UTCB_AREA : 0;
}

static uint32_t set_areas(struct bed *bed, struct thread *caller, uint32_t specifier, uint32_t kip, uint32_t utcbs) {
    struct thread *mate = thread_find(bed, specifier);
    uint32_t utcbs_log = utcbs >> 4 & 0x3f, kip_base = kip & ~UINT32_C(0x3ff), base = utcbs & ~UINT32_C(0x3ff);
    if (caller->space->number != ROOT_SPACE)
        return NO_PRIVILEGE;
    if (mate == NULL)
        return INVALID_SPACE;
    if (mate->space->engine_space != NULL)
        return changed_area(mate->space, kip, utcbs);
    if (!is_area(kip, 12, 12))
        return INVALID_KIP_AREA;
    if (!is_area(utcbs, 12, 15) || kip_base - base < 1u << utcbs_log)
        return INVALID_UTCB_AREA;
    space_set_areas(bed, mate->space, kip_base, base, utcbs_log);
    return 0;
}

static void take_space_control(struct bed *bed, struct thread *thread) {
    struct registers *registers = &thread->registers;
    print_line(bed, "%u calls space control %08x %08x %08x", thread->number, registers->eax, registers->edx, registers->esi);
    end_control(thread, set_areas(bed, thread, registers->eax, registers->edx, registers->esi));
    registers->ecx = 0;
}

static void take_clock(struct bed *bed, struct thread *thread) {
    uint64_t microseconds = bed->orders != NULL ? orders_clock(bed, thread) : clock_now(bed);
    thread->registers.eax = (uint32_t)microseconds;
    thread->registers.edx = (uint32_t)(microseconds >> 32);
}

/* Copies a text of the program. Returns 0 if the thread faults on it first; it then makes the call again. */
static int copy_text(struct bed *bed, struct thread *thread, char *text, size_t room) {
    uint32_t address = thread->registers.ecx;
    size_t k;
    for (k = 0; k + 1 < room; k++) {
        const unsigned char *byte = space_byte(bed, thread->space, address + (uint32_t)k);
        if (byte == NULL) {
            thread_fault(bed, thread, address + (uint32_t)k, L4_READ);
            return 0;
        }
        text[k] = (char)*byte;
        if (*byte == 0)
            return 1;
    }
    text[k] = 0;
    return 1;
}

enum { KDB_CHAR, KDB_STRING, KDB_ENTER, KDB_ASSERT };

/* The longest text of a call, with its end. */
#define TEXT_ROOM 1024

/* A text of L4_KDB_Enter that begins with one of these words reports a failure. */
static int is_failure(const char *text) {
    return strncmp(text, "failed", 6) == 0 || strncmp(text, "panic", 5) == 0;
}

static void end_run(struct bed *bed, struct thread *thread, const char *text) {
    int is_assertion = thread->registers.eax == KDB_ASSERT;
    char escaped[4 * TEXT_ROOM + 1];
    text_escape(text, strlen(text), escaped, sizeof escaped);
    text_end_begun(thread);
    print(is_assertion ? "%u ends the run: the assertion %s does not hold\n" : "%u ends the run: %s\n", thread->number, escaped);
    bed->end = is_assertion ? ENDED_BY_ASSERTION : is_failure(text) ? ENDED_BY_FAILURE : ENDED_WELL;
}

/* Returns 0 if the thread makes the call again. */
static int take_kdb(struct bed *bed, struct thread *thread) {
    char text[TEXT_ROOM];
    const char *next;
    if (thread->registers.eax == KDB_CHAR) {
        text_add(thread, (char)thread->registers.ecx);
        return 1;
    }
    if (!copy_text(bed, thread, text, sizeof text))
        return 0;
    if (thread->registers.eax == KDB_ENTER || thread->registers.eax == KDB_ASSERT)
        end_run(bed, thread, text);
    else
        for (next = text; *next != 0; next++)
            text_add(thread, *next);
    return 1;
}

/* The memory of the bed has no caches that a program can see, so all attributes are accepted. */
static void take_memory_control(struct bed *bed, struct thread *thread) {
    print_line(bed, "%u calls memory control %08x", thread->number, thread->registers.eax);
    end_control(thread, thread->space->number == ROOT_SPACE ? 0 : NO_PRIVILEGE);
}

static void take_other(struct bed *bed, struct thread *thread, enum system_call call) {
    print_line(bed, "%u calls system call %u, which this kernel does not have", thread->number, (unsigned)call);
    end_control(thread, NO_PRIVILEGE);
}

int call_take(struct bed *bed, struct thread *thread, enum system_call call) {
    if (call == SYSTEM_KDB) {
        if (take_kdb(bed, thread))
            thread->registers.eip += STUB_TRAP_BYTES;
        return 1;
    }
    thread->registers.eip += STUB_TRAP_BYTES;
    bed->entries += call != SYSTEM_CLOCK;
    switch (call) {
    case SYSTEM_IPC:
    case SYSTEM_LIPC: take_ipc(bed, thread); return 1;
    case SYSTEM_UNMAP: take_unmap(bed, thread); return 1;
    case SYSTEM_THREAD_CONTROL: take_thread_control(bed, thread); return 1;
    case SYSTEM_SPACE_CONTROL: take_space_control(bed, thread); return 1;
    case SYSTEM_EXCHANGE_REGISTERS: exchange_take(bed, thread); return !thread->is_halted;
    case SYSTEM_CLOCK: take_clock(bed, thread); return 1;
    case SYSTEM_THREAD_SWITCH: bed->named_next = thread_find(bed, call_global_id(bed, thread, thread->registers.eax)); return 0;
    case SYSTEM_SCHEDULE: turns_schedule(bed, thread); return 1;
    case SYSTEM_MEMORY_CONTROL: take_memory_control(bed, thread); return 1;
    default: take_other(bed, thread, call); return 1;
    }
}
