#include "bed.h"
#include "check.h"
#include "gdb.h"
#include "signals.h"
#include <stdio.h>
#include <string.h>

/* A turn ends when the engine's budget is used up, or after this many system calls and faults. Each of them takes this many nanoseconds of
 * virtual time. */
#define RUNS_OF_TURN 200u
#define ENTRY_TIME 2000u

/* By the manual a fault is raised again for as long as its answer does not give the right. A pager that never gives it would keep the run
 * going for ever, so the bed stops the thread then. */
#define MAX_VAIN_ANSWERS 16u

/* The ErrorCodes of an Ipc that another thread canceled, in its send phase and in its receive phase. A page fault and an exception are raised again if
 * their Ipc ends so, unless the other thread lets the thread continue at another instruction. */
#define CANCELED_SEND 6u
#define CANCELED_RECEIVE 7u

static int is_canceled(uint32_t error) {
    return error == CANCELED_SEND || error == CANCELED_RECEIVE;
}

struct thread *thread_find(struct bed *bed, uint32_t id) {
    struct thread *found = thread_numbered(bed, NUMBER(id));
    return found != NULL && found->id == id ? found : NULL;
}

struct thread *thread_numbered(struct bed *bed, uint32_t number) {
    size_t k;
    for (k = 0; k < L4_MAX_THREADS; k++) {
        if (bed->threads[k].state != ABSENT && bed->threads[k].number == number)
            return &bed->threads[k];
    }
    return NULL;
}

/* fninit and the reset value of mxcsr. */
static void reset_floats(struct registers *registers) {
    static const uint16_t control = 0x037f;
    static const uint32_t sse_control = 0x1f80;
    memset(registers->floats, 0, sizeof registers->floats);
    memcpy(registers->floats, &control, sizeof control);
    memcpy(registers->floats + 24, &sse_control, sizeof sse_control);
}

struct thread *thread_new(struct bed *bed, uint32_t id, struct space *space) {
    size_t k = 0;
    while (k < L4_MAX_THREADS && bed->threads[k].state != ABSENT)
        k++;
    check_holds(k < L4_MAX_THREADS, "the bed has more threads than the kernel");
    memset(&bed->threads[k], 0, sizeof bed->threads[k]);
    bed->threads[k].state = INACTIVE;
    bed->threads[k].id = id;
    bed->threads[k].number = NUMBER(id);
    bed->threads[k].space = space;
    bed->threads[k].priority = PRIORITIES - 1;
    bed->threads_of[PRIORITIES - 1]++;
    if (bed->slots <= k)
        bed->slots = (uint32_t)k + 1;
    trace_thread_exists(bed, NUMBER(id));
    return &bed->threads[k];
}

int thread_is_alone(const struct bed *bed, const struct thread *thread) {
    size_t k;
    for (k = 0; k < L4_MAX_THREADS; k++) {
        const struct thread *other = &bed->threads[k];
        if (other != thread && other->state != ABSENT && other->space == thread->space)
            return 0;
    }
    return 1;
}

/* A space ends with its last thread. */
void thread_free(struct bed *bed, struct thread *thread) {
    struct space *space = thread_is_alone(bed, thread) ? thread->space : NULL;
    text_end_begun(thread);
    if (thread->space->engine_space != NULL)
        bed->kind->forget(bed->engine, thread->space->engine_space, &thread->registers);
    bed->threads_of[thread->priority]--;
    memset(thread, 0, sizeof *thread);
    if (space != NULL)
        space_free(bed, space);
}

void thread_set_id(struct thread *thread, uint32_t id) {
    thread->id = id;
    if (thread->utcb_words != NULL)
        thread->utcb_words[TCR_MY_GLOBAL_ID] = id;
}

void thread_set_utcb(struct bed *bed, struct thread *thread, uint32_t address) {
    thread->utcb = address;
    thread->utcb_words = space_utcb(bed, thread->space, address);
    memset(thread->utcb_words - UTCB_MIDDLE / sizeof(uint32_t), 0, UTCB_BYTES);
    thread_set_id(thread, thread->id);
}

void thread_set_ready(struct thread *thread, uint32_t eip, uint32_t esp) {
    memset(&thread->registers, 0, sizeof thread->registers);
    reset_floats(&thread->registers);
    thread->registers.eflags = FIXED_FLAGS;
    thread->registers.eip = eip;
    thread->registers.esp = esp;
    thread->state = READY;
}

uint32_t thread_enter(struct bed *bed, struct thread *thread, enum call_kind kind, const l4_call *call, const uint32_t *words, size_t count) {
    uint32_t refusal;
    trace_call(bed, thread->number, call, words);
    refusal = kernel_enter(bed, thread->number, call, words, count);
    if (refusal == L4_OK) {
        thread->state = CALLING;
        thread->calling = kind;
    } else {
        trace_refusal(bed, thread->number, refusal);
    }
    return refusal;
}

void thread_activate(struct bed *bed, struct thread *thread, uint32_t pager) {
    l4_call call = kernel_call(L4_IPC);
    uint32_t none = 0;
    thread->pager = pager;
    thread->utcb_words[TCR_PAGER] = pager;
    call.from = pager;
    check_library(thread_enter(bed, thread, CALL_START, &call, &none, 0), "the receive in which a thread waits for its start");
}

static const char *exception_text(uint32_t number) {
    static const char *const texts[] = {"division by zero", "debug", "", "breakpoint", "overflow", "bound", "invalid instruction",
                                        "no coprocessor", "double fault", "", "invalid task", "missing segment", "stack segment",
                                        "general protection", "page fault", "", "floating point", "alignment", "machine check",
                                        "SSE floating point"};
    return number < sizeof texts / sizeof *texts ? texts[number] : "";
}

static void stop(struct bed *bed, struct thread *thread, const char *why) {
    if (bed->has_gdb)
        gdb_report_stop(bed, thread);
    text_end_begun(thread);
    print("%u is stopped: %s\n", thread->number, why);
    print_line(bed, "%u stopped at eip %08x", thread->number, thread->registers.eip);
    thread->state = STOPPED;
    bed->has_stopped = 1;
}

static void stop_by_code(struct bed *bed, struct thread *thread, const char *what, uint32_t error) {
    char why[80];
    snprintf(why, sizeof why, "%s, ErrorCode %u", what, error);
    stop(bed, thread, why);
}

/* The words of an exception's message after its tag, and of the answer: the registers whose values they are. */
#define EXCEPTION_TAG UINT32_C(0xffb0000c)
#define EXCEPTION_WORDS 12
#define EXCEPTION_NUMBER 2

static void point_to_words(struct registers *registers, uint32_t **words) {
    static uint32_t none;
    uint32_t *const places[EXCEPTION_WORDS] = {&registers->eip, &registers->eflags, &none, &none, &registers->edi, &registers->esi,
                                               &registers->ebp, &registers->esp, &registers->ebx, &registers->edx, &registers->ecx, &registers->eax};
    memcpy(words, places, sizeof places);
}

/* The first bytes of the instruction at which the thread was stopped, as far as it may read them. */
#define SHOWN_BYTES 4u

static void stop_by_exception(struct bed *bed, struct thread *thread, uint32_t number) {
    char why[400], bytes[3 * SHOWN_BYTES + 1] = "", name[SYMBOL_ROOM];
    uint32_t eip = thread->registers.eip, k;
    for (k = 0; k < SHOWN_BYTES; k++) {
        const unsigned char *byte = space_byte(bed, thread->space, eip + k);
        if (byte == NULL)
            break;
        snprintf(bytes + 3 * k, sizeof bytes - 3 * k, " %02x", *byte);
    }
    symbols_write(bed, thread, eip, name, sizeof name);
    snprintf(why, sizeof why, "exception %u (%s) at %08x%s%s%s, and it has no exception handler", number, exception_text(number), eip, name,
             k > 0 ? ":" : "", bytes);
    stop(bed, thread, why);
}

/* An exception is a message from the thread to its handler. The answer has the registers with which the thread continues. */
static void raise_exception(struct bed *bed, struct thread *thread, uint32_t number) {
    l4_call call = kernel_call(L4_IPC);
    uint32_t words[1 + EXCEPTION_WORDS] = {EXCEPTION_TAG}, *places[EXCEPTION_WORDS];
    size_t k;
    bed->entries++;
    call.to = call.from = thread->utcb_words[TCR_EXCEPTION_HANDLER];
    if (call.to == L4_NILTHREAD) {
        stop_by_exception(bed, thread, number);
        return;
    }
    point_to_words(&thread->registers, places);
    for (k = 0; k < EXCEPTION_WORDS; k++)
        words[1 + k] = *places[k];
    words[1 + EXCEPTION_NUMBER] = number;
    words[1 + EXCEPTION_NUMBER + 1] = 0;
    print_line(bed, "%u raises exception %u at eip %08x", thread->number, number, thread->registers.eip);
    check_library(thread_enter(bed, thread, CALL_EXCEPTION, &call, words, 1 + EXCEPTION_WORDS), "the message of an exception");
}

static void end_exception(struct bed *bed, struct thread *thread, const l4_reply *reply) {
    uint32_t *places[EXCEPTION_WORDS];
    size_t k;
    if (reply->tag & FAILED_TAG && is_canceled(reply->error))
        return;
    if (reply->tag & FAILED_TAG) {
        stop_by_code(bed, thread, "the message of its exception failed", reply->error);
        return;
    }
    if (reply->word_count < EXCEPTION_WORDS) {
        stop(bed, thread, "its exception handler answered with fewer than 12 words");
        return;
    }
    point_to_words(&thread->registers, places);
    for (k = 0; k < EXCEPTION_WORDS; k++)
        *places[k] = reply->words[k];
    thread->registers.eflags = (thread->registers.eflags & USER_FLAGS) | FIXED_FLAGS;
}

void thread_fault(struct bed *bed, struct thread *thread, uint32_t address, uint32_t access) {
    l4_call call = kernel_call(L4_FAULT);
    uint32_t none = 0;
    bed->entries++;
    call.address = thread->fault_address = address;
    call.access = thread->fault_access = access;
    call.ip = thread->registers.eip;
    bed->costs.faults++;
    print_line(bed, "%u faults at %08x by %08x for %s", thread->number, address, call.ip, rights_text(access));
    check_library(thread_enter(bed, thread, CALL_FAULT, &call, &none, 0), "a page fault");
}

/* If another thread cancels the wait for the start message, that thread sets the registers. */
static void end_start(struct bed *bed, struct thread *thread, const l4_reply *reply) {
    if (reply->tag & FAILED_TAG && is_canceled(reply->error))
        thread_set_ready(thread, 0, 0);
    else if (reply->tag & FAILED_TAG)
        stop_by_code(bed, thread, "the receive of its start message failed", reply->error);
    else if (reply->word_count < 2)
        thread_activate(bed, thread, thread->pager);
    else
        thread_set_ready(thread, reply->words[0], reply->words[1]);
}

/* The first message registers are registers of the processor, and the others are in the UTCB. */
static void end_ipc(struct thread *thread, const l4_reply *reply) {
    uint32_t *memory = thread->utcb_words;
    memory[0] = reply->tag;
    memcpy(memory + 1, reply->words, reply->word_count * sizeof *memory);
    memory[TCR_ERROR_CODE] = reply->error;
    thread->registers.eax = reply->from;
    thread->registers.esi = reply->tag;
    thread->registers.ebx = memory[1];
    thread->registers.ebp = memory[2];
    thread->registers.edi = thread->utcb;
}

static void stop_by_fault(struct bed *bed, struct thread *thread) {
    char why[160];
    snprintf(why, sizeof why, "its pager answered its page fault at %08x for %s %u times, each time without that right", thread->fault_address,
             rights_text(thread->fault_access), thread->vain_answers);
    stop(bed, thread, why);
}

/* If the answer did not give the right, the thread runs into the same fault again. */
static void end_fault(struct bed *bed, struct thread *thread, const l4_reply *reply) {
    l4_mapping mapping = kernel_mapping(bed, thread->space->number, thread->fault_address / PAGE_BYTES);
    if (reply->kind == L4_REPLY_HIT) { /* the kernel has the page, but the areas hide it */
        stop(bed, thread, "it accessed its kernel interface page or UTCB area without the right");
    } else if (reply->kind == L4_REPLY_FAILED && is_canceled(reply->error)) {
        thread->vain_answers = 0;
    } else if (reply->kind == L4_REPLY_FAILED) {
        stop_by_code(bed, thread, "its page fault failed", reply->error);
    } else if (mapping.there && mapping.rights & thread->fault_access) {
        thread->vain_answers = 0;
    } else if (++thread->vain_answers == MAX_VAIN_ANSWERS) {
        stop_by_fault(bed, thread);
    }
}

void thread_take_reply(struct bed *bed, struct thread *thread) {
    l4_reply reply;
    if (thread->state != CALLING)
        return;
    reply = kernel_reply(bed, thread->number);
    if (reply.kind == L4_NONE)
        return;
    thread->state = READY;
    timeouts_forget(thread);
    switch (thread->calling) {
    case CALL_START: end_start(bed, thread, &reply); break;
    case CALL_IPC: end_ipc(thread, &reply); break;
    case CALL_FAULT: end_fault(bed, thread, &reply); break;
    case CALL_EXCEPTION: end_exception(bed, thread, &reply); break;
    case CALL_UNMAP: break;
    }
}

l4_state thread_state(struct bed *bed, const struct thread *thread) {
    l4_state state = l4_state_of(&bed->kernel, thread->number);
    check_library(state.refusal, "l4_state_of");
    return state;
}

uint32_t thread_wait(struct bed *bed, const struct thread *thread) {
    uint32_t state = thread->state == CALLING ? thread_state(bed, thread).state : 0;
    return state == L4_STATE_SENDING || state == L4_STATE_RECEIVING ? state : 0;
}

void thread_cancel(struct thread *thread, uint32_t wait) {
    l4_reply reply;
    if (wait == 0)
        return;
    memset(&reply, 0, sizeof reply);
    reply.kind = L4_REPLY_IPC;
    reply.tag = FAILED_TAG;
    reply.error = wait == L4_STATE_SENDING ? CANCELED_SEND : CANCELED_RECEIVE;
    thread->state = READY;
    timeouts_forget(thread);
    if (thread->calling == CALL_IPC)
        end_ipc(thread, &reply);
    else if (thread->calling == CALL_START)
        thread_set_ready(thread, 0, 0);
}

/* The instruction `lock; nop` returns the address of the kernel interface page. Returns 0 if the instruction is another. */
static int look_up_interface(struct bed *bed, struct thread *thread) {
    const unsigned char *first = space_byte(bed, thread->space, thread->registers.eip);
    const unsigned char *second = space_byte(bed, thread->space, thread->registers.eip + 1);
    if (first == NULL || second == NULL || *first != 0xf0 || *second != 0x90)
        return 0;
    thread->registers.eax = thread->space->kip_page * PAGE_BYTES;
    thread->registers.ecx = KIP_API_VERSION;
    thread->registers.edx = KIP_API_FLAGS;
    thread->registers.esi = KIP_KERNEL_ID;
    thread->registers.eip += 2;
    return 1;
}

/* Returns 0 if the thread's turn ends. */
static int take_trap(struct bed *bed, struct thread *thread, uint32_t number) {
    uint32_t place = thread->registers.eip - thread->space->kip_page * PAGE_BYTES - KIP_STUBS;
    if (place < SYSTEM_CALLS << KIP_STUB_LOG && place % (1 << KIP_STUB_LOG) == 0)
        return call_take(bed, thread, (enum system_call)(place >> KIP_STUB_LOG));
    if (!look_up_interface(bed, thread))
        raise_exception(bed, thread, number);
    return 1;
}

/* Runs the thread until something stops it. Returns 0 if its turn ends. */
static int run(struct bed *bed, struct thread *thread) {
    struct stop stopped;
    stopped.time = 0;
    memcpy(bed_frame(bed, bed->frames) + KIP_CURRENT_UTCB, &thread->utcb, sizeof thread->utcb);
    bed->costs.runs++;
    if (bed->has_gdb)
        gdb_before(bed, thread);
    if (bed->end != NOT_ENDED)
        return 0;
    signals_set_thread(thread->number, thread->registers.eip);
    bed->kind->run(bed->engine, thread->space->engine_space, &thread->registers, &stopped);
    signals_set_thread(0, 0);
    bed->virtual_time += stopped.time + ENTRY_TIME;
    timeouts_expire(bed);
    end_watch(bed);
    if (bed->has_gdb && gdb_after(bed, thread, &stopped))
        return 1;
    switch (stopped.kind) {
    case STOP_BY_TRAP: return take_trap(bed, thread, stopped.number);
    case STOP_BY_FAULT: thread_fault(bed, thread, stopped.address, stopped.access); return 1;
    case STOP_BY_EXCEPTION: raise_exception(bed, thread, stopped.number); return 1;
    case STOP_BY_HOST: stop(bed, thread, "the host has refused a page of its space"); return 0;
    case STOP_BY_BUDGET: thread->is_interrupted = 1; return 0;
    case STOP_BY_ACCESS:
    case STOP_BY_BREAK: return 0;
    }
    return 0;
}

void thread_enter_once(struct bed *bed, struct thread *thread) {
    uint64_t before = bed->entries;
    uint32_t runs;
    int goes_on = 1;
    for (runs = 0; goes_on && runs < RUNS_OF_TURN && bed->end == NOT_ENDED && bed->entries == before && thread->state == READY; runs++)
        goes_on = run(bed, thread);
    if (bed->verifies)
        change_verify(bed);
}

int thread_turn(struct bed *bed, struct thread *thread) {
    int goes_on = 1;
    uint32_t runs;
    thread->is_interrupted = 0;
    for (runs = 0; goes_on && runs < RUNS_OF_TURN && bed->end == NOT_ENDED; runs++) {
        thread_take_reply(bed, thread);
        if (thread->state != READY || thread->is_halted)
            break;
        goes_on = run(bed, thread);
        if (bed->verifies)
            change_verify(bed);
    }
    thread->is_interrupted |= goes_on && runs == RUNS_OF_TURN;
    return runs > 0;
}
