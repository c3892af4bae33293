/* ExchangeRegisters: reads and sets what a thread of the caller's space has, ends the Ipc in which it waits, halts it, and lets it continue. */
#include "bed.h"

/* Bits of the control word. The last says that the values are to be returned; the bed always returns them. In the result, the first three say
 * whether the thread was halted, waited to receive, or waited to send. */
enum {
    HALT = 1 << 0,
    RECEIVE = 1 << 1,
    SEND = 1 << 2,
    SET_STACK = 1 << 3,
    SET_INSTRUCTION = 1 << 4,
    SET_FLAGS = 1 << 5,
    SET_HANDLE = 1 << 6,
    SET_PAGER = 1 << 7,
    SET_HALT = 1 << 8,
    DELIVER = 1 << 9,
    ALL_BITS = (1 << 10) - 1
};

static uint32_t bit_of(uint32_t wait) {
    return wait == L4_STATE_SENDING ? SEND : wait == L4_STATE_RECEIVING ? RECEIVE : 0;
}

static uint32_t set_pager(struct bed *bed, struct thread *caller, struct thread *dest, uint32_t pager) {
    uint32_t error = call_control(bed, caller, L4_SET_PAGER, dest->id, 0, pager);
    if (error != 0)
        return error;
    dest->pager = pager;
    dest->utcb_words[TCR_PAGER] = pager;
    return 0;
}

/* What the kernel can refuse comes first, so that a call with an ErrorCode has changed nothing. */
static uint32_t change_kernel(struct bed *bed, struct thread *caller, struct thread *dest, uint32_t wait) {
    uint32_t control = caller->registers.ecx, error = 0;
    if (control & SET_PAGER)
        error = set_pager(bed, caller, dest, call_global_id(bed, caller, caller->registers.ebp));
    if (error != 0 || (control & bit_of(wait)) == 0)
        return error;
    kernel_cancel(bed, dest->number);
    thread_take_reply(bed, dest);
    return 0;
}

static void set_registers(struct thread *dest, const struct registers *values) {
    uint32_t control = values->ecx;
    if (control & SET_STACK)
        dest->registers.esp = values->edx;
    if (control & SET_INSTRUCTION)
        dest->registers.eip = values->esi;
    if (control & SET_FLAGS)
        dest->registers.eflags = (values->edi & USER_FLAGS) | FIXED_FLAGS;
    if (control & SET_HANDLE)
        dest->utcb_words[TCR_USER_DEFINED_HANDLE] = values->ebx;
    if (control & SET_HALT)
        dest->is_halted = (control & HALT) != 0;
}

/* The values as they are before the change. The first is the thread's other id: the local one if it was named by its global id. */
static struct registers values_of(const struct thread *dest, uint32_t named, uint32_t wait) {
    struct registers values = dest->registers;
    values.eax = named == dest->id ? dest->utcb : dest->id;
    values.ecx = bit_of(wait) | (dest->is_halted ? HALT : 0);
    values.edx = dest->registers.esp;
    values.esi = dest->registers.eip;
    values.edi = dest->registers.eflags;
    values.ebx = dest->utcb_words[TCR_USER_DEFINED_HANDLE];
    values.ebp = dest->pager;
    return values;
}

static void return_values(struct registers *registers, const struct registers *values) {
    registers->eax = values->eax;
    registers->ecx = values->ecx;
    registers->edx = values->edx;
    registers->esi = values->esi;
    registers->edi = values->edi;
    registers->ebx = values->ebx;
    registers->ebp = values->ebp;
}

static uint32_t exchange(struct bed *bed, struct thread *thread, struct thread *dest) {
    struct registers given = thread->registers, old;
    uint32_t error, wait;
    if ((given.ecx & ~(uint32_t)ALL_BITS) != 0)
        return INVALID_PARAMETER;
    if (dest == NULL || dest->space != thread->space || dest->utcb == 0)
        return INVALID_THREAD;
    if ((given.ecx & ~(uint32_t)DELIVER) != 0 && (dest->state == INACTIVE || dest->state == STOPPED))
        return INVALID_THREAD;
    thread_take_reply(bed, dest);
    wait = thread_wait(bed, dest);
    old = values_of(dest, given.eax, wait);
    error = change_kernel(bed, thread, dest, wait);
    if (error != 0)
        return error;
    return_values(&thread->registers, &old);
    set_registers(dest, &given);
    return 0;
}

void exchange_take(struct bed *bed, struct thread *thread) {
    struct registers *registers = &thread->registers;
    struct thread *dest = thread_find(bed, call_global_id(bed, thread, registers->eax));
    uint32_t error;
    orders_note_change(bed, dest);
    print_line(bed, "%u calls exchange registers %08x %08x", thread->number, registers->eax, registers->ecx);
    if (dest != NULL && trace_is_on(bed, thread->number))
        print("%u calls ExchangeRegisters: thread %u, control %03x\n", thread->number, dest->number, registers->ecx);
    error = exchange(bed, thread, dest);
    thread->utcb_words[TCR_ERROR_CODE] = error;
    if (error != 0)
        registers->eax = L4_NILTHREAD;
}
