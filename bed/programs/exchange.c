/* A root task that starts, stops and changes threads by ExchangeRegisters: two of its own space. A thread of another space tries it too. */
#include "children.h"

#define SPINNER L4_GlobalId(10, 1)
#define WAITER L4_GlobalId(11, 1)
#define MATE L4_GlobalId(12, 1)
#define ABSENT_PAGE 0x10000000u

static char stacks[2][2048] __attribute__((aligned(16)));
static volatile L4_Word_t count;

static void *stack_of(L4_Word_t place) {
    return stacks[place] + sizeof stacks[place] - 16;
}

static void print_state(const char *what, L4_ThreadState_t state) {
    print(what);
    print_number(": halted ", L4_ThreadWasHalted(state), "");
    print_number(", receiving ", L4_ThreadWasReceiving(state), "");
    print_number(", sending ", L4_ThreadWasSending(state), "");
    print_number(", in an Ipc ", L4_ThreadWasIpcing(state), "\n");
}

static void print_error(const char *what) {
    print(what);
    print_number(": ErrorCode ", L4_ErrorCode(), "\n");
}

static void spin(void) {
    for (;;)
        count++;
}

/* The threads begin their functions by a jump, so these never return. */
static void show_handle(void) {
    print_number("spinner: handle ", L4_UserDefinedHandle(), "");
    print_number(", pager ", L4_ThreadNo(L4_Pager()), "\n");
    L4_Receive(L4_GlobalId(2, 1));
    for (;;)
        L4_Sleep(L4_Never);
}

static void wait_and_send(void) {
    L4_Receive(SPINNER);
    print_error("waiter: a receive is canceled");
    L4_Set_MsgTag(L4_Niltag);
    L4_Send(SPINNER);
    print_error("waiter: a send is canceled");
    L4_Set_MsgTag(L4_Niltag);
    L4_Send(SPINNER);
    for (;;)
        L4_Sleep(L4_Never);
}

static void fault(void) {
    *(volatile L4_Word_t *)ABSENT_PAGE = 1;
    print("waiter: this is not reached\n");
}

static void go_on(void) {
    print("waiter: continues behind its page fault\n");
    L4_Start(L4_GlobalId(2, 1));
    print_error("waiter: cancels the wait of root");
    for (;;)
        L4_Sleep(L4_Never);
}

static void raise(void) {
    L4_Set_ExceptionHandler(L4_GlobalId(2, 1));
    __asm__ volatile("hlt");
    print("spinner: this is not reached\n");
}

static void go_on_too(void) {
    print("spinner: continues behind its exception\n");
    for (;;)
        L4_Sleep(L4_Never);
}

/* The thread's pager need not map its stack. */
static void create(L4_ThreadId_t id, L4_Word_t place) {
    *(volatile char *)stacks[place] = 0;
    *(volatile char *)stack_of(place) = 0;
    demand(L4_ThreadControl(id, L4_Myself(), L4_Myself(), L4_Pager(), L4_Utcb() + 128 * (place + 1)), "a thread cannot be created");
}

static void use_spinner(void) {
    L4_Word_t before, sp = 0, ip = 0, flags = 0;
    create(SPINNER, 0);
    L4_Start_SpIp(SPINNER, (L4_Word_t)stack_of(0), (L4_Word_t)spin);
    L4_Yield();
    print_state("spinner", L4_Stop(SPINNER));
    before = count;
    L4_Yield();
    print_number("exchange: it has run, and does not run any more: ", before > 0 && count == before, "\n");
    print_state("spinner", L4_Stop_SpIpFlags(SPINNER, &sp, &ip, &flags));
    print_number("exchange: its stack pointer and flags: ", sp <= (L4_Word_t)stack_of(0) && sp > (L4_Word_t)stacks[0] && (flags & 2), "\n");
    L4_Start(SPINNER);
    L4_Yield();
    print_number("exchange: it runs again: ", count > before, "\n");
    L4_Set_UserDefinedHandleOf(SPINNER, 7);
    L4_Set_PagerOf(SPINNER, L4_Myself());
    L4_Start_SpIpFlags(SPINNER, (L4_Word_t)stack_of(0), (L4_Word_t)show_handle, flags);
    L4_Yield();
    print_number("exchange: handle ", L4_UserDefinedHandleOf(SPINNER), "");
    print_number(", pager ", L4_ThreadNo(L4_PagerOf(SPINNER)), "\n");
}

static void use_waiter(void) {
    create(WAITER, 1);
    L4_Start_SpIp(WAITER, (L4_Word_t)stack_of(1), (L4_Word_t)wait_and_send);
    L4_Yield();
    print_state("waiter", L4_AbortSend_and_stop(WAITER));
    print_state("waiter", L4_AbortReceive_and_stop(WAITER));
    L4_Start(WAITER);
    L4_Yield();
    print_state("waiter", L4_AbortIpc_and_stop(WAITER));
    L4_Start(WAITER);
    L4_Yield();
    L4_Start(SPINNER);
    print_error("exchange: ends a wait of the spinner, for which the waiter waits");
    print_state("waiter", L4_Stop(WAITER));
    L4_Stop(child_id(0));
    print_error("exchange: the child is in another space");
}

/* Receives the message of a page fault or of an exception, whose first word is the address of the page, or that of the instruction. */
static L4_Word_t receive_first(L4_ThreadId_t from, L4_Word_t label) {
    L4_Word_t first;
    demand(L4_Label(L4_Receive(from)) == label, "another message was received");
    L4_StoreMR(1, &first);
    return first;
}

/* The waiter raises a page fault. Root, its pager, cancels its Ipc: once it goes on, it raises the fault again, unless it goes on elsewhere. */
static void use_fault(void) {
    L4_Set_PagerOf(WAITER, L4_Myself());
    L4_Start_SpIp(WAITER, (L4_Word_t)stack_of(1), (L4_Word_t)fault);
    print_word("exchange: a page fault at ", receive_first(WAITER, 0xffe2), "\n");
    print_state("waiter", L4_AbortIpc_and_stop(WAITER));
    L4_Start(WAITER);
    print_word("exchange: the same page fault at ", receive_first(WAITER, 0xffe2), "\n");
    L4_Start_SpIp(WAITER, (L4_Word_t)stack_of(1), (L4_Word_t)go_on);
}

/* The same for an exception, of which root is the handler. */
static void use_exception(void) {
    L4_Word_t first, second;
    L4_Start_SpIp(SPINNER, (L4_Word_t)stack_of(0), (L4_Word_t)raise);
    first = receive_first(SPINNER, 0xffb0);
    print_state("spinner", L4_AbortIpc_and_stop(SPINNER));
    L4_Start(SPINNER);
    second = receive_first(SPINNER, 0xffb0);
    print_number("exchange: the same exception: ", second == first, "\n");
    L4_Start_SpIp(SPINNER, (L4_Word_t)stack_of(0), (L4_Word_t)go_on_too);
    L4_Yield();
}

/* The first program has two threads: the second one is in the space of the first, and waits for its start. */
static void use_child(void) {
    L4_ThreadId_t from;
    L4_MsgTag_t tag;
    L4_Word_t address;
    start_child(0);
    demand(L4_ThreadControl(MATE, child_id(0), L4_Myself(), L4_Myself(), (void *)(CHILD_UTCB + 512)), "the mate cannot be created");
    tag = L4_Wait(&from);
    while (is_fault(tag)) {
        L4_StoreMR(1, &address);
        answer_fault(0, address);
        tag = L4_ReplyWait(from, &from);
    }
}

int main(void) {
    L4_Word_t ignored;
    L4_ThreadId_t pager;
    use_child();
    use_spinner();
    use_waiter();
    L4_ExchangeRegisters(WAITER, 1 << 10, 0, 0, 0, 0, L4_nilthread, &ignored, &ignored, &ignored, &ignored, &ignored, &pager);
    print_error("exchange: an unknown bit");
    use_exception();
    use_fault();
    L4_Sleep(L4_Never);
    print_error("exchange: root sleeps no more");
    L4_KDB_Enter("done");
    return 0;
}
