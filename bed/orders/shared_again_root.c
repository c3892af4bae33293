/* examples/revoked_and_shared_again.litmus, with thread 5 in the space of thread 3. Root takes the place of sigma0. */
#include "shared.h"

/* Answers page faults until a program calls; returns it. */
static L4_ThreadId_t next_ready(void) {
    L4_ThreadId_t from;
    L4_Word_t address;
    L4_MsgTag_t tag = L4_Wait(&from);
    while (is_fault(tag)) {
        L4_StoreMR(1, &address);
        answer_fault(L4_ThreadNo(from) == 5 ? 0 : L4_ThreadNo(from) - FIRST_CHILD, address);
        tag = L4_ReplyWait(from, &from);
    }
    return from;
}

static void begin_mate(L4_Word_t ip, L4_Word_t sp) {
    demand(L4_ThreadControl(thread(5), thread(3), L4_Myself(), L4_Myself(), (void *)(CHILD_UTCB + 512)), "root: thread 5 cannot be created");
    L4_Set_MsgTag(L4_MsgTagOfWord(2));
    L4_LoadMR(1, ip);
    L4_LoadMR(2, sp);
    demand(L4_IpcSucceeded(L4_Send(thread(5))), "root: thread 5 cannot be started");
}

int main(void) {
    L4_Word_t ip, sp;
    start_programs(2);
    take_pages(SOURCE, PAGE);
    send_page(thread(3), SOURCE, 0x20000, L4_FullyAccessible);
    L4_Set_MsgTag(L4_Niltag);
    L4_Reply(thread(4));
    if (L4_ThreadNo(next_ready()) == 4)
        next_ready();
    else
        next_ready();
    L4_Set_MsgTag(L4_MsgTagOfWord(0));
    L4_Reply(thread(3));
    next_ready();
    L4_StoreMR(1, &ip);
    L4_StoreMR(2, &sp);
    begin_mate(ip, sp);
    next_ready();
    let_go(0, 3);
    serve_faults();
    return 0;
}
