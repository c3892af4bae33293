/* The agent of a thread: it makes the calls that the test server writes into its slot, and writes there how they have ended. It has no data of
 * its own, so all agents run the same pages. */
#include "slot.h"
#include <l4/ipc.h>
#include <l4/message.h>
#include <l4/schedule.h>
#include <l4/space.h>
#include <l4/thread.h>

L4_Word_t L4_TheKip = AGENT_KIP;

void agent(struct slot *slot);

/* The stack pointer is in the page of the agent's slot. */
__asm__(".globl _start\n"
        "_start:\n\t"
        "movl %esp, %eax\n\t"
        "andl $-4096, %eax\n\t"
        "pushl %eax\n\t"
        "call agent");

/* A failed Ipc has no message. An Ipc that only sends has none either. */
static void make_ipc(struct slot *slot) {
    L4_ThreadId_t sender = L4_nilthread;
    L4_MsgTag_t tag;
    L4_LoadBR(0, slot->acceptor);
    L4_LoadMRs(0, (int)slot->count, slot->words);
    tag = L4_Ipc(L4_ThreadIdOfWord(slot->to), L4_ThreadIdOfWord(slot->from), slot->timeouts, &sender);
    slot->error = L4_IpcFailed(tag) ? L4_ErrorCode() & 15 : 0;
    slot->tag = L4_IpcFailed(tag) ? 0x8000 : slot->from == 0 ? 0 : tag.raw;
    slot->sender = L4_IpcFailed(tag) || slot->from == 0 ? 0 : sender.raw;
    slot->count = L4_UntypedWords(L4_MsgTagOfWord(slot->tag)) + L4_TypedWords(L4_MsgTagOfWord(slot->tag));
    L4_StoreMRs(1, (int)slot->count, slot->words + 1);
}

static void make_unmap(const struct slot *slot) {
    L4_LoadMRs(0, (int)slot->count, slot->words);
    L4_Unmap(slot->control);
}

/* The server has filled the pages with the instruction `ret`, so that an agent can jump there. */
static void make_fault(const struct slot *slot) {
    volatile char *byte = (volatile char *)slot->address;
    if (slot->access & L4_eXecutable)
        ((void (*)(void))slot->address)();
    else if (slot->access & L4_Writable)
        *byte = (char)0xc3;
    else
        (void)*byte;
}

void agent(struct slot *slot) {
    L4_Set_MsgTag(L4_MsgTagAddLabel(L4_Niltag, READY));
    L4_Send(L4_Pager());
    for (;;) {
        while (slot->call == NO_CALL)
            L4_Yield();
        slot->state = CALLING;
        switch (slot->call) {
        case IPC: make_ipc(slot); break;
        case UNMAP: make_unmap(slot); break;
        case FAULT: make_fault(slot); break;
        default: break;
        }
        slot->call = NO_CALL;
        slot->state = RETURNED;
    }
}
