/* A root task that changes the version of a thread's id twice: after a message has arrived for it, and while it waits to send. Then the thread
 * creates another one, which a script cannot say. */
#include "children.h"

#define TAKER L4_GlobalId(10, 1)

static char stack[2048] __attribute__((aligned(16)));

static void take(void) {
    L4_Word_t word;
    L4_MsgTag_t tag = L4_Receive(L4_GlobalId(2, 1));
    L4_StoreMR(1, &word);
    print_number("taker: received ", L4_IpcSucceeded(tag) ? word : 0, "");
    print_number(", has version ", L4_Version(L4_Myself()), "\n");
    L4_Set_MsgTag(L4_Niltag);
    L4_Send(L4_GlobalId(2, 1));
    print_number("taker: a send is canceled: ErrorCode ", L4_ErrorCode(), "");
    print_number(", has version ", L4_Version(L4_Myself()), "\n");
    demand(L4_ThreadControl(L4_GlobalId(11, 1), L4_Myself(), L4_Myself(), L4_nilthread, (void *)0xffffffffu), "the taker cannot create a thread");
    L4_KDB_Enter("done");
}

static void rename(L4_Word_t version) {
    L4_ThreadId_t id = L4_GlobalId(10, version);
    demand(L4_ThreadControl(id, id, L4_nilthread, L4_nilthread, (void *)0xffffffffu), "the version cannot be changed");
}

int main(void) {
    demand(L4_ThreadControl(TAKER, L4_Myself(), L4_Myself(), L4_Pager(), L4_Utcb() + 128), "the taker cannot be created");
    L4_Start_SpIp(TAKER, (L4_Word_t)(stack + sizeof stack - 16), (L4_Word_t)take);
    L4_Yield();
    L4_LoadMR(1, 5);
    L4_Set_MsgTag(L4_MsgTagOfWord(1));
    L4_Send(TAKER);
    rename(2);
    L4_Yield();
    rename(3);
    for (;;)
        L4_Sleep(L4_Never);
}
