/* A root task whose two workers never wait, and print the time from time to time. With virtual time, each run prints the same lines. */
#include "children.h"
#include <l4/schedule.h>

#define LINES 12
#define LOOPS 200000

static char stacks[2][2048];

static void work(void) {
    L4_Word_t me = L4_ThreadNo(L4_Myself()), line, k;
    for (line = 0; line < LINES; line++) {
        for (k = 0; k < LOOPS; k++)
            __asm__ volatile("");
        print_number("worker: thread ", me, "");
        print_number(" at ", (L4_Word_t)L4_SystemClock().raw, "\n");
    }
    L4_KDB_Enter("a worker is done");
}

int main(void) {
    L4_Word_t k;
    for (k = 0; k < 2; k++) {
        L4_ThreadId_t id = L4_GlobalId(10 + k, 1);
        demand(L4_ThreadControl(id, L4_Myself(), L4_Myself(), L4_Myself(), L4_Utcb() + 128 * (k + 1)), "a worker cannot be created");
        L4_Set_MsgTag(L4_MsgTagOfWord(2));
        L4_LoadMR(1, (L4_Word_t)work);
        L4_LoadMR(2, (L4_Word_t)(stacks[k] + sizeof stacks[k] - 8));
        demand(L4_IpcSucceeded(L4_Send(id)), "a worker does not start");
        demand(L4_ThreadControl(id, id, L4_nilthread, L4_Pager(), (void *)0xffffffffu), "a worker gets no pager");
    }
    for (;;)
        L4_Receive(L4_Myself());
}
