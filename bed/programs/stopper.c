/* Stops thread 12, a thread of its own space that waits for its start, starts it, and cancels its wait. This space is not root's. */
#include "text.h"
#include <l4/ipc.h>
#include <l4/thread.h>

#define ME L4_GlobalId(3, 1)
#define MATE L4_GlobalId(12, 1)
#define WAITS_TO_RECEIVE 6

static char stack[1024] __attribute__((aligned(16)));

static void send_to(L4_ThreadId_t id) {
    L4_Set_MsgTag(L4_Niltag);
    L4_Send(id);
}

static void run_mate(void) {
    print("mate: runs\n");
    L4_Receive(ME);
    print_number("mate: a receive is canceled: ErrorCode ", L4_ErrorCode(), "\n");
    send_to(ME);
    for (;;)
        L4_Sleep(L4_Never);
}

int main(void) {
    L4_ThreadState_t state = L4_Stop(MATE);
    print_number("stopper: the mate waits to receive: ", L4_ThreadWasReceiving(state), "");
    print_number(", ErrorCode ", L4_ErrorCode(), "\n");
    state = L4_Stop(MATE);
    print_number("stopper: and is halted: ", L4_ThreadWasHalted(state), "\n");
    L4_Set_PagerOf(MATE, L4_Myself());
    print_number("stopper: only root's space can change its pager: ErrorCode ", L4_ErrorCode(), "\n");
    L4_Start_SpIp(MATE, (L4_Word_t)(stack + sizeof stack - 16), (L4_Word_t)run_mate);
    print_number("stopper: starts it: ErrorCode ", L4_ErrorCode(), "\n");
    while (L4_Set_Priority(MATE, 0xffffffffu) != WAITS_TO_RECEIVE)
        L4_Yield();
    L4_Start(MATE);
    L4_Receive(MATE);
    print_number("stopper: the mate has sent a message: ErrorCode ", L4_ErrorCode(), "\n");
    send_to(L4_Pager());
    return 0;
}
