/* The children of the root task `deletion`, by their thread numbers. */
#include "children.h"

static void begin(void) {
    print_number("victim: thread ", L4_ThreadNo(L4_Myself()), " begins\n");
    L4_Set_MsgTag(L4_Niltag);
    L4_Send(L4_Pager());
}

static void tell(const char *what, L4_MsgTag_t tag) {
    print(what);
    print_number(L4_IpcFailed(tag) ? " fails, ErrorCode " : " succeeds, ", L4_ErrorCode(), "\n");
    L4_Set_MsgTag(L4_Niltag);
    L4_Send(L4_Pager());
}

int main(void) {
    L4_ThreadId_t from;
    begin();
    L4_Set_MsgTag(L4_Niltag);
    switch (L4_ThreadNo(L4_Myself())) {
    case 3:
        L4_Send(child_id(1));
        break;
    case 4:
        L4_Receive(L4_Pager());
        tell("victim: a receive from the deleted sender", L4_Wait_Timeout(L4_ZeroTime, &from));
        break;
    case 5:
        tell("victim: a receive from a thread that is deleted", L4_Receive(child_id(1)));
        break;
    default:
        for (;;)
            __asm__ volatile("");
    }
    return 0;
}
