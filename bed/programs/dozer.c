/* Sleeps twice, and then waits for ever. As thread 4, it sends to thread 5 instead, with a timeout of an hour. */
#include "children.h"

int main(void) {
    L4_ThreadId_t from;
    if (L4_ThreadNo(L4_Myself()) == 4) {
        L4_Set_MsgTag(L4_Niltag);
        L4_Send_Timeout(L4_GlobalId(5, 1), L4_TimePeriod(3600000000u));
    }
    L4_Sleep(L4_TimePeriod(2000));
    print("dozer: wakes\n");
    L4_Sleep(L4_TimePeriod(2000));
    print("dozer: wakes again\n");
    L4_Wait(&from);
    return 0;
}
