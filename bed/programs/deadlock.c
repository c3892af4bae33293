/* Threads 3, 4 and 5 send each to the next, and thread 5 to thread 3. Thread 6 receives from thread 7, which is stopped. */
#include "children.h"

int main(void) {
    L4_Word_t number = L4_ThreadNo(L4_Myself());
    L4_Set_MsgTag(L4_Niltag);
    switch (number) {
    case 3: case 4: L4_Send(L4_GlobalId(number + 1, 1)); break;
    case 5: L4_Send(L4_GlobalId(3, 1)); break;
    case 6: L4_Receive(L4_GlobalId(7, 1)); break;
    default: __asm__ volatile("deadlock_halt: hlt\n\tnop\n\tnop\n\tnop");
    }
    print("deadlock: it continues, which is wrong\n");
    return 0;
}
