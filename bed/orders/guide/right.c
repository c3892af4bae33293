#include "lock.h"

int main(void) {
    L4_ThreadId_t from, waiter = L4_nilthread;
    L4_Word_t is_held = 0;
    L4_MsgTag_t tag = L4_Wait(&from);
    for (;;) {
        if (L4_Label(tag) == RELEASE) {
            L4_Set_MsgTag(L4_Niltag);
            L4_Reply(from);
            is_held = waiter.raw != 0;
            from = waiter;
            waiter = L4_nilthread;
        } else if (is_held) {
            waiter = from;
            from = L4_nilthread;
        } else {
            is_held = 1;
        }
        L4_Set_MsgTag(L4_MsgTagOfWord(GRANTED << 16));
        tag = L4_ReplyWait(from, &from);
    }
}
