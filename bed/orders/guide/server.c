#include "lock.h"

int main(void) {
    L4_ThreadId_t from, waiter = L4_nilthread;
    L4_Word_t is_held = 0, label;
    L4_MsgTag_t tag = L4_Wait(&from);
    for (;;) {
        label = GRANTED;
        if (L4_Label(tag) == RELEASE) {
            is_held = waiter.raw != 0;
            if (is_held) {
                L4_Set_MsgTag(L4_MsgTagOfWord(GRANTED << 16));
                L4_Reply(waiter);
                waiter = L4_nilthread;
            }
        } else if (is_held) {
            waiter = from;
            label = BUSY;
        } else {
            is_held = 1;
        }
        L4_Set_MsgTag(L4_MsgTagOfWord(label << 16));
        tag = L4_ReplyWait(from, &from);
    }
}
