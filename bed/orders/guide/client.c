#include "lock.h"

static L4_Word_t ask(L4_Word_t request) {
    L4_Set_MsgTag(L4_MsgTagOfWord(request << 16));
    return L4_Label(L4_Call(L4_GlobalId(3, 1)));
}

int main(void) {
    if (ask(ACQUIRE) == BUSY)
        L4_Receive(L4_GlobalId(3, 1));
    L4_KDB_PrintString("has the lock\n");
    ask(RELEASE);
    return 0;
}
