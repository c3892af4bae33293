/* A name server with a mistake: to a client that asks for a name too early, it answers that there is none. */
#include "names.h"

int main(void) {
    L4_ThreadId_t from;
    L4_Word_t adder = 0;
    L4_MsgTag_t tag;
    wait_for_go();
    tag = L4_Wait(&from);
    for (;;) {
        if (L4_Label(tag) == REGISTER) {
            L4_StoreMR(1, &adder);
            L4_Set_MsgTag(L4_Niltag);
        } else {
            L4_Set_MsgTag(L4_MsgTagOfWord(adder == 0 ? UNKNOWN << 16 : 1));
            L4_LoadMR(1, adder);
        }
        tag = L4_ReplyWait(from, &from);
    }
}
