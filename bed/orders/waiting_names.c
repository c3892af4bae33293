/* A right name server: a client that asks for a name too early gets its answer when the name is registered. The server has room for one name and one
 * client. */
#include "names.h"

int main(void) {
    L4_ThreadId_t from, waiting = L4_nilthread;
    L4_Word_t adder = 0;
    L4_MsgTag_t tag;
    wait_for_go();
    tag = L4_Wait(&from);
    for (;;) {
        if (L4_Label(tag) == REGISTER) {
            L4_StoreMR(1, &adder);
            L4_Set_MsgTag(L4_Niltag);
            L4_Reply(from);
            from = waiting;
        } else if (adder == 0) {
            waiting = from;
            from = L4_nilthread;
        }
        L4_Set_MsgTag(L4_MsgTagOfWord(1));
        L4_LoadMR(1, adder);
        tag = L4_ReplyWait(from, &from);
    }
}
