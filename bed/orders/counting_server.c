/* Answers each request with the number of requests before it. */
#include "unordered.h"

int main(void) {
    L4_ThreadId_t from;
    L4_Word_t count = 0;
    wait_for_go();
    L4_Wait(&from);
    for (;;) {
        L4_Set_MsgTag(L4_MsgTagOfWord(1));
        L4_LoadMR(1, count++);
        L4_ReplyWait(from, &from);
    }
}
