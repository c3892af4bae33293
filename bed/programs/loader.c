/* A root task: starts every program in a space of its own, answers page faults, and ends the run when each program has sent a message. */
#include "children.h"

int main(void) {
    L4_Word_t count = boot_info()->num_entries, done = 0, k, address;
    L4_ThreadId_t from;
    L4_MsgTag_t tag;
    for (k = 0; k < count; k++)
        start_child(k);
    tag = L4_Wait(&from);
    while (done < count) {
        if (is_fault(tag)) {
            L4_StoreMR(1, &address);
            answer_fault(L4_ThreadNo(from) - FIRST_CHILD, address);
            tag = L4_ReplyWait(from, &from);
        } else if (++done < count) {
            tag = L4_Wait(&from);
        }
    }
    L4_KDB_Enter("all programs have ended");
    return 0;
}
