/* Starts two programs, and lets the second one go. The first one does not wait for that. */
#include "unordered.h"

int main(void) {
    L4_ThreadId_t from;
    L4_Word_t address;
    L4_MsgTag_t tag;
    start_child(0);
    start_child(1);
    tag = L4_Wait(&from);
    while (is_fault(tag)) {
        L4_StoreMR(1, &address);
        answer_fault(L4_ThreadNo(from) - FIRST_CHILD, address);
        tag = L4_ReplyWait(from, &from);
    }
    let_go(1, 2);
    serve_faults();
    return 0;
}
