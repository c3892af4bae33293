/* A root task that maps two pages with the right to write alone. The processor has no such right, so the child can read them too. */
#include "children.h"

#define OWN 0xa0000u
#define SHARED 0x800000u

int main(void) {
    L4_ThreadId_t from;
    L4_Word_t address, faults = 0;
    L4_MsgTag_t tag;
    L4_Msg_t message;
    take_pages(OWN, 2 * PAGE);
    start_child(0);
    tag = L4_Wait(&from);
    while (is_fault(tag)) {
        L4_StoreMR(1, &address);
        if (address >= SHARED) {
            faults++;
            L4_MsgClear(&message);
            L4_MsgAppendMapItem(&message, L4_MapItem(L4_FpageAddRights(L4_FpageLog2(OWN + (address - SHARED), PAGE_LOG), L4_Writable), address));
            L4_MsgLoad(&message);
        } else {
            answer_fault(0, address);
        }
        tag = L4_ReplyWait(from, &from);
    }
    print_number("root: ", faults, " faults\n");
    L4_KDB_Enter("the rights are as expected");
    return 0;
}
