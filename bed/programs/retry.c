/* A root task that answers a write fault first without any page, then with the right to read, and then with the right to write. The thread
 * raises the fault again each time. */
#include "children.h"

#define SHARED 0x800000u
#define OWN 0xa0000u

static void answer_shared(L4_Word_t times) {
    L4_Msg_t message;
    L4_MsgClear(&message);
    if (times > 0)
        L4_MsgAppendMapItem(&message, L4_MapItem(L4_FpageAddRights(L4_FpageLog2(OWN, PAGE_LOG), times == 1 ? L4_Readable : L4_ReadWriteOnly), SHARED));
    L4_MsgLoad(&message);
}

int main(void) {
    L4_ThreadId_t from;
    L4_Word_t address, times = 0;
    L4_MsgTag_t tag;
    take_pages(OWN, PAGE);
    start_child(0);
    tag = L4_Wait(&from);
    while (is_fault(tag)) {
        L4_StoreMR(1, &address);
        if (address == SHARED) {
            print_word("root: a write fault at ", address, "\n");
            answer_shared(times++);
        } else {
            answer_fault(0, address);
        }
        tag = L4_ReplyWait(from, &from);
    }
    print_number("root: the word is ", *(volatile L4_Word_t *)OWN, ", ");
    print_number("after ", times, " faults\n");
    L4_KDB_Enter("the fault was raised until it was answered");
    return 0;
}
