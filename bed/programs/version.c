/* A root task that gives its child's id a new version while the child waits. The child's Ipc is canceled, and the old id no longer exists. */
#include "children.h"

static L4_Bool_t has_faulted(L4_ThreadId_t *from, L4_MsgTag_t *tag) {
    L4_Word_t address;
    if (!is_fault(*tag))
        return L4_FALSE;
    L4_StoreMR(1, &address);
    answer_fault(0, address);
    *tag = L4_ReplyWait(*from, from);
    return L4_TRUE;
}

int main(void) {
    L4_ThreadId_t before = child_id(0), after = L4_GlobalId(FIRST_CHILD, 2), from;
    L4_MsgTag_t tag;
    start_child(0);
    tag = L4_Wait(&from);
    while (has_faulted(&from, &tag))
        continue;
    /* the child waits for an answer: it sends and receives in one Ipc */
    demand(L4_ThreadControl(after, after, L4_nilthread, L4_nilthread, (void *)0xffffffffu), "root: the version cannot be changed");
    L4_Set_MsgTag(L4_Niltag);
    L4_Send_Timeout(before, L4_ZeroTime);
    print_number("root: a send to the old id fails, ErrorCode ", L4_ErrorCode(), "\n");
    tag = L4_Wait(&from);
    while (has_faulted(&from, &tag))
        continue;
    print_number("root: a message from thread ", L4_ThreadNo(from), ", ");
    print_number("version ", L4_Version(from), "\n");
    L4_KDB_Enter("the version has changed");
    return 0;
}
