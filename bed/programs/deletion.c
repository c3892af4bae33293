/* A root task that deletes threads during Ipc and while they run. Thread 3 waits to send to thread 4, thread 5 waits to receive from thread 4,
 * and thread 6 never waits. */
#include "children.h"

#define CHILDREN 4u

static void delete_child(L4_Word_t number, const char *what) {
    L4_Word_t done = L4_ThreadControl(child_id(number), L4_nilthread, L4_nilthread, L4_nilthread, (void *)0xffffffffu);
    print("root: ");
    print(what);
    print_number(done ? " is deleted, ErrorCode " : " is not deleted, ErrorCode ", L4_ErrorCode(), "\n");
}

/* Answers page faults until each child has sent `messages` messages in all. */
static void serve(L4_Word_t messages) {
    L4_ThreadId_t from;
    L4_Word_t address;
    L4_MsgTag_t tag = L4_Wait(&from);
    while (is_fault(tag) || --messages > 0) {
        if (is_fault(tag)) {
            L4_StoreMR(1, &address);
            answer_fault(L4_ThreadNo(from) - FIRST_CHILD, address);
        }
        tag = is_fault(tag) ? L4_ReplyWait(from, &from) : L4_Wait(&from);
    }
}

int main(void) {
    L4_Word_t k;
    for (k = 0; k < CHILDREN; k++)
        start_child(k);
    serve(CHILDREN); /* each child says that it begins */
    L4_Yield();      /* they wait, and the last one runs until it is interrupted */
    delete_child(0, "the thread that waits to send");
    L4_Set_MsgTag(L4_Niltag);
    L4_Send(child_id(1)); /* lets thread 4 look for a sender */
    serve(1);
    delete_child(1, "the thread from which another receives");
    serve(1);
    delete_child(3, "the thread that runs");
    delete_child(3, "the same thread");
    delete_child(2, "the last thread");
    L4_UnmapFpage(L4_FpageAddRights(L4_FpageLog2(program(0)->text.pstart, PAGE_LOG), L4_FullyAccessible)); /* no space has this page now */
    print_number("root: deletes itself: ", L4_ThreadControl(L4_Myself(), L4_nilthread, L4_nilthread, L4_nilthread, (void *)0xffffffffu), ", ");
    print_number("ErrorCode ", L4_ErrorCode(), "\n");
    L4_KDB_Enter("all threads were deleted");
    return 0;
}
