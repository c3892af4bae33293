/* Waits for an answer of its pager, which changes this thread's id instead. */
#include "children.h"

int main(void) {
    L4_MsgTag_t tag;
    L4_Set_MsgTag(L4_Niltag);
    tag = L4_Call(L4_Pager());
    print_number(L4_IpcFailed(tag) ? "waiter: the receive fails, ErrorCode " : "waiter: the receive succeeds, ", L4_ErrorCode(), "\n");
    print_number("waiter: I have version ", L4_Version(L4_Myself()), "\n");
    L4_Set_MsgTag(L4_Niltag);
    L4_Send(L4_Pager());
    return 0;
}
