/* Calls the server, and waits for the answer for a second at most. */
#include "unordered.h"

int main(void) {
    L4_MsgTag_t tag;
    wait_for_go();
    L4_Set_MsgTag(L4_Niltag);
    tag = L4_Call_Timeouts(thread(3), L4_Never, L4_TimePeriod(1000000));
    if (L4_IpcFailed(tag))
        print_number("no answer, ErrorCode ", L4_ErrorCode(), "\n");
    else
        print("an answer\n");
    return 0;
}
