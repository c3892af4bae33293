/* Sends to the server for a second at most. */
#include "unordered.h"

int main(void) {
    wait_for_go();
    L4_Set_MsgTag(L4_Niltag);
    if (L4_IpcFailed(L4_Send_Timeout(thread(3), L4_TimePeriod(1000000))))
        print_number("not sent, ErrorCode ", L4_ErrorCode(), "\n");
    else
        print("sent\n");
    return 0;
}
