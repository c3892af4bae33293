/* Sends to thread 4 for a second at most. */
#include "unordered.h"

int main(void) {
    L4_Set_MsgTag(L4_Niltag);
    print(L4_IpcFailed(L4_Send_Timeout(thread(4), L4_TimePeriod(1000000))) ? "not sent\n" : "sent\n");
    return 0;
}
