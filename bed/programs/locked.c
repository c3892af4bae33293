/* Takes the lock of thread 3 three times, and yields while it has it. Nobody else may have it then. */
#include "text.h"
#include <l4/ipc.h>
#include <l4/message.h>
#include <l4/schedule.h>
#include <l4/thread.h>

#define LOCKER L4_GlobalId(3, 1)

static void ask(L4_Word_t label) {
    L4_Set_MsgTag(L4_MsgTagOfWord(label << 16));
    L4_Call(LOCKER);
}

int main(void) {
    L4_Word_t round;
    for (round = 0; round < 3; round++) {
        ask(1);
        print_number("locked: has the lock, time ", round, ",");
        L4_Yield();
        L4_Yield();
        print_number(" and still has it, time ", round, "\n");
        ask(2);
    }
    L4_Set_MsgTag(L4_Niltag);
    L4_Send(L4_Pager());
    return 0;
}
