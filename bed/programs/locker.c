/* A lock server: label 1 takes the lock, label 2 releases it, and label 3 ends the server. Threads that wait for the lock get it in the order in which
 * they asked. */
#include "text.h"
#include <l4/ipc.h>
#include <l4/message.h>
#include <l4/thread.h>

enum { LOCK = 1, UNLOCK = 2 };
#define PLACES 16u

static void answer(L4_ThreadId_t to) {
    L4_Set_MsgTag(L4_Niltag);
    L4_Reply(to);
}

int main(void) {
    L4_ThreadId_t waiting[PLACES], owner = L4_nilthread, from;
    L4_Word_t first = 0, end = 0, served = 0;
    L4_MsgTag_t tag = L4_Wait(&from);
    while (served < 9) {
        if (L4_Label(tag) == LOCK && L4_IsNilThread(owner)) {
            owner = from;
            answer(from);
        } else if (L4_Label(tag) == LOCK) {
            waiting[end++ % PLACES] = from;
        } else if (L4_Label(tag) == UNLOCK && L4_IsThreadEqual(from, owner)) {
            owner = first == end ? L4_nilthread : waiting[first++ % PLACES];
            served++;
            answer(from);
            if (!L4_IsNilThread(owner))
                answer(owner);
        } else {
            print("locker: another thread releases the lock\n");
        }
        if (served < 9)
            tag = L4_Wait(&from);
    }
    print_number("locker: served ", served, "\n");
    L4_Set_MsgTag(L4_Niltag);
    L4_Send(L4_Pager());
    return 0;
}
