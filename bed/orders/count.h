/* Returns how many requests the counting server, which is thread 3, has had before this one. */
#ifndef COUNT_H
#define COUNT_H
#include "unordered.h"

static inline L4_Word_t ask_count(void) {
    L4_Word_t count = 0;
    L4_Set_MsgTag(L4_Niltag);
    L4_Call(thread(3));
    L4_StoreMR(1, &count);
    return count;
}
#endif
