/* The protocol of a name server for one name, which is thread 3. */
#ifndef NAMES_H
#define NAMES_H
#include "unordered.h"
enum { REGISTER = 1, LOOK_UP = 2, UNKNOWN = 3 };

/* Returns the thread that the server has answered with, or nilthread. */
static inline L4_ThreadId_t ask_names(L4_Word_t request) {
    L4_ThreadId_t answer = L4_nilthread;
    L4_MsgTag_t tag;
    L4_Set_MsgTag(L4_MsgTagOfWord(request << 16 | 1));
    L4_LoadMR(1, L4_Myself().raw);
    tag = L4_Call(thread(3));
    if (L4_UntypedWords(tag) == 1)
        L4_StoreMR(1, &answer.raw);
    return answer;
}
#endif
