/* Adds 1 to each word of a message and sends it back, until a message with a label arrives. */
#include "children.h"

int main(void) {
    L4_ThreadId_t from;
    L4_MsgTag_t tag = L4_Wait(&from);
    while (L4_Label(tag) == 0) {
        L4_Word_t k, word;
        for (k = 1; k <= L4_UntypedWords(tag); k++) {
            L4_StoreMR((int)k, &word);
            L4_LoadMR((int)k, word + 1);
        }
        L4_Set_MsgTag(tag);
        tag = L4_ReplyWait(from, &from);
    }
    L4_Set_MsgTag(L4_Niltag);
    L4_Send(L4_Pager());
    return 0;
}
