/* Registers itself, and adds 1 to the word of one request. */
#include "names.h"

int main(void) {
    L4_ThreadId_t from;
    L4_Word_t word = 0;
    wait_for_go();
    ask_names(REGISTER);
    L4_Wait(&from);
    L4_StoreMR(1, &word);
    L4_Set_MsgTag(L4_MsgTagOfWord(1));
    L4_LoadMR(1, word + 1);
    L4_Reply(from);
    return 0;
}
