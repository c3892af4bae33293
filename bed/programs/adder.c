/* Registers itself with the name server as `add`, and adds 1 to the word of one request. */
#include "names.h"

int main(void) {
    L4_ThreadId_t from;
    L4_Word_t word = 0;
    print_number("adder: registers add: ", ask(REGISTER, "add", L4_Myself().raw, &word), "\n");
    print_number("adder: registers it again: ", ask(REGISTER, "add", L4_Myself().raw, &word), "\n");
    L4_Set_MsgTag(L4_Niltag);
    L4_Send(child_id(2)); /* the asker may begin */
    L4_Wait(&from);
    L4_StoreMR(1, &word);
    L4_Set_MsgTag(L4_MsgTagOfWord(1));
    L4_LoadMR(1, word + 1);
    L4_Reply(from);
    L4_Set_MsgTag(L4_Niltag);
    L4_Send(L4_Pager());
    return 0;
}
