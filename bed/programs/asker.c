/* Finds the adder through the name server, and lets it add. */
#include "names.h"

int main(void) {
    L4_Word_t id = 0, word = 0;
    L4_ThreadId_t adder;
    L4_Receive(child_id(1)); /* until the adder has registered */
    print_number("asker: looks up sub: ", ask(LOOK_UP, "sub", 0, &id), "\n");
    print_number("asker: registers sub: ", ask(REGISTER, "sub", 1, &id), "\n");
    print_number("asker: registers mul: ", ask(REGISTER, "mul", 1, &id), "\n");
    print_number("asker: looks up add: ", ask(LOOK_UP, "add", 0, &id), ", ");
    adder.raw = id;
    print_number("thread ", L4_ThreadNo(adder), "\n");
    L4_Set_MsgTag(L4_MsgTagOfWord(1));
    L4_LoadMR(1, 41);
    L4_Call(adder);
    L4_StoreMR(1, &word);
    print_number("asker: 41 and 1 are ", word, "\n");
    ask(CLOSE, "", 0, &word);
    L4_Set_MsgTag(L4_Niltag);
    L4_Send(L4_Pager());
    return 0;
}
