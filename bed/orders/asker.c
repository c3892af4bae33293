/* Asks the name server for the adder, and the adder for a sum. */
#include "names.h"

int main(void) {
    L4_Word_t word = 0;
    L4_ThreadId_t adder;
    wait_for_go();
    adder = ask_names(LOOK_UP);
    if (adder.raw == 0) {
        print("there is no adder\n");
        return 0;
    }
    L4_Set_MsgTag(L4_MsgTagOfWord(1));
    L4_LoadMR(1, 41);
    L4_Call(adder);
    L4_StoreMR(1, &word);
    print_number("41 and 1 are ", word, "\n");
    return 0;
}
