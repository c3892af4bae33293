/* Takes three turns: two yields, and the receive in which a thread waits whose main has returned. */
#include "unordered.h"

int main(void) {
    wait_for_go();
    L4_ThreadSwitch(L4_nilthread);
    L4_ThreadSwitch(L4_nilthread);
    return 0;
}
