/* Receives a message once it can go. */
#include "unordered.h"

int main(void) {
    L4_ThreadId_t from;
    wait_for_go();
    L4_Wait(&from);
    print("has a message\n");
    return 0;
}
