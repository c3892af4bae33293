/* Acquires and releases the lock several times. */
#include "lock.h"
#ifndef TIMES
#define TIMES 2
#endif

int main(void) {
    L4_Word_t k, granted = 0;
    wait_for_go();
    for (k = 0; k < TIMES; k++) {
        granted += ask_lock(ACQUIRE) == GRANTED;
        ask_lock(RELEASE);
    }
    print_number("had the lock ", granted, " times\n");
    return 0;
}
