/* Looks at its clock before and after a sleep of five milliseconds. */
#include "unordered.h"

int main(void) {
    L4_Clock_t before, after;
    wait_for_go();
    before = L4_SystemClock();
    L4_Sleep(L4_TimePeriod(5000));
    after = L4_SystemClock();
    print_number("wakes ", (L4_Word_t)(after.raw - before.raw), " microseconds later\n");
    return 0;
}
