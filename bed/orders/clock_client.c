/* Looks at its clock twice, and asks the server between. */
#include "count.h"
#include <l4/schedule.h>

int main(void) {
    L4_Word_t count;
    L4_Clock_t before, after;
    wait_for_go();
    before = L4_SystemClock();
    count = ask_count();
    after = L4_SystemClock();
    print_number("is number ", count, ", ");
    print_number("", (L4_Word_t)(after.raw - before.raw), " microseconds later\n");
    return 0;
}
