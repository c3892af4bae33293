/* Yields five times beside threads that never wait, and says whether that took less than 20 seconds, also on a busy machine. */
#include "children.h"
#include <l4/schedule.h>

int main(void) {
    L4_Clock_t start = L4_SystemClock(), end;
    L4_Word_t k;
    for (k = 0; k < 5; k++)
        L4_Yield();
    end = L4_SystemClock();
    print(end.raw - start.raw < 20000000 ? "yielder: five turns took less than 20 seconds\n" : "yielder: five turns took too long\n");
    L4_KDB_Enter("done");
    return 0;
}
