/* Writes to absent pages, one after the other, and prints how long that took. */
#include "children.h"

#ifndef PAGES
#define PAGES 64u
#endif

static volatile unsigned char bytes[PAGES * PAGE] __attribute__((aligned(4096)));

int main(void) {
    L4_Clock_t begin = L4_SystemClock();
    L4_Word_t k;
    for (k = 0; k < PAGES; k++)
        bytes[k * PAGE] = 1;
    print_number("faults: ", PAGES, " pages took ");
    print_number("", (L4_Word_t)(L4_SystemClock().raw - begin.raw), " microseconds\n");
    L4_Set_MsgTag(L4_Niltag);
    L4_Send(L4_Pager());
    return 0;
}
