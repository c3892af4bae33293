/* A child that keeps numbers in registers, also during a page fault. */
#include "keeper.h"

static volatile L4_Word_t page[2 * PAGE / 4];

int main(void) {
    L4_Word_t sum;
    set_numbers(1000);
    page[PAGE / 4] = 1; /* a page fault */
    sum = get_numbers();
    print_number("keeper: keeps ", sum, " during a page fault\n");
    print_number("keeper: keeps ", keep_numbers(100, L4_Pager()), "\n");
    L4_Set_MsgTag(L4_Niltag);
    L4_Send(L4_Pager());
    return 0;
}
