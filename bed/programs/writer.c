/* Writes one word to an absent page. */
#include "children.h"

int main(void) {
    *(volatile L4_Word_t *)0x800000 = 77;
    L4_Set_MsgTag(L4_Niltag);
    L4_Send(L4_Pager());
    return 0;
}
