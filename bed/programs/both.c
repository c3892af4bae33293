/* Writes and reads two pages. */
#include "children.h"

int main(void) {
    volatile L4_Word_t *words = (volatile L4_Word_t *)0x800000;
    words[0] = 5;
    words[PAGE / 4] = 6;
    print_number("child: reads ", words[0] + words[PAGE / 4], "\n");
    L4_Set_MsgTag(L4_Niltag);
    L4_Send(L4_Pager());
    return 0;
}
