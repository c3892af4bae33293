/* A pager with a mistake: it has one frame for two clients. It takes the page from one client when the other faults, and does not keep what the page
 * has. */
#include "shared.h"

int main(void) {
    L4_ThreadId_t from;
    L4_Word_t address;
    L4_MsgTag_t tag;
    start_programs(2);
    take_pages(SOURCE, PAGE);
    let_go(0, 2);
    tag = L4_Wait(&from);
    for (;;) {
        L4_StoreMR(1, &address);
        answer_fault(L4_ThreadNo(from) - FIRST_CHILD, address);
        if (is_fault(tag) && address / PAGE == 0x20) {
            L4_UnmapFpage(page(SOURCE, L4_FullyAccessible));
            load_page(SOURCE, 0x20000, L4_ReadWriteOnly);
        }
        tag = L4_ReplyWait(from, &from);
    }
}
