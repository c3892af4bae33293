/* Root maps 1,024 pages to its child at 66 places, and every second page without the right to write, so that no two pages are alike. This is more
 * than Linux lets a process map by default (vm.max_map_count). Start it with 2,048 frames. */
#include "children.h"

#define POOL 0x400000u
#define POOL_LOG 22
#define TARGET 0x10000000u
#define ITEMS 66u

static void take_pool(void) {
    L4_Word_t page;
    take_pages(POOL, 1u << POOL_LOG);
    for (page = PAGE; page < 1u << POOL_LOG; page += 2 * PAGE)
        L4_Flush(L4_FpageAddRights(L4_FpageLog2(POOL + page, PAGE_LOG), L4_Writable));
}

int main(void) {
    L4_Word_t sent = 0, address;
    L4_ThreadId_t from;
    L4_MsgTag_t tag;
    L4_Msg_t message;
    take_pool();
    start_child(0);
    tag = L4_Wait(&from);
    while (sent < ITEMS) {
        if (is_fault(tag)) {
            L4_StoreMR(1, &address);
            answer_fault(0, address);
        } else {
            L4_MsgClear(&message);
            L4_MsgAppendMapItem(&message, L4_MapItem(L4_FpageAddRights(L4_FpageLog2(POOL, POOL_LOG), L4_ReadWriteOnly), TARGET + (sent << POOL_LOG)));
            L4_MsgLoad(&message);
            sent++;
        }
        tag = L4_ReplyWait(from, &from);
    }
    print_number("mapper: the child has taken ", sent * 1024, " pages\n");
    L4_KDB_Enter("done");
    return 0;
}
