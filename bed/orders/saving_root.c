/* A right pager with one frame for two clients: before it takes the page from one client, it saves what the page has, and gives it back later. */
#include "shared.h"

#define WORDS (PAGE / 4)

static L4_Word_t saved[2][WORDS];

static void copy(volatile L4_Word_t *to, volatile const L4_Word_t *from) {
    L4_Word_t k;
    for (k = 0; k < WORDS; k++)
        to[k] = from[k];
}

int main(void) {
    L4_ThreadId_t from;
    L4_Word_t address, owner = 0, asker;
    L4_MsgTag_t tag;
    start_programs(2);
    take_pages(SOURCE, PAGE);
    let_go(0, 2);
    tag = L4_Wait(&from);
    for (;;) {
        L4_StoreMR(1, &address);
        asker = L4_ThreadNo(from) - FIRST_CHILD;
        answer_fault(asker, address);
        if (is_fault(tag) && address / PAGE == 0x20) {
            L4_UnmapFpage(page(SOURCE, L4_FullyAccessible));
            copy(saved[owner], (volatile L4_Word_t *)SOURCE);
            copy((volatile L4_Word_t *)SOURCE, saved[asker]);
            owner = asker;
            load_page(SOURCE, 0x20000, L4_ReadWriteOnly);
        }
        tag = L4_ReplyWait(from, &from);
    }
}
