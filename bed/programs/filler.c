/* Receives a region in several messages. Then a second thread of this space, which root starts, uses the pages without any page fault. */
#include "children.h"
#include "region.h"

static L4_Word_t stack[512];

static volatile L4_Word_t *page_word(L4_Word_t page) {
    return (volatile L4_Word_t *)(REGION_TARGET + page * PAGE);
}

static void worker(void) {
    L4_Word_t sum = 0, k;
    for (k = 0; k < REGION_PAGES; k++)
        sum += *page_word(k);
    print_number("worker: the sum is ", sum, "\n");
    *page_word(0) = 100;
    L4_Set_MsgTag(L4_MsgTagOfWord(WORKER_DONE << 16));
    L4_Call(L4_Pager());
    print_number("worker: can still read ", *page_word(0), "\n");
    *page_word(0) = 200; /* faults: root has revoked w */
    print_number("worker: reads again ", *page_word(1), "\n"); /* faults: root has revoked the page */
    L4_Set_MsgTag(L4_MsgTagOfWord(WORKER_DONE << 16));
    L4_Call(L4_Pager());
}

int main(void) {
    L4_MsgTag_t tag;
    L4_Word_t items = 0;
    L4_Accept(L4_MapGrantItems(L4_CompleteAddressSpace));
    L4_Set_MsgTag(L4_MsgTagOfWord(READY_TO_RECEIVE << 16));
    tag = L4_Call(L4_Pager());
    while (L4_Label(tag) != REGION_ENDS) {
        items += L4_TypedWords(tag) / 2;
        tag = L4_Receive(L4_Pager());
    }
    print_number("filler: received ", items, " items\n");
    L4_Set_MsgTag(L4_MsgTagOfWord(REGION_RECEIVED << 16 | 2));
    L4_LoadMR(1, (L4_Word_t)worker);
    L4_LoadMR(2, (L4_Word_t)(stack + 512));
    L4_Send(L4_Pager());
    return 0;
}
