/* Receives a region, reads and writes it, and again after root has revoked all of it but one page. */
#include "children.h"
#include "delegate.h"

static volatile L4_Word_t *page_word(L4_Word_t page) {
    return (volatile L4_Word_t *)(TAKEN + page * PAGE);
}

int main(void) {
    L4_Word_t count, sum = 0, k;
    L4_MsgTag_t tag;
    L4_Accept(L4_MapGrantItems(L4_CompleteAddressSpace));
    L4_Set_MsgTag(L4_Niltag);
    tag = L4_Call(L4_Pager());
    L4_StoreMR(1, &count);
    for (k = 0; k < count; k++)
        sum += *page_word(k);
    print_number("taker: got ", L4_TypedWords(tag) / 2, " items, ");
    print_number("the sum is ", sum, "\n");
    for (k = 0; k < count; k++)
        *page_word(k) = 2000 + k;

    L4_Set_MsgTag(L4_Niltag);
    L4_Call(L4_Pager()); /* receives one more page */
    print_number("taker: was granted ", *page_word(count), "\n");
    *page_word(count) = 3000;
    L4_Receive(L4_Pager()); /* root has revoked the region */
    print_number("taker: keeps ", *page_word(count), "\n");
    print_number("taker: has lost ", *page_word(0), "\n");
    return 0;
}
