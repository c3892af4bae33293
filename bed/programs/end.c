/* Writes a word that root and the middle read, and then reads what root has written: in the same page, and in the page that replaces it. */
#include "chain.h"
#include "children.h"

static volatile L4_Word_t *shared_word(void) {
    return (volatile L4_Word_t *)CLIENT_PLACE;
}

static void tell(L4_Word_t label) {
    L4_Set_MsgTag(L4_MsgTagOfWord(label << 16));
    L4_Call(L4_Pager());
}

int main(void) {
    *shared_word() = 0xabcdef01;
    tell(WRITTEN);
    print_word("client: reads ", *shared_word(), "\n");
    tell(READ);
    print_word("client: reads again ", *shared_word(), "\n");
    tell(READ_AGAIN);
    return 0;
}
