/* Reads and writes a page that its pager maps and revokes. */
#include "children.h"
#include "pager.h"

static volatile L4_Word_t *shared_words(void) {
    return (volatile L4_Word_t *)SHARED;
}

static void tell(L4_Word_t label) {
    L4_Set_MsgTag(L4_MsgTagOfWord(label << 16));
    L4_Call(L4_Pager());
}

int main(void) {
    print_word("client: reads ", shared_words()[0], "\n");
    shared_words()[1] = 0x22222222;
    tell(WRITTEN);
    print_word("client: still reads ", shared_words()[1], "\n");
    shared_words()[2] = 0x33333333;
    tell(WRITTEN_AGAIN);
    print_word("client: reads anew ", shared_words()[0], "\n");
    tell(READ_AGAIN);
    print_word("client: never reads ", shared_words()[0], "\n");
    return 0;
}
