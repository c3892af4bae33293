/* The pager of thread 4. It has its pages from its own pager, root. */
#include "chain.h"
#include "children.h"

static L4_Word_t text_start, data_start;

static volatile L4_Word_t *shared_word(void) {
    return (volatile L4_Word_t *)MIDDLE_PLACE;
}

static void ask(L4_Word_t label) {
    L4_Set_MsgTag(L4_MsgTagOfWord(label << 16));
    L4_Call(L4_Pager());
}

/* The answer maps pages. */
static void ask_for_pages(L4_Word_t label) {
    L4_Accept(L4_MapGrantItems(L4_CompleteAddressSpace));
    ask(label);
    L4_Accept(L4_UntypedWordsAcceptor);
}

static void begin_client(void) {
    L4_Word_t ip;
    ask_for_pages(GIVE_PROGRAM);
    L4_StoreMR(1, &text_start);
    L4_StoreMR(2, &data_start);
    L4_StoreMR(3, &ip);
    send_start(child_id(1), ip);
}

static void answer_client(L4_Word_t address, L4_Word_t access) {
    L4_Word_t page = address & ~(PAGE - 1), rights = L4_ReadeXecOnly, own = TEXT_PLACE + (page - text_start);
    L4_Msg_t message;
    if (page == CLIENT_PLACE) {
        own = MIDDLE_PLACE;
        rights = L4_Readable | access;
        if (access == L4_Writable)
            *shared_word() = 0; /* if this page is absent here too, root maps it first */
        else
            print_word("middle: reads ", *shared_word(), "\n");
    } else if (page >= data_start) {
        own = DATA_PLACE + (page - data_start);
        rights = L4_ReadWriteOnly;
    }
    L4_MsgClear(&message);
    L4_MsgAppendMapItem(&message, L4_MapItem(L4_FpageAddRights(L4_FpageLog2(own, PAGE_LOG), rights), page));
    L4_MsgLoad(&message);
}

int main(void) {
    L4_ThreadId_t from;
    L4_Word_t address;
    L4_MsgTag_t tag;
    begin_client();
    tag = L4_Wait(&from);
    while (is_fault(tag) || L4_Label(tag) != READ_AGAIN) {
        L4_StoreMR(1, &address);
        if (is_fault(tag)) {
            answer_client(address, L4_Label(tag) & 7);
        } else if (L4_Label(tag) == READ) {
            ask_for_pages(REPLACE);
            L4_Set_MsgTag(L4_Niltag);
        } else {
            print_word("middle: reads ", *shared_word(), "\n");
            ask(TAKE_BACK);
            L4_Set_MsgTag(L4_Niltag);
        }
        tag = L4_ReplyWait(from, &from);
    }
    ask(ALL_DONE);
    return 0;
}
