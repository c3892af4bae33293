/* A root task that is a pager. It maps a page to its client to read, and to write only after a write fault. It then revokes the right to write,
 * the whole page, and the page in its own space too. At last it does not map the page again, and deletes the client. */
#include "children.h"
#include "pager.h"

#define OWN 0xa0000u
#define OWN_FPAGE L4_FpageLog2(OWN, PAGE_LOG)

static L4_Word_t reads, writes;
static L4_Bool_t is_closed;

static volatile L4_Word_t *own_words(void) {
    return (volatile L4_Word_t *)OWN;
}

static void answer_shared(L4_Word_t access, L4_Word_t address) {
    L4_Msg_t message;
    L4_Word_t rights = access & L4_Writable ? L4_ReadWriteOnly : L4_Readable;
    reads += access == L4_Readable;
    writes += access == L4_Writable;
    L4_MsgClear(&message);
    L4_MsgAppendMapItem(&message, L4_MapItem(L4_FpageAddRights(OWN_FPAGE, rights), address));
    L4_MsgLoad(&message);
}

static void take_word(L4_Word_t label) {
    print_word("pager: word 0 ", own_words()[0], ", ");
    print_word("1 ", own_words()[1], ", ");
    print_word("2 ", own_words()[2], "\n");
    if (label == WRITTEN) {
        L4_UnmapFpage(L4_FpageAddRights(OWN_FPAGE, L4_Writable));
    } else if (label == WRITTEN_AGAIN) {
        L4_UnmapFpage(L4_FpageAddRights(OWN_FPAGE, L4_FullyAccessible));
        own_words()[0] = 0x44444444;
    } else {
        L4_Flush(L4_FpageAddRights(OWN_FPAGE, L4_FullyAccessible));
        print_word("pager: after its own flush ", own_words()[0], "\n"); /* sigma0 maps the page again */
        is_closed = L4_TRUE;
    }
    L4_Set_MsgTag(L4_Niltag);
}

int main(void) {
    L4_ThreadId_t client = child_id(0), from;
    L4_MsgTag_t tag;
    L4_Word_t address;
    take_pages(OWN, PAGE);
    own_words()[0] = 0x11111111;
    start_child(0);
    tag = L4_Wait(&from);
    for (;;) {
        L4_StoreMR(1, &address);
        if (!is_fault(tag))
            take_word(L4_Label(tag));
        else if ((address & ~(PAGE - 1)) != SHARED)
            answer_fault(0, address);
        else if (is_closed)
            break;
        else
            answer_shared(L4_Label(tag) & 7, address);
        tag = L4_ReplyWait(from, &from);
    }
    print_number("pager: ", reads, " faults to read, ");
    print_number("", writes, " to write, and one that is not answered\n");
    demand(L4_ThreadControl(client, L4_nilthread, L4_nilthread, L4_nilthread, (void *)0xffffffffu), "pager: the client cannot be deleted");
    L4_Set_MsgTag(L4_Niltag);
    tag = L4_Send(client);
    print_number("pager: a send to the deleted client fails, ErrorCode ", L4_IpcFailed(tag) ? L4_ErrorCode() : 0, "\n");
    L4_KDB_Enter("the pager has ended");
    return 0;
}
