/* A root task whose child is the pager of another child. Root maps a page to the first, which maps it on; root then revokes it from both. Later
 * root replaces the page of the first by another one, so the other child loses its page too. */
#include "chain.h"
#include "children.h"

static volatile L4_Word_t *own_word(L4_Word_t place) {
    return (volatile L4_Word_t *)place;
}

static L4_Word_t whole_pages(L4_Word_t start, L4_Word_t bytes) {
    return ((start & (PAGE - 1)) + bytes + PAGE - 1) & ~(PAGE - 1);
}

/* Loads the message that maps the client's program to the middle: its text with r-x, and its data with rw-. */
static void give_program(void) {
    const L4_Boot_SimpleExec_t *exec = program(1);
    L4_Region_t text = L4_Region(exec->text.pstart & ~(PAGE - 1), TEXT_PLACE, whole_pages(exec->text.pstart, exec->text.size), L4_ReadeXecOnly);
    L4_Region_t data = L4_Region(exec->data.pstart & ~(PAGE - 1), DATA_PLACE, whole_pages(exec->data.pstart, exec->data.size + exec->bss.size),
                                 L4_ReadWriteOnly);
    L4_Msg_t message;
    L4_MsgClear(&message);
    L4_MsgAppendWord(&message, exec->text.vstart & ~(PAGE - 1));
    L4_MsgAppendWord(&message, exec->data.vstart & ~(PAGE - 1));
    L4_MsgAppendWord(&message, exec->initial_ip);
    L4_MsgAppendRegion(&message, &text);
    L4_MsgAppendRegion(&message, &data);
    L4_MsgLoad(&message);
}

static void take_back(void) {
    print_word("root: reads ", *own_word(ROOT_PLACE), "\n");
    L4_UnmapFpage(L4_FpageAddRights(L4_FpageLog2(ROOT_PLACE, PAGE_LOG), L4_FullyAccessible));
    *own_word(ROOT_PLACE) = 0x55555555;
    L4_Set_MsgTag(L4_Niltag);
}

/* Loads the message that maps a page of root to the middle's shared page. */
static void give_page(L4_Word_t place, L4_Word_t rights) {
    L4_Msg_t message;
    L4_MsgClear(&message);
    L4_MsgAppendMapItem(&message, L4_MapItem(L4_FpageAddRights(L4_FpageLog2(place, PAGE_LOG), rights), MIDDLE_PLACE));
    L4_MsgLoad(&message);
}

/* Answers a fault of the middle: in its program, or at the shared page. */
static void answer_middle(L4_Word_t address, L4_Word_t rights) {
    if ((address & ~(PAGE - 1)) == MIDDLE_PLACE)
        give_page(ROOT_PLACE, rights);
    else
        answer_fault(0, address);
}

int main(void) {
    L4_ThreadId_t from;
    L4_Word_t address, rights = L4_ReadWriteOnly;
    L4_MsgTag_t tag;
    take_pages(ROOT_PLACE, 2 * PAGE);
    *own_word(ROOT_SECOND_PLACE) = 0x66666666;
    start_child(0);
    make_child(1, child_id(0));
    tag = L4_Wait(&from);
    while (is_fault(tag) || L4_Label(tag) != ALL_DONE) {
        L4_StoreMR(1, &address);
        if (is_fault(tag)) {
            answer_middle(address, rights);
        } else if (L4_Label(tag) == GIVE_PROGRAM) {
            give_program();
        } else if (L4_Label(tag) == REPLACE) {
            give_page(ROOT_SECOND_PLACE, L4_Readable);
        } else {
            take_back();
            rights = L4_Readable;
        }
        tag = L4_ReplyWait(from, &from);
    }
    /* the pages that the middle has mapped on disappear with its space */
    demand(L4_ThreadControl(child_id(0), L4_nilthread, L4_nilthread, L4_nilthread, (void *)0xffffffffu), "root: the middle cannot be deleted");
    L4_KDB_Enter("the chain has ended");
    return 0;
}
