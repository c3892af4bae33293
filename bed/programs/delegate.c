/* A root task that delegates a region of 7 pages by its shortest plan, grants another page, and then revokes the region. */
#include "children.h"
#include "delegate.h"

static volatile L4_Word_t *page_word(L4_Word_t page) {
    return (volatile L4_Word_t *)(GIVEN + page * PAGE);
}

static L4_Word_t sum_of(L4_Word_t count) {
    L4_Word_t sum = 0, k;
    for (k = 0; k < count; k++)
        sum += *page_word(k);
    return sum;
}

/* Answers the taker's page faults in its own program, until another message arrives. */
static L4_MsgTag_t serve(L4_ThreadId_t *from) {
    L4_MsgTag_t tag = L4_Wait(from);
    L4_Word_t address;
    L4_StoreMR(1, &address);
    while (is_fault(tag) && (address < TAKEN || address >= TAKEN + (COUNT + 1) * PAGE)) {
        answer_fault(0, address);
        tag = L4_ReplyWait(*from, from);
        L4_StoreMR(1, &address);
    }
    return tag;
}

/* The fpages of the plan's items are the largest in the region: revokes all rights from each. */
static void take_back(void) {
    L4_Region_t rest = L4_Region(GIVEN, TAKEN, COUNT * PAGE, L4_FullyAccessible);
    L4_Fpage_t fpages[COUNT];
    L4_Word_t items, k;
    L4_MapItem_t item;
    L4_Msg_t message;
    L4_MsgClear(&message);
    items = L4_MsgAppendRegion(&message, &rest);
    for (k = 0; k < items; k++) {
        L4_MsgGetMapItem(&message, 2 * k, &item);
        fpages[k] = L4_MapItemSndFpage(item);
    }
    L4_UnmapFpages(items, fpages);
}

int main(void) {
    L4_ThreadId_t taker = child_id(0), from;
    L4_Region_t rest = L4_Region(GIVEN, TAKEN, COUNT * PAGE, L4_ReadWriteOnly);
    L4_Word_t items, k;
    L4_Msg_t message;
    L4_MsgTag_t tag;

    take_pages(GIVEN, (COUNT + 1) * PAGE);
    for (k = 0; k <= COUNT; k++)
        *page_word(k) = 1000 + k;
    start_child(0);
    serve(&from); /* the taker requests the region */

    L4_MsgClear(&message);
    L4_MsgAppendWord(&message, COUNT);
    items = L4_MsgAppendRegion(&message, &rest);
    L4_MsgLoad(&message);
    L4_Send(taker);
    print_number("root: maps ", COUNT, " pages by ");
    print_number("", items, " map items\n");
    serve(&from); /* the taker has written */
    print_number("root: the sum is ", sum_of(COUNT), "\n");

    L4_MsgClear(&message);
    L4_MsgAppendGrantItem(&message, L4_GrantItem(L4_FpageAddRights(L4_FpageLog2(GIVEN + COUNT * PAGE, PAGE_LOG), L4_ReadWriteOnly), TAKEN + COUNT * PAGE));
    L4_MsgLoad(&message);
    L4_Send(taker);

    take_back();
    L4_Set_MsgTag(L4_Niltag);
    L4_Send(taker);
    tag = serve(&from);
    L4_StoreMR(1, &k);
    demand(is_fault(tag), "root: the taker still has the region");
    print_word("root: the taker faults at ", k, "\n");
    print_number("root: the sum of all is ", sum_of(COUNT + 1), "\n");
    L4_KDB_Enter("the region is back");
    return 0;
}
