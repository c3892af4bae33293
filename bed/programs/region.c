/* A root task that delegates 40 pages to a space before the thread that uses them runs. Each page goes from an even to an odd page, so it needs
 * an item of its own, and the shortest plan has two messages. Root then revokes rights: w from the first page, and all from the second. */
#include "region.h"
#include "children.h"

#define WORKER L4_GlobalId(FIRST_CHILD + 1, 1)

static volatile L4_Word_t *page_word(L4_Word_t page) {
    return (volatile L4_Word_t *)(REGION_SOURCE + page * PAGE);
}

/* Answers page faults in the child's program until another message arrives. */
static L4_MsgTag_t serve(L4_ThreadId_t *from) {
    L4_MsgTag_t tag = L4_Wait(from);
    L4_Word_t address;
    L4_StoreMR(1, &address);
    while (is_fault(tag) && address < REGION_TARGET) {
        answer_fault(0, address);
        tag = L4_ReplyWait(*from, from);
        L4_StoreMR(1, &address);
    }
    return tag;
}

static void delegate(L4_ThreadId_t to) {
    L4_Region_t rest = L4_Region(REGION_SOURCE, REGION_TARGET, REGION_PAGES * PAGE, L4_ReadWriteOnly);
    L4_Word_t messages = 0, items = 0;
    L4_Msg_t message;
    while (!L4_IsRegionDone(&rest)) {
        L4_MsgClear(&message);
        items += L4_MsgAppendRegion(&message, &rest);
        L4_MsgLoad(&message);
        demand(L4_IpcSucceeded(L4_Send(to)), "root: a message was not received");
        messages++;
    }
    print_number("root: delegated ", REGION_PAGES, " pages by ");
    print_number("", items, " items in ");
    print_number("", messages, " messages\n");
    L4_Set_MsgTag(L4_MsgTagOfWord(REGION_ENDS << 16));
    L4_Send(to);
}

/* The second thread of the child's space begins where the child says. */
static void start_worker(void) {
    L4_Word_t ip, sp;
    L4_StoreMR(1, &ip);
    L4_StoreMR(2, &sp);
    demand(L4_ThreadControl(WORKER, child_id(0), L4_Myself(), L4_Myself(), (void *)(CHILD_UTCB + 512)), "root: the worker cannot be created");
    L4_Set_MsgTag(L4_MsgTagOfWord(2));
    L4_LoadMR(1, ip);
    L4_LoadMR(2, sp);
    L4_Send(WORKER);
}

static void revoke(void) {
    L4_UnmapFpage(L4_FpageAddRights(L4_FpageLog2(REGION_SOURCE, PAGE_LOG), L4_Writable));
    L4_UnmapFpage(L4_FpageAddRights(L4_FpageLog2(REGION_SOURCE + PAGE, PAGE_LOG), L4_FullyAccessible));
}

int main(void) {
    L4_ThreadId_t from;
    L4_Word_t k, address;
    take_pages(REGION_SOURCE, REGION_PAGES * PAGE);
    for (k = 0; k < REGION_PAGES; k++)
        *page_word(k) = k;
    start_child(0);
    demand(L4_Label(serve(&from)) == READY_TO_RECEIVE, "root: the child is not ready");
    delegate(from);
    demand(L4_Label(serve(&from)) == REGION_RECEIVED, "root: the child has not received the region");
    start_worker();
    demand(L4_Label(serve(&from)) == WORKER_DONE, "root: the worker has not used the region");
    print_number("root: the first word is ", *page_word(0), "\n");
    revoke();
    L4_Set_MsgTag(L4_Niltag);
    L4_Send(WORKER);
    for (k = 0; k < 2; k++) {
        L4_MsgTag_t tag = serve(&from);
        L4_StoreMR(1, &address);
        print_word("root: a page fault at ", address, is_fault(tag) && (L4_Label(tag) & 7) == L4_Writable ? " to write\n" : " to read\n");
        L4_Set_MsgTag(L4_MsgTagOfWord(2 << 6));
        L4_LoadMR(1, (address & ~(PAGE - 1)) | 8);
        L4_LoadMR(2, L4_FpageAddRights(L4_FpageLog2(REGION_SOURCE + ((address - REGION_TARGET) & ~(PAGE - 1)), PAGE_LOG), L4_ReadWriteOnly).raw);
        L4_Send(from);
    }
    serve(&from);
    print_number("root: the first word is ", *page_word(0), "\n");
    L4_KDB_Enter("the region was used and revoked");
    return 0;
}
