/* Root's page SOURCE comes from sigma0. Thread 3 gets it at its page 32, and maps it to thread 4. */
#ifndef SHARED_H
#define SHARED_H
#include "unordered.h"
#define SOURCE 0x10000u

static inline L4_Fpage_t page(L4_Word_t address, L4_Word_t rights) {
    return L4_FpageAddRights(L4_FpageLog2(address, PAGE_LOG), rights);
}

/* Loads a message with one map item: a page of the sender, and its place in the receiver. */
static inline void load_page(L4_Word_t from, L4_Word_t at, L4_Word_t rights) {
    L4_Msg_t message;
    L4_MsgClear(&message);
    L4_MsgAppendMapItem(&message, L4_MapItem(page(from, rights), at));
    L4_MsgLoad(&message);
}

static inline L4_MsgTag_t send_page(L4_ThreadId_t to, L4_Word_t from, L4_Word_t at, L4_Word_t rights) {
    load_page(from, at, rights);
    return L4_Send(to);
}

/* Accepts pages anywhere in all receives that follow. */
static inline void accept_pages(void) {
    L4_Accept(L4_MapGrantItems(L4_CompleteAddressSpace));
}

static inline void receive(L4_Word_t line) {
    L4_ThreadId_t from = L4_nilthread;
    L4_MsgTag_t tag = L4_Wait(&from);
    print_reply(line, tag, from);
}

#endif
