/* For root tasks: starts the programs that were loaded beside root, and maps their pages. */
#ifndef CHILDREN_H
#define CHILDREN_H

#include "text.h"
#include <l4/bootinfo.h>
#include <l4/ipc.h>
#include <l4/kip.h>
#include <l4/message.h>
#include <l4/region.h>
#include <l4/sigma0.h>
#include <l4/space.h>
#include <l4/thread.h>

#define PAGE 4096u
#define PAGE_LOG 12

/* The first program beside root becomes thread 3, the next one thread 4, and so on. */
#define FIRST_CHILD 3u
#define CHILD_KIP 0xbfff0000u
#define CHILD_UTCBS 0xbfff8000u
#define CHILD_UTCB (CHILD_UTCBS + 256)

static inline L4_ThreadId_t child_id(L4_Word_t number) {
    return L4_GlobalId(FIRST_CHILD + number, 1);
}

/* Ends the run with status 1 and this text unless the condition holds. */
#define demand(holds, what) ((holds) ? (void)0 : L4_KDB_Enter("failed: " what))

static inline const L4_BootInfo_t *boot_info(void) {
    const L4_BootInfo_t *info = (const L4_BootInfo_t *)L4_BootInfo(L4_GetKernelInterface());
    demand(info->magic == L4_BOOTINFO_MAGIC, "root: there is no boot info");
    return info;
}

static inline const L4_Boot_SimpleExec_t *program(L4_Word_t number) {
    const L4_BootInfo_t *info = boot_info();
    const char *record = (const char *)info + info->first_entry;
    while (number-- > 0)
        record += ((const L4_Boot_SimpleExec_t *)record)->offset_next;
    return (const L4_Boot_SimpleExec_t *)record;
}

/* Requests the pages from `start` on from sigma0, one by one. */
static inline void take_pages(L4_Word_t start, L4_Word_t bytes) {
    L4_ThreadId_t sigma0 = L4_GlobalId(L4_ThreadIdUserBase(L4_GetKernelInterface()), 1);
    L4_Word_t page = start & ~(PAGE - 1);
    for (; page < start + bytes; page += PAGE)
        demand(!L4_IsNilFpage(L4_Sigma0_GetPage(sigma0, L4_FpageLog2(page, PAGE_LOG))), "root: sigma0 does not give a page");
}

/* Creates a thread in a space of its own, and requests the pages of its program from sigma0. The thread waits for the message of its pager
 * that says where it begins. */
static inline void make_child(L4_Word_t number, L4_ThreadId_t pager) {
    const L4_Boot_SimpleExec_t *exec = program(number);
    L4_ThreadId_t id = child_id(number);
    L4_Fpage_t kip = L4_FpageLog2(CHILD_KIP, PAGE_LOG), utcbs = L4_FpageLog2(CHILD_UTCBS, PAGE_LOG);
    L4_Word_t old;
    take_pages(exec->text.pstart, exec->text.size);
    take_pages(exec->data.pstart, exec->data.size + exec->bss.size);
    demand(L4_ThreadControl(id, id, L4_Myself(), L4_nilthread, (void *)0xffffffffu), "root: the thread cannot be created");
    demand(L4_SpaceControl(id, 0, kip, utcbs, L4_anythread, &old), "root: the areas of the space cannot be set");
    demand(L4_ThreadControl(id, id, L4_Myself(), pager, (void *)CHILD_UTCB), "root: the thread gets no pager");
}

static inline void send_start(L4_ThreadId_t id, L4_Word_t ip) {
    L4_Set_MsgTag(L4_MsgTagOfWord(2));
    L4_LoadMR(1, ip);
    L4_LoadMR(2, 0);
    demand(L4_IpcSucceeded(L4_Send(id)), "the start message was not received");
}

static inline void start_child(L4_Word_t number) {
    make_child(number, L4_Myself());
    send_start(child_id(number), program(number)->initial_ip);
}

static inline L4_Bool_t is_fault(L4_MsgTag_t tag) {
    return (L4_Label(tag) & 0xfff8) == 0xffe0 && L4_UntypedWords(tag) == 2 && L4_TypedWords(tag) == 0;
}

/* Returns the address of root's page that has this page of a program's part, or 0. */
static inline L4_Word_t page_in(const L4_BootPart_t *part, L4_Word_t bytes, L4_Word_t address) {
    L4_Word_t first = part->vstart & ~(PAGE - 1), page = address & ~(PAGE - 1);
    if (bytes == 0 || page - first >= part->vstart + bytes - first)
        return 0;
    return (part->pstart & ~(PAGE - 1)) + (page - first);
}

/* Loads the answer to a page fault of a child. It has no item if the page does not belong to the child's program. */
static inline void answer_fault(L4_Word_t number, L4_Word_t address) {
    const L4_Boot_SimpleExec_t *exec = program(number);
    L4_Word_t rights = L4_ReadeXecOnly, page = page_in(&exec->text, exec->text.size, address);
    L4_Msg_t message;
    if (page == 0) {
        rights = L4_ReadWriteOnly;
        page = page_in(&exec->data, exec->data.size + exec->bss.size, address);
    }
    L4_MsgClear(&message);
    if (page != 0)
        L4_MsgAppendMapItem(&message, L4_MapItem(L4_FpageAddRights(L4_FpageLog2(page, PAGE_LOG), rights), address));
    L4_MsgLoad(&message);
}

#endif
