/* A root task with a second thread in its space. They name each other by local ids. Root also reads the boot info. */
#include "children.h"

#define SECOND L4_GlobalId(10, 2)

static L4_ThreadId_t root_local;
static char stack[2048];

static void second(void) {
    L4_Word_t word;
    L4_Set_UserDefinedHandle(77);
    L4_Receive(root_local);
    L4_StoreMR(1, &word);
    print_number("second: received ", word, "\n");
    L4_LoadMR(1, word + 1);
    L4_Set_MsgTag(L4_MsgTagOfWord(1));
    L4_Call(root_local);
}

static void start_second(void) {
    /* the start of the second UTCB, as L4Ka's programs compute it */
    L4_Word_t size = L4_UtcbSize(L4_GetKernelInterface()), utcb = (L4_MyLocalId().raw & ~(size - 1)) + size;
    demand(L4_ThreadControl(SECOND, L4_MyLocalId(), L4_Myself(), L4_MyLocalId(), (void *)utcb), "the second thread cannot be created");
    L4_Set_MsgTag(L4_MsgTagOfWord(2));
    L4_LoadMR(1, (L4_Word_t)second);
    L4_LoadMR(2, (L4_Word_t)(stack + sizeof stack - 8));
    demand(L4_IpcSucceeded(L4_Send(SECOND)), "the second thread does not start");
    demand(L4_ThreadControl(SECOND, SECOND, L4_nilthread, L4_Pager(), (void *)0xffffffffu), "the second thread gets no pager");
}

int main(void) {
    const L4_BootRec_t *record;
    L4_ThreadId_t local;
    L4_Word_t word;
    L4_KernelInterfacePage_t *kip = L4_GetKernelInterface();
    root_local = L4_MyLocalId();
    start_second();
    local = L4_LocalIdOf(SECOND);
    print_number("local: ids are local and global: ", L4_IsLocalId(local) && L4_IsGlobalId(SECOND) && L4_IsLocalId(root_local), "\n");
    print_number("local: and name one thread: ", L4_SameThreads(local, SECOND) && L4_GlobalIdOf(local).raw == SECOND.raw, "\n");
    print_number("local: the UTCBs are 512 bytes apart: ", local.raw - root_local.raw == 512, "\n");
    L4_LoadMR(1, 41);
    L4_Set_MsgTag(L4_MsgTagOfWord(1));
    L4_Call(local);
    L4_StoreMR(1, &word);
    print_number("local: received ", word, "\n");
    print_number("local: handle ", L4_UserDefinedHandleOf(local), "");
    print_number(", pager ", L4_ThreadNo(L4_PagerOf(SECOND)), "\n");
    print_number("local: a thread of another space has none: ", L4_IsNilThread(L4_LocalIdOf(L4_GlobalId(1, 1))), ", ");
    print_number("ErrorCode ", L4_ErrorCode(), "\n");
    record = L4_BootInfo_FirstEntry((void *)L4_BootInfo(kip));
    print_number("local: ", L4_BootInfo_Entries((void *)L4_BootInfo(kip)), " program");
    print_number(", type ", L4_BootRec_Type(record), "");
    print_word(", text at ", L4_SimpleExec_TextVstart(record), "\n");
    L4_KDB_Enter("done");
    return 0;
}
