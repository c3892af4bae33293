// The round trips of a benchmark in the style of L4Ka: one root task in C++, with two threads in its own space that ExchangeRegisters starts.
#include <l4/ipc.h>
#include <l4/kdebug.h>
#include <l4/kip.h>
#include <l4/message.h>
#include <l4/schedule.h>
#include <l4/space.h>
#include <l4/thread.h>

#define ROUNDS 200

static L4_ThreadId_t master_tid, ping_tid, pong_tid;
static char ping_stack[4096] __attribute__((aligned(16)));
static char pong_stack[4096] __attribute__((aligned(16)));

static void print_dec(L4_Word_t value) {
    char digits[12];
    int place = 11;
    digits[place] = 0;
    do {
        digits[--place] = static_cast<char>('0' + value % 10);
        value /= 10;
    } while (value);
    L4_KDB_PrintString(digits + place);
}

static void pong_thread() {
    for (;;)
        L4_Call(ping_tid);
}

static void ping_thread() {
    static const L4_Word_t sizes[] = {0, 4, 8, 16, 32, 63};
    L4_ThreadId_t from;
    L4_Wait(&from);
    L4_Receive(pong_tid);
    for (L4_Word_t size : sizes) {
        L4_Clock_t start = L4_SystemClock();
        for (L4_Word_t round = 0; round < ROUNDS; round++) {
            L4_MsgTag_t tag = L4_Niltag;
            tag.X.u = size & 63;
            L4_Set_MsgTag(tag);
            L4_Call(pong_tid);
        }
        L4_Clock_t end = L4_SystemClock();
        L4_KDB_PrintString("IPC of ");
        print_dec(size);
        L4_KDB_PrintString(end > start ? " words: some time\n" : " words: no time\n");
    }
    L4_Set_MsgTag(L4_Niltag);
    L4_Send(master_tid);
    for (;;)
        L4_Sleep(L4_Never);
}

int main() {
    L4_KernelInterfacePage_t *kip = L4_GetKernelInterface();
    L4_Word_t utcb = L4_MyLocalId().raw & ~(L4_UtcbSize(kip) - 1);
    master_tid = L4_Myself();
    ping_tid = L4_GlobalId(L4_ThreadNo(master_tid) + 1, 2);
    pong_tid = L4_GlobalId(L4_ThreadNo(master_tid) + 2, 2);
    L4_ThreadControl(ping_tid, L4_Myself(), L4_Myself(), L4_Pager(), reinterpret_cast<void *>(utcb + L4_UtcbSize(kip)));
    L4_ThreadControl(pong_tid, L4_Myself(), L4_Myself(), L4_Pager(), reinterpret_cast<void *>(utcb + 2 * L4_UtcbSize(kip)));
    L4_Start(ping_tid, reinterpret_cast<L4_Word_t>(ping_stack) + sizeof ping_stack - 16, reinterpret_cast<L4_Word_t>(ping_thread));
    L4_Start(pong_tid, reinterpret_cast<L4_Word_t>(pong_stack) + sizeof pong_stack - 16, reinterpret_cast<L4_Word_t>(pong_thread));
    L4_Set_MsgTag(L4_Niltag);
    L4_Call(ping_tid);
    L4_KDB_Enter("done");
    return 0;
}
