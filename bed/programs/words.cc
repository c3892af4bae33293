// A program in C++, with the forms that the manual has for it.
#include "text.h"
#include <l4/ipc.h>
#include <l4/sigma0.h>

extern "C" int main(void) {
    L4_ThreadId_t me = L4_Myself(), sigma0 = L4_GlobalId(L4_ThreadIdUserBase(L4_GetKernelInterface()), 1), from;
    L4_Fpage_t page = L4_Sigma0_GetPage(sigma0, L4_Fpage(0x50000, 4096), L4_CompleteAddressSpace) + L4_ReadWriteOnly;
    L4_Clock_t before = L4_SystemClock(), after = before + 1000;
    L4_Msg_t message;
    L4_MsgTag_t tag;
    L4_Time_t time = L4_TimePeriod(3000) + 200;
    print(me == L4_nilthread || me != L4_Myself() ? "words: ids differ\n" : "words: ids are equal\n");
    L4_Clear(&message);
    L4_Set_Label(&message, 7);
    L4_Append(&message, (L4_Word_t)3);
    L4_Append(&message, 4);
    L4_Append(&message, L4_MapItem(page - L4_Writable, 0x60000));
    print_word("words: tag ", L4_MsgTag(&message).raw, "");
    print_word(", words ", L4_Get(&message, 0), "");
    print_word(" ", L4_Get(&message, 1), "");
    print_word(", item ", message.raw[3], "");
    print_word(" ", message.raw[4], "\n");
    print(L4_Label(&message) == L4_Label(L4_MsgTag(&message)) && after > before && !(after <= before) ? "words: agree\n" : "words: disagree\n");
    L4_Put(&message, 0, L4_Word_t(9));
    L4_Load(&message);
    L4_Store(L4_MsgTag(), &message);
    print_word("words: first ", L4_Get(&message, 0), "\n");
    tag = L4_Receive(L4_GlobalId(100, 1), L4_ZeroTime);
    print(L4_IpcFailed(tag) && tag != L4_Niltag ? "words: nothing is received\n" : "words: something is received\n");
    tag = L4_Wait(L4_ZeroTime, from);
    print_number("words: ErrorCode ", L4_ErrorCode(), "\n");
    tag = L4_Receive(sigma0, time);
    print_number("words: ErrorCode ", L4_ErrorCode(), ", ");
    L4_Set_MsgTag(L4_Niltag);
    tag = L4_Send(sigma0, time);
    print_number("", L4_ErrorCode(), "\n");
    print(time > L4_ZeroTime && time - 200 < time && time <= L4_Never && time >= time ? "words: times agree\n" : "words: times disagree\n");
    L4_KDB_Enter("done");
    return 0;
}
