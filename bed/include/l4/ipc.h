/* Ipc. */
#ifndef L4_IPC_H
#define L4_IPC_H

#include <l4/message.h>
#include <l4/schedule.h>
#include <l4/thread.h>
#include <l4/types.h>

L4_BEGIN_C

/* Calls the entry of Ipc or Lipc. The first message registers are registers of the processor. ebp is among them, so it is saved here. */
L4_INLINE L4_MsgTag_t L4_IpcBy(L4_Word_t entry, L4_ThreadId_t to, L4_ThreadId_t FromSpecifier, L4_Word_t Timeouts, L4_ThreadId_t *from) {
    L4_Word_t *utcb = L4_Utcb();
    L4_Word_t result = to.raw, tag = utcb[0], first = L4_KipEntry(entry), ignored_ecx = Timeouts, specifier = FromSpecifier.raw;
    __asm__ __volatile__("pushl %%ebp\n\t"
                         "call *%%ebx\n\t"
                         "movl %%ebp, 8(%%edi)\n\t"
                         "popl %%ebp"
                         : "+a"(result), "+S"(tag), "+b"(first), "+c"(ignored_ecx), "+d"(specifier), "+D"(utcb)
                         :
                         : "memory", "cc");
    utcb[0] = tag;
    utcb[1] = first;
    if (from != (L4_ThreadId_t *)0)
        from->raw = result;
    return L4_MsgTagOfWord(tag);
}

L4_INLINE L4_MsgTag_t L4_Ipc(L4_ThreadId_t to, L4_ThreadId_t FromSpecifier, L4_Word_t Timeouts, L4_ThreadId_t *from) {
    return L4_IpcBy(L4_KIP_IPC, to, FromSpecifier, Timeouts, from);
}

/* Does the same as L4_Ipc in this kernel. */
L4_INLINE L4_MsgTag_t L4_Lipc(L4_ThreadId_t to, L4_ThreadId_t FromSpecifier, L4_Word_t Timeouts, L4_ThreadId_t *from) {
    return L4_IpcBy(L4_KIP_LIPC, to, FromSpecifier, Timeouts, from);
}

/* RESULTS */

L4_INLINE L4_Bool_t L4_IpcFailed(L4_MsgTag_t t) {
    return (t.raw & 0x8000) != 0;
}

L4_INLINE L4_Bool_t L4_IpcSucceeded(L4_MsgTag_t t) {
    return (t.raw & 0x8000) == 0;
}

/* The next three are never true in this kernel. */
L4_INLINE L4_Bool_t L4_IpcXcpu(L4_MsgTag_t t) {
    return (t.raw & 0x4000) != 0;
}

L4_INLINE L4_Bool_t L4_IpcRedirected(L4_MsgTag_t t) {
    return (t.raw & 0x2000) != 0;
}

L4_INLINE L4_Bool_t L4_IpcPropagated(L4_MsgTag_t t) {
    return (t.raw & 0x1000) != 0;
}

L4_ABSENT("this kernel has no propagation")
void L4_Set_Propagation(L4_MsgTag_t *t);

/* SENDING AND RECEIVING */

L4_INLINE L4_MsgTag_t L4_Send_Timeout(L4_ThreadId_t to, L4_Time_t SndTimeout) {
    return L4_Ipc(to, L4_nilthread, L4_Timeouts(SndTimeout, L4_Never), (L4_ThreadId_t *)0);
}

L4_INLINE L4_MsgTag_t L4_Send(L4_ThreadId_t to) {
    return L4_Send_Timeout(to, L4_Never);
}

/* Sends a reply, which fails at once if the other thread does not wait for it. */
L4_INLINE L4_MsgTag_t L4_Reply(L4_ThreadId_t to) {
    return L4_Send_Timeout(to, L4_ZeroTime);
}

L4_INLINE L4_MsgTag_t L4_Receive_Timeout(L4_ThreadId_t from, L4_Time_t RcvTimeout) {
    return L4_Ipc(L4_nilthread, from, L4_Timeouts(L4_Never, RcvTimeout), (L4_ThreadId_t *)0);
}

L4_INLINE L4_MsgTag_t L4_Receive(L4_ThreadId_t from) {
    return L4_Receive_Timeout(from, L4_Never);
}

L4_INLINE L4_MsgTag_t L4_Call_Timeouts(L4_ThreadId_t to, L4_Time_t SndTimeout, L4_Time_t RcvTimeout) {
    return L4_Ipc(to, to, L4_Timeouts(SndTimeout, RcvTimeout), (L4_ThreadId_t *)0);
}

L4_INLINE L4_MsgTag_t L4_Call(L4_ThreadId_t to) {
    return L4_Call_Timeouts(to, L4_Never, L4_Never);
}

L4_INLINE L4_MsgTag_t L4_Wait_Timeout(L4_Time_t RcvTimeout, L4_ThreadId_t *from) {
    return L4_Ipc(L4_nilthread, L4_anythread, L4_Timeouts(L4_Never, RcvTimeout), from);
}

L4_INLINE L4_MsgTag_t L4_Wait(L4_ThreadId_t *from) {
    return L4_Wait_Timeout(L4_Never, from);
}

L4_INLINE L4_MsgTag_t L4_ReplyWait_Timeout(L4_ThreadId_t to, L4_Time_t RcvTimeout, L4_ThreadId_t *from) {
    return L4_Ipc(to, L4_anythread, L4_Timeouts(L4_ZeroTime, RcvTimeout), from);
}

L4_INLINE L4_MsgTag_t L4_ReplyWait(L4_ThreadId_t to, L4_ThreadId_t *from) {
    return L4_ReplyWait_Timeout(to, L4_Never, from);
}

/* Waits until the timeout is over. */
L4_INLINE void L4_Sleep(L4_Time_t t) {
    L4_Receive_Timeout(L4_Myself(), t);
}

L4_INLINE L4_MsgTag_t L4_Lcall(L4_ThreadId_t to) {
    return L4_Lipc(to, to, L4_Timeouts(L4_Never, L4_Never), (L4_ThreadId_t *)0);
}

L4_INLINE L4_MsgTag_t L4_LreplyWait(L4_ThreadId_t to, L4_ThreadId_t *from) {
    return L4_Lipc(to, L4_anythread, L4_Timeouts(L4_ZeroTime, L4_Never), from);
}

L4_END_C

#ifdef __cplusplus
#include <l4/cxx/ipc.h>
#endif

#endif
