/* Threads. */
#ifndef L4_THREAD_H
#define L4_THREAD_H

#include <l4/kip.h>
#include <l4/types.h>
#include <l4/utcb.h>

typedef union {
    L4_Word_t raw;
    struct {
        L4_Word_t version : 14;
        L4_Word_t thread_no : 18;
    } X;
} L4_ThreadId_t;

L4_BEGIN_C

L4_INLINE L4_ThreadId_t L4_ThreadIdOfWord(L4_Word_t raw) {
    L4_ThreadId_t id;
    id.raw = raw;
    return id;
}

#define L4_nilthread L4_ThreadIdOfWord(0)
#define L4_anythread L4_ThreadIdOfWord(0xffffffffu)
L4_ABSENT("this kernel has no id for any thread of a space: receive from one thread, or from L4_anythread")
L4_ThreadId_t L4_anylocalthread_absent(void);
#define L4_anylocalthread L4_anylocalthread_absent()

/* What L4_ErrorCode returns after a failed ThreadControl or SpaceControl. */
#define L4_ErrOk 0u
#define L4_ErrNoPrivilege 1u
#define L4_ErrInvalidThread 2u
#define L4_ErrInvalidSpace 3u
#define L4_ErrInvalidScheduler 4u
#define L4_ErrInvalidParam 5u
#define L4_ErrUtcbArea 6u
#define L4_ErrKipArea 7u
#define L4_ErrNoMem 8u

/* IDS */

L4_INLINE L4_ThreadId_t L4_GlobalId(L4_Word_t threadno, L4_Word_t version) {
    return L4_ThreadIdOfWord(threadno << 14 | (version & 0x3fff));
}

L4_INLINE L4_Word_t L4_Version(L4_ThreadId_t t) {
    return t.raw & 0x3fff;
}

L4_INLINE L4_Word_t L4_ThreadNo(L4_ThreadId_t t) {
    return t.raw >> 14;
}

L4_INLINE L4_Bool_t L4_IsThreadEqual(L4_ThreadId_t l, L4_ThreadId_t r) {
    return l.raw == r.raw;
}

L4_INLINE L4_Bool_t L4_IsThreadNotEqual(L4_ThreadId_t l, L4_ThreadId_t r) {
    return l.raw != r.raw;
}

L4_INLINE L4_Bool_t L4_IsNilThread(L4_ThreadId_t t) {
    return t.raw == 0;
}

L4_INLINE L4_Bool_t L4_IsLocalId(L4_ThreadId_t t) {
    return t.raw != 0 && (t.raw & 0x3f) == 0;
}

L4_INLINE L4_Bool_t L4_IsGlobalId(L4_ThreadId_t t) {
    return (t.raw & 0x3f) != 0;
}

/* What ExchangeRegisters does: bits of its control word. The last asks for the values as they were. */
enum {
    L4_EXREGS_HALT = 1 << 0,
    L4_EXREGS_ABORT_RECEIVE = 1 << 1,
    L4_EXREGS_ABORT_SEND = 1 << 2,
    L4_EXREGS_ABORT_IPC = 3 << 1,
    L4_EXREGS_SP = 1 << 3,
    L4_EXREGS_IP = 1 << 4,
    L4_EXREGS_FLAGS = 1 << 5,
    L4_EXREGS_HANDLE = 1 << 6,
    L4_EXREGS_PAGER = 1 << 7,
    L4_EXREGS_SET_HALT = 1 << 8,
    L4_EXREGS_DELIVER = 1 << 9
};

/* Reads and sets the registers of a thread of the caller's space, ends the Ipc in which it waits, halts it, and lets it continue. Returns its local
 * id if `dest` is global, and its global id if `dest` is local; or L4_nilthread with an ErrorCode. */
L4_INLINE L4_ThreadId_t L4_ExchangeRegisters(L4_ThreadId_t dest, L4_Word_t control, L4_Word_t sp, L4_Word_t ip, L4_Word_t flags,
                                             L4_Word_t UserDefinedHandle, L4_ThreadId_t pager, L4_Word_t *old_control, L4_Word_t *old_sp,
                                             L4_Word_t *old_ip, L4_Word_t *old_flags, L4_Word_t *old_UserDefinedHandle,
                                             L4_ThreadId_t *old_pager) {
    L4_Word_t result = dest.raw, others[3];
    others[0] = UserDefinedHandle;
    others[1] = pager.raw;
    others[2] = L4_KipEntry(L4_KIP_EXCHANGE_REGISTERS);
    __asm__ __volatile__("pushl %%ebp\n\t"
                         "pushl %%ebx\n\t"
                         "pushl 8(%%ebx)\n\t"
                         "movl 4(%%ebx), %%ebp\n\t"
                         "movl (%%ebx), %%ebx\n\t"
                         "call *(%%esp)\n\t"
                         "addl $4, %%esp\n\t"
                         "xchgl %%ebx, (%%esp)\n\t"
                         "popl (%%ebx)\n\t"
                         "movl %%ebp, 4(%%ebx)\n\t"
                         "popl %%ebp"
                         : "+a"(result), "+c"(control), "+d"(sp), "+S"(ip), "+D"(flags)
                         : "b"(others)
                         : "memory", "cc");
    *old_control = control;
    *old_sp = sp;
    *old_ip = ip;
    *old_flags = flags;
    *old_UserDefinedHandle = others[0];
    old_pager->raw = others[1];
    return L4_ThreadIdOfWord(result);
}

/* Reads what the kernel keeps of a thread of the caller's space: its handle and its pager. Returns as L4_ExchangeRegisters does. */
L4_INLINE L4_ThreadId_t L4_ReadThread(L4_ThreadId_t t, L4_Word_t *handle, L4_ThreadId_t *pager) {
    L4_Word_t control, sp, ip, flags;
    return L4_ExchangeRegisters(t, L4_EXREGS_DELIVER, 0, 0, 0, 0, L4_nilthread, &control, &sp, &ip, &flags, handle, pager);
}

/* A local id names a thread of the caller's space. */
L4_INLINE L4_ThreadId_t L4_GlobalIdOf(L4_ThreadId_t t) {
    L4_Word_t handle;
    L4_ThreadId_t pager;
    return L4_IsLocalId(t) ? L4_ReadThread(t, &handle, &pager) : t;
}

/* Returns L4_nilthread for a thread of another space. */
L4_INLINE L4_ThreadId_t L4_LocalIdOf(L4_ThreadId_t t) {
    L4_Word_t handle;
    L4_ThreadId_t pager;
    return L4_IsLocalId(t) ? t : L4_ReadThread(t, &handle, &pager);
}

L4_INLINE L4_Bool_t L4_SameThreads(L4_ThreadId_t l, L4_ThreadId_t r) {
    return L4_GlobalIdOf(l).raw == L4_GlobalIdOf(r).raw;
}

/* The local id of a thread is the address of its UTCB. */
L4_INLINE L4_ThreadId_t L4_MyLocalId(void) {
    return L4_ThreadIdOfWord((L4_Word_t)L4_Utcb());
}

/* THREAD CONTROL REGISTERS */

L4_INLINE L4_ThreadId_t L4_MyGlobalId(void) {
    return L4_ThreadIdOfWord(L4_Tcr(L4_TCR_MY_GLOBAL_ID));
}

L4_INLINE L4_ThreadId_t L4_Myself(void) {
    return L4_MyGlobalId();
}

L4_INLINE L4_Word_t L4_ProcessorNo(void) {
    return L4_Tcr(L4_TCR_PROCESSOR_NO);
}

L4_INLINE L4_Word_t L4_UserDefinedHandle(void) {
    return L4_Tcr(L4_TCR_USER_DEFINED_HANDLE);
}

L4_INLINE void L4_Set_UserDefinedHandle(L4_Word_t NewValue) {
    L4_Set_Tcr(L4_TCR_USER_DEFINED_HANDLE, NewValue);
}

L4_INLINE L4_ThreadId_t L4_Pager(void) {
    return L4_ThreadIdOfWord(L4_Tcr(L4_TCR_PAGER));
}

L4_INLINE L4_ThreadId_t L4_ExceptionHandler(void) {
    return L4_ThreadIdOfWord(L4_Tcr(L4_TCR_EXCEPTION_HANDLER));
}

/* The thread's exceptions become messages to this thread. */
L4_INLINE void L4_Set_ExceptionHandler(L4_ThreadId_t NewHandler) {
    L4_Set_Tcr(L4_TCR_EXCEPTION_HANDLER, NewHandler.raw);
}

L4_INLINE L4_Word_t L4_ErrorCode(void) {
    return L4_Tcr(L4_TCR_ERROR_CODE);
}

/* Two words of the thread's own: n is 0 or 1. */
L4_INLINE L4_Word_t L4_ThreadWord(L4_Word_t n) {
    return L4_Tcr(L4_TCR_THREAD_WORD_0 + (int)n);
}

L4_INLINE void L4_Set_ThreadWord(L4_Word_t n, L4_Word_t word) {
    L4_Set_Tcr(L4_TCR_THREAD_WORD_0 + (int)n, word);
}

L4_ABSENT("in this kernel a thread cannot change its own pager: use L4_Set_PagerOf in root's space")
void L4_Set_Pager(L4_ThreadId_t NewPager);
L4_ABSENT("this kernel has no string items, so it has no transfer timeouts")
L4_Word_t L4_XferTimeouts(void);
L4_ABSENT("this kernel has no string items, so it has no transfer timeouts")
void L4_Set_XferTimeouts(L4_Word_t NewValue);
L4_ABSENT("this kernel has no propagation")
L4_ThreadId_t L4_IntendedReceiver(void);
L4_ABSENT("this kernel has no propagation: L4_Ipc returns the sender")
L4_ThreadId_t L4_ActualSender(void);
L4_ABSENT("this kernel has no propagation")
void L4_Set_VirtualSender(L4_ThreadId_t t);
L4_ABSENT("in this kernel every thread may use the coprocessor")
void L4_Set_CopFlag(L4_Word_t n);
L4_ABSENT("in this kernel every thread may use the coprocessor")
void L4_Clr_CopFlag(L4_Word_t n);
L4_ABSENT("this kernel has no preemption control")
L4_Bool_t L4_EnablePreemptionFaultException(void);
L4_ABSENT("this kernel has no preemption control")
L4_Bool_t L4_DisablePreemptionFaultException(void);
L4_ABSENT("this kernel has no preemption control")
L4_Bool_t L4_EnablePreemption(void);
L4_ABSENT("this kernel has no preemption control")
L4_Bool_t L4_DisablePreemption(void);
L4_ABSENT("this kernel has no preemption control")
L4_Bool_t L4_PreemptionPending(void);

/* SYSTEM CALLS */

/* Creates the thread `dest` in the space of SpaceSpecifier, or in a new space if that is `dest`; gives it a pager and a UTCB; gives it the
 * version of `dest`; or deletes it if SpaceSpecifier is L4_nilthread. Only threads of root's space may call this. Returns 1, or 0 with an
 * ErrorCode. The scheduler is ignored. */
L4_INLINE L4_Word_t L4_ThreadControl(L4_ThreadId_t dest, L4_ThreadId_t SpaceSpecifier, L4_ThreadId_t Scheduler, L4_ThreadId_t Pager, void *UtcbLocation) {
    L4_Word_t result = dest.raw, pager = Pager.raw, scheduler = Scheduler.raw, space = SpaceSpecifier.raw, utcb = (L4_Word_t)UtcbLocation;
    __asm__ __volatile__("call *%[entry]"
                         : "+a"(result), "+c"(pager), "+d"(scheduler), "+S"(space), "+D"(utcb)
                         : [entry] "b"(L4_KipEntry(L4_KIP_THREAD_CONTROL))
                         : "memory", "cc");
    return result;
}

/* EXCHANGE REGISTERS */

/* What a thread did when it was stopped. */
typedef union {
    L4_Word_t raw;
} L4_ThreadState_t;

L4_INLINE L4_Bool_t L4_ThreadWasHalted(L4_ThreadState_t s) {
    return (s.raw & L4_EXREGS_HALT) != 0;
}

L4_INLINE L4_Bool_t L4_ThreadWasReceiving(L4_ThreadState_t s) {
    return (s.raw & L4_EXREGS_ABORT_RECEIVE) != 0;
}

L4_INLINE L4_Bool_t L4_ThreadWasSending(L4_ThreadState_t s) {
    return (s.raw & L4_EXREGS_ABORT_SEND) != 0;
}

L4_INLINE L4_Bool_t L4_ThreadWasIpcing(L4_ThreadState_t s) {
    return (s.raw & L4_EXREGS_ABORT_IPC) != 0;
}

/* L4_ExchangeRegisters with these values alone; the handle and the pager stay. Returns what the thread did. */
L4_INLINE L4_ThreadState_t L4_ChangeThread(L4_ThreadId_t t, L4_Word_t control, L4_Word_t *sp, L4_Word_t *ip, L4_Word_t *flags) {
    L4_ThreadState_t state;
    L4_Word_t handle;
    L4_ThreadId_t pager;
    L4_ExchangeRegisters(t, control, *sp, *ip, *flags, 0, L4_nilthread, &state.raw, sp, ip, flags, &handle, &pager);
    return state;
}

L4_INLINE L4_ThreadState_t L4_ChangeState(L4_ThreadId_t t, L4_Word_t control) {
    L4_Word_t sp = 0, ip = 0, flags = 0;
    return L4_ChangeThread(t, control | L4_EXREGS_SET_HALT, &sp, &ip, &flags);
}

/* The thread of these functions has to be of the caller's space. */
L4_INLINE L4_Word_t L4_UserDefinedHandleOf(L4_ThreadId_t t) {
    L4_Word_t handle;
    L4_ThreadId_t pager;
    return L4_IsNilThread(L4_ReadThread(t, &handle, &pager)) ? 0 : handle;
}

L4_INLINE void L4_Set_UserDefinedHandleOf(L4_ThreadId_t t, L4_Word_t handle) {
    L4_Word_t control, sp, ip, flags, old;
    L4_ThreadId_t pager;
    L4_ExchangeRegisters(t, L4_EXREGS_HANDLE, 0, 0, 0, handle, L4_nilthread, &control, &sp, &ip, &flags, &old, &pager);
}

L4_INLINE L4_ThreadId_t L4_PagerOf(L4_ThreadId_t t) {
    L4_Word_t handle;
    L4_ThreadId_t pager;
    return L4_IsNilThread(L4_ReadThread(t, &handle, &pager)) ? L4_nilthread : pager;
}

/* Only threads of root's space can change a pager. */
L4_INLINE void L4_Set_PagerOf(L4_ThreadId_t t, L4_ThreadId_t p) {
    L4_Word_t control, sp, ip, flags, handle;
    L4_ThreadId_t old;
    L4_ExchangeRegisters(t, L4_EXREGS_PAGER, 0, 0, 0, 0, p, &control, &sp, &ip, &flags, &handle, &old);
}

/* Ends the Ipc in which the thread waits, and lets it run. */
L4_INLINE void L4_Start(L4_ThreadId_t t) {
    L4_ChangeState(t, L4_EXREGS_ABORT_IPC);
}

L4_INLINE void L4_Start_SpIp(L4_ThreadId_t t, L4_Word_t sp, L4_Word_t ip) {
    L4_Word_t flags = 0;
    L4_ChangeThread(t, L4_EXREGS_SET_HALT | L4_EXREGS_ABORT_IPC | L4_EXREGS_SP | L4_EXREGS_IP, &sp, &ip, &flags);
}

L4_INLINE void L4_Start_SpIpFlags(L4_ThreadId_t t, L4_Word_t sp, L4_Word_t ip, L4_Word_t flags) {
    L4_ChangeThread(t, L4_EXREGS_SET_HALT | L4_EXREGS_ABORT_IPC | L4_EXREGS_SP | L4_EXREGS_IP | L4_EXREGS_FLAGS, &sp, &ip, &flags);
}

/* The thread does not run until it is started. An Ipc in which it waits continues. */
L4_INLINE L4_ThreadState_t L4_Stop(L4_ThreadId_t t) {
    return L4_ChangeState(t, L4_EXREGS_HALT);
}

L4_INLINE L4_ThreadState_t L4_Stop_SpIpFlags(L4_ThreadId_t t, L4_Word_t *sp, L4_Word_t *ip, L4_Word_t *flags) {
    return L4_ChangeThread(t, L4_EXREGS_DELIVER | L4_EXREGS_SET_HALT | L4_EXREGS_HALT, sp, ip, flags);
}

L4_INLINE L4_ThreadState_t L4_AbortReceive_and_stop(L4_ThreadId_t t) {
    return L4_ChangeState(t, L4_EXREGS_HALT | L4_EXREGS_ABORT_RECEIVE);
}

L4_INLINE L4_ThreadState_t L4_AbortReceive_and_stop_SpIpFlags(L4_ThreadId_t t, L4_Word_t *sp, L4_Word_t *ip, L4_Word_t *flags) {
    return L4_ChangeThread(t, L4_EXREGS_DELIVER | L4_EXREGS_SET_HALT | L4_EXREGS_HALT | L4_EXREGS_ABORT_RECEIVE, sp, ip, flags);
}

L4_INLINE L4_ThreadState_t L4_AbortSend_and_stop(L4_ThreadId_t t) {
    return L4_ChangeState(t, L4_EXREGS_HALT | L4_EXREGS_ABORT_SEND);
}

L4_INLINE L4_ThreadState_t L4_AbortSend_and_stop_SpIpFlags(L4_ThreadId_t t, L4_Word_t *sp, L4_Word_t *ip, L4_Word_t *flags) {
    return L4_ChangeThread(t, L4_EXREGS_DELIVER | L4_EXREGS_SET_HALT | L4_EXREGS_HALT | L4_EXREGS_ABORT_SEND, sp, ip, flags);
}

L4_INLINE L4_ThreadState_t L4_AbortIpc_and_stop(L4_ThreadId_t t) {
    return L4_ChangeState(t, L4_EXREGS_HALT | L4_EXREGS_ABORT_IPC);
}

L4_INLINE L4_ThreadState_t L4_AbortIpc_and_stop_SpIpFlags(L4_ThreadId_t t, L4_Word_t *sp, L4_Word_t *ip, L4_Word_t *flags) {
    return L4_ChangeThread(t, L4_EXREGS_DELIVER | L4_EXREGS_SET_HALT | L4_EXREGS_HALT | L4_EXREGS_ABORT_IPC, sp, ip, flags);
}

L4_ABSENT("this kernel has no interrupts")
L4_Word_t L4_AssociateInterrupt(L4_ThreadId_t InterruptThread, L4_ThreadId_t HandlerThread);
L4_ABSENT("this kernel has no interrupts")
L4_Word_t L4_DeassociateInterrupt(L4_ThreadId_t InterruptThread);

L4_END_C

#ifdef __cplusplus
#include <l4/cxx/thread.h>
#endif

#endif
