/* The kernel interface page. */
#ifndef L4_KIP_H
#define L4_KIP_H

#include <l4/types.h>

/* Offsets of words in the page. The word of a system call has the offset of the call's entry in the page. */
enum {
    L4_KIP_MAGIC = 0x00,
    L4_KIP_API_VERSION = 0x04,
    L4_KIP_API_FLAGS = 0x08,
    L4_KIP_KERNEL_DESCRIPTION = 0x0c,
    L4_KIP_MEMORY_INFO = 0x54,
    L4_KIP_UTCB_INFO = 0xa8,
    L4_KIP_AREA_INFO = 0xac,
    L4_KIP_BOOT_INFO = 0xb8,
    L4_KIP_PROCESSOR_DESCRIPTION = 0xbc,
    L4_KIP_CLOCK_INFO = 0xc0,
    L4_KIP_THREAD_INFO = 0xc4,
    L4_KIP_PAGE_INFO = 0xc8,
    L4_KIP_PROCESSOR_INFO = 0xcc,
    L4_KIP_SPACE_CONTROL = 0xd0,
    L4_KIP_THREAD_CONTROL = 0xd4,
    L4_KIP_PROCESSOR_CONTROL = 0xd8,
    L4_KIP_MEMORY_CONTROL = 0xdc,
    L4_KIP_IPC = 0xe0,
    L4_KIP_LIPC = 0xe4,
    L4_KIP_UNMAP = 0xe8,
    L4_KIP_EXCHANGE_REGISTERS = 0xec,
    L4_KIP_SYSTEM_CLOCK = 0xf0,
    L4_KIP_THREAD_SWITCH = 0xf4,
    L4_KIP_SCHEDULE = 0xf8,
    L4_KIP_KDB = 0xfc /* the kernel debugger of l4_bed */
};

/* The page itself. Functions take its address. */
typedef void L4_KernelInterfacePage_t;

L4_BEGIN_C

/* The page's address, which the start of the program writes here. */
extern L4_Word_t L4_TheKip;

/* Looks the page up by the instruction `lock; nop`. */
L4_INLINE void *L4_KernelInterface(L4_Word_t *ApiVersion, L4_Word_t *ApiFlags, L4_Word_t *KernelId) {
    L4_Word_t base, version, flags, id;
    __asm__ __volatile__(".byte 0xf0, 0x90" : "=a"(base), "=c"(version), "=d"(flags), "=S"(id) : : "memory");
    *ApiVersion = version;
    *ApiFlags = flags;
    *KernelId = id;
    return (void *)base;
}

L4_INLINE void *L4_GetKernelInterface(void) {
    return (void *)L4_TheKip;
}

L4_INLINE L4_Word_t L4_KipWord(const void *kip, L4_Word_t offset) {
    return *(const volatile L4_Word_t *)((L4_Word_t)kip + offset);
}

/* Returns the address of a system call's entry. */
L4_INLINE L4_Word_t L4_KipEntry(L4_Word_t offset) {
    return L4_TheKip + L4_KipWord((const void *)L4_TheKip, offset);
}

L4_INLINE L4_Word_t L4_ApiVersion(void) {
    return L4_KipWord((const void *)L4_TheKip, L4_KIP_API_VERSION);
}

L4_INLINE L4_Word_t L4_ApiFlags(void) {
    return L4_KipWord((const void *)L4_TheKip, L4_KIP_API_FLAGS);
}

/* The kernel's description: its id, date, version and supplier, and then a text. */
L4_INLINE L4_Word_t L4_KernelDescriptionOf(const void *kip) {
    return (L4_Word_t)kip + L4_KipWord(kip, L4_KIP_KERNEL_DESCRIPTION);
}

L4_INLINE L4_Word_t L4_KernelId(void) {
    return L4_KipWord((const void *)L4_KernelDescriptionOf((const void *)L4_TheKip), 0);
}

/* This kernel's description has no date: all three are 0. */
L4_INLINE void L4_KernelGenDate(const void *kip, L4_Word_t *year, L4_Word_t *month, L4_Word_t *day) {
    L4_Word_t date = L4_KipWord((const void *)L4_KernelDescriptionOf(kip), 4);
    *year = date >> 9 == 0 ? 0 : (date >> 9) + 2000;
    *month = date >> 5 & 0xf;
    *day = date & 0x1f;
}

L4_INLINE L4_Word_t L4_KernelVersion(const void *kip) {
    return L4_KipWord((const void *)L4_KernelDescriptionOf(kip), 8);
}

L4_INLINE L4_Word_t L4_KernelSupplier(const void *kip) {
    return L4_KipWord((const void *)L4_KernelDescriptionOf(kip), 12);
}

L4_INLINE char *L4_KernelVersionString(const void *kip) {
    return (char *)(L4_KernelDescriptionOf(kip) + 16);
}

/* This kernel lists no features. */
L4_INLINE char *L4_Feature(const void *kip, L4_Word_t num) {
    (void)kip, (void)num;
    return (char *)0;
}

L4_INLINE L4_Word_t L4_NumProcessors(const void *kip) {
    return (L4_KipWord(kip, L4_KIP_PROCESSOR_INFO) & 0xffff) + 1;
}

L4_INLINE L4_Word_t L4_PageSizeMask(const void *kip) {
    return L4_KipWord(kip, L4_KIP_PAGE_INFO) & ~0x3ffu;
}

L4_INLINE L4_Word_t L4_PageRights(const void *kip) {
    return L4_KipWord(kip, L4_KIP_PAGE_INFO) & 7;
}

L4_INLINE L4_Word_t L4_ThreadIdBits(const void *kip) {
    return L4_KipWord(kip, L4_KIP_THREAD_INFO) & 0xff;
}

L4_INLINE L4_Word_t L4_ThreadIdSystemBase(const void *kip) {
    return L4_KipWord(kip, L4_KIP_THREAD_INFO) >> 8 & 0xfff;
}

/* The thread number of sigma0. Root has the next one: this kernel has no sigma1. */
L4_INLINE L4_Word_t L4_ThreadIdUserBase(const void *kip) {
    return L4_KipWord(kip, L4_KIP_THREAD_INFO) >> 20;
}

/* The precision of the clock in microseconds; 0 means one. */
L4_INLINE L4_Word_t L4_ReadPrecision(const void *kip) {
    return L4_KipWord(kip, L4_KIP_CLOCK_INFO) & 0xffff;
}

L4_INLINE L4_Word_t L4_UtcbSize(const void *kip) {
    L4_Word_t info = L4_KipWord(kip, L4_KIP_UTCB_INFO);
    return (info & 0x3ff) << (info >> 10 & 0x3f);
}

L4_INLINE L4_Word_t L4_UtcbAlignmentLog2(const void *kip) {
    return L4_KipWord(kip, L4_KIP_UTCB_INFO) >> 10 & 0x3f;
}

L4_INLINE L4_Word_t L4_UtcbAreaSizeLog2(const void *kip) {
    return L4_KipWord(kip, L4_KIP_UTCB_INFO) >> 16 & 0x3f;
}

L4_INLINE L4_Word_t L4_KipAreaSizeLog2(const void *kip) {
    return L4_KipWord(kip, L4_KIP_AREA_INFO) & 0x3f;
}

L4_INLINE L4_Word_t L4_BootInfo(const void *kip) {
    return L4_KipWord(kip, L4_KIP_BOOT_INFO);
}

/* MEMORY DESCRIPTORS */

typedef union {
    L4_Word_t raw[2];
} L4_MemoryDesc_t;

#define L4_UndefinedMemoryType 0u
#define L4_ConventionalMemoryType 1u
#define L4_ReservedMemoryType 2u
#define L4_DedicatedMemoryType 3u
#define L4_SharedMemoryType 4u
#define L4_BootLoaderSpecificMemoryType 14u
#define L4_ArchitectureSpecificMemoryType 15u

L4_INLINE L4_Word_t L4_NumMemoryDescriptors(const void *kip) {
    return L4_KipWord(kip, L4_KIP_MEMORY_INFO) & 0xffff;
}

L4_INLINE L4_MemoryDesc_t *L4_MemoryDesc(const void *kip, L4_Word_t num) {
    return (L4_MemoryDesc_t *)((L4_Word_t)kip + (L4_KipWord(kip, L4_KIP_MEMORY_INFO) >> 16)) + num;
}

L4_INLINE L4_Bool_t L4_IsMemoryDescVirtual(const L4_MemoryDesc_t *m) {
    return m->raw[0] >> 9 & 1;
}

L4_INLINE L4_Word_t L4_MemoryDescType(const L4_MemoryDesc_t *m) {
    return m->raw[0] & 0xff;
}

L4_INLINE L4_Word_t L4_MemoryDescLow(const L4_MemoryDesc_t *m) {
    return m->raw[0] & ~0x3ffu;
}

L4_INLINE L4_Word_t L4_MemoryDescHigh(const L4_MemoryDesc_t *m) {
    return m->raw[1] | 0x3ff;
}

/* PROCESSORS */

typedef struct {
    L4_Word_t raw[4];
} L4_ProcDesc_t;

L4_ABSENT("this kernel has no scheduler, so it has no scheduling precision")
L4_Word_t L4_SchedulePrecision(const void *kip);
L4_ABSENT("this kernel does not describe the processor")
L4_ProcDesc_t *L4_ProcDesc(const void *kip, L4_Word_t num);
L4_ABSENT("this kernel does not describe the processor")
L4_Word_t L4_ProcDescExternalFreq(const L4_ProcDesc_t *p);
L4_ABSENT("this kernel does not describe the processor")
L4_Word_t L4_ProcDescInternalFreq(const L4_ProcDesc_t *p);
L4_ABSENT("this kernel controls no processor")
L4_Word_t L4_ProcessorControl(L4_Word_t ProcessorNo, L4_Word_t InternalFrequency, L4_Word_t ExternalFrequency, L4_Word_t voltage);

L4_END_C

#ifdef __cplusplus
#include <l4/cxx/kip.h>
#endif

#endif
