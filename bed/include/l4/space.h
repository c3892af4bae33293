/* Fpages, map and grant items, Unmap, and address spaces. */
#ifndef L4_SPACE_H
#define L4_SPACE_H

#include <l4/kip.h>
#include <l4/thread.h>
#include <l4/types.h>

#define L4_Readable 4u
#define L4_Writable 2u
#define L4_eXecutable 1u
#define L4_FullyAccessible 7u
#define L4_ReadWriteOnly 6u
#define L4_ReadeXecOnly 5u
#define L4_NoAccess 0u

typedef union {
    L4_Word_t raw;
    struct {
        L4_Word_t rwx : 4;
        L4_Word_t s : 6;
        L4_Word_t b : 22;
    } X;
} L4_Fpage_t;

typedef union {
    L4_Word_t raw[2];
} L4_MapItem_t;

typedef union {
    L4_Word_t raw[2];
} L4_GrantItem_t;

L4_BEGIN_C

/* FPAGES */

L4_INLINE L4_Fpage_t L4_FpageOfWord(L4_Word_t raw) {
    L4_Fpage_t f;
    f.raw = raw;
    return f;
}

#define L4_Nilpage L4_FpageOfWord(0)
#define L4_CompleteAddressSpace L4_FpageOfWord(0x10)

L4_INLINE L4_Fpage_t L4_FpageLog2(L4_Word_t BaseAddress, int FpageSizeLog2) {
    return L4_FpageOfWord((BaseAddress & ~((1u << FpageSizeLog2) - 1)) | (L4_Word_t)FpageSizeLog2 << 4);
}

/* The size must be a power of two, from 1,024 on. */
L4_INLINE L4_Fpage_t L4_Fpage(L4_Word_t BaseAddress, L4_Word_t FpageSize) {
    return L4_FpageLog2(BaseAddress, __builtin_ctz(FpageSize));
}

L4_INLINE L4_Bool_t L4_IsNilFpage(L4_Fpage_t f) {
    return f.raw == 0;
}

L4_INLINE L4_Word_t L4_Address(L4_Fpage_t f) {
    return f.raw & ~0x3ffu;
}

L4_INLINE L4_Word_t L4_SizeLog2(L4_Fpage_t f) {
    return f.raw >> 4 & 0x3f;
}

L4_INLINE L4_Word_t L4_Size(L4_Fpage_t f) {
    return f.raw == 0 ? 0 : 1u << L4_SizeLog2(f);
}

L4_INLINE L4_Word_t L4_Rights(L4_Fpage_t f) {
    return f.raw & 0xf;
}

L4_INLINE void L4_Set_Rights(L4_Fpage_t *f, L4_Word_t AccessRights) {
    f->raw = (f->raw & ~0xfu) | (AccessRights & 0xf);
}

L4_INLINE L4_Fpage_t L4_FpageAddRights(L4_Fpage_t f, L4_Word_t AccessRights) {
    return L4_FpageOfWord(f.raw | (AccessRights & 0xf));
}

L4_INLINE L4_Fpage_t L4_FpageAddRightsTo(L4_Fpage_t *f, L4_Word_t AccessRights) {
    *f = L4_FpageAddRights(*f, AccessRights);
    return *f;
}

L4_INLINE L4_Fpage_t L4_FpageRemoveRights(L4_Fpage_t f, L4_Word_t AccessRights) {
    return L4_FpageOfWord(f.raw & ~(AccessRights & 0xf));
}

L4_INLINE L4_Fpage_t L4_FpageRemoveRightsFrom(L4_Fpage_t *f, L4_Word_t AccessRights) {
    *f = L4_FpageRemoveRights(*f, AccessRights);
    return *f;
}

/* ITEMS */

L4_INLINE L4_MapItem_t L4_MapItem(L4_Fpage_t f, L4_Word_t SndBase) {
    L4_MapItem_t m;
    m.raw[0] = (SndBase & ~0x3ffu) | 8;
    m.raw[1] = f.raw;
    return m;
}

L4_INLINE L4_Bool_t L4_IsMapItem(L4_MapItem_t m) {
    return (m.raw[0] & 0xe) == 8;
}

L4_INLINE L4_Fpage_t L4_MapItemSndFpage(L4_MapItem_t m) {
    return L4_FpageOfWord(m.raw[1]);
}

L4_INLINE L4_Word_t L4_MapItemSndBase(L4_MapItem_t m) {
    return m.raw[0] & ~0x3ffu;
}

L4_INLINE L4_GrantItem_t L4_GrantItem(L4_Fpage_t f, L4_Word_t SndBase) {
    L4_GrantItem_t g;
    g.raw[0] = (SndBase & ~0x3ffu) | 10;
    g.raw[1] = f.raw;
    return g;
}

L4_INLINE L4_Bool_t L4_IsGrantItem(L4_GrantItem_t g) {
    return (g.raw[0] & 0xe) == 10;
}

L4_INLINE L4_Fpage_t L4_GrantItemSndFpage(L4_GrantItem_t g) {
    return L4_FpageOfWord(g.raw[1]);
}

L4_INLINE L4_Word_t L4_GrantItemSndBase(L4_GrantItem_t g) {
    return g.raw[0] & ~0x3ffu;
}

/* UNMAP */

#define L4_UNMAP_FLUSH 0x40u

/* The message registers 0 to k, k being the lower six bits of control, are fpages with the rights to take. */
L4_INLINE void L4_Unmap(L4_Word_t control) {
    L4_Word_t *utcb = L4_Utcb();
    L4_Word_t ignored_control = control, mr0 = utcb[0];
    __asm__ __volatile__("call *%[entry]"
                         : "+a"(ignored_control), "+S"(mr0), "+D"(utcb)
                         : [entry] "r"(L4_KipEntry(L4_KIP_UNMAP))
                         : "ecx", "edx", "memory", "cc");
    L4_Utcb()[0] = mr0;
}

/* n is from 1 to 64. */
L4_INLINE void L4_UnmapWords(L4_Word_t n, const L4_Fpage_t *fpages, L4_Word_t flush) {
    volatile L4_Word_t *registers = L4_Utcb();
    L4_Word_t k;
    for (k = 0; k < n; k++)
        registers[k] = fpages[k].raw;
    L4_Unmap(flush | (n - 1));
}

/* The manual returns the fpages' status bits here; this kernel has none, and the fpages are as before. */
L4_INLINE void L4_UnmapFpages(L4_Word_t n, const L4_Fpage_t *fpages) {
    L4_UnmapWords(n, fpages, 0);
}

L4_INLINE L4_Fpage_t L4_UnmapFpage(L4_Fpage_t f) {
    L4_UnmapWords(1, &f, 0);
    return f;
}

/* As L4_UnmapFpages, and the caller's own pages lose the rights too. */
L4_INLINE void L4_FlushFpages(L4_Word_t n, const L4_Fpage_t *fpages) {
    L4_UnmapWords(n, fpages, L4_UNMAP_FLUSH);
}

L4_INLINE L4_Fpage_t L4_Flush(L4_Fpage_t f) {
    L4_UnmapWords(1, &f, L4_UNMAP_FLUSH);
    return f;
}

#define L4_STATUS_REASON "this kernel keeps no status bits of pages"
L4_ABSENT(L4_STATUS_REASON)
L4_Fpage_t L4_GetStatus(L4_Fpage_t f);
L4_ABSENT(L4_STATUS_REASON)
L4_Bool_t L4_WasReferenced(L4_Fpage_t f);
L4_ABSENT(L4_STATUS_REASON)
L4_Bool_t L4_WasWritten(L4_Fpage_t f);
L4_ABSENT(L4_STATUS_REASON)
L4_Bool_t L4_WaseXecuted(L4_Fpage_t f);

/* SPACES */

/* Sets where a space has its kernel interface page and its UTCBs. It must be called before a thread of the space gets a pager. Later calls may only
 * give the same areas, or L4_Nilpage. Only threads of root's space may call it. Returns 1, or 0 with an ErrorCode. The control word and the
 * redirector are ignored. */
L4_INLINE L4_Word_t L4_SpaceControl(L4_ThreadId_t SpaceSpecifier, L4_Word_t control, L4_Fpage_t KernelInterfacePageArea, L4_Fpage_t UtcbArea,
                                    L4_ThreadId_t Redirector, L4_Word_t *old_Control) {
    L4_Word_t result = SpaceSpecifier.raw, old = control, kip = KernelInterfacePageArea.raw, area = UtcbArea.raw, redirector = Redirector.raw;
    __asm__ __volatile__("call *%[entry]"
                         : "+a"(result), "+c"(old), "+d"(kip), "+S"(area), "+D"(redirector)
                         : [entry] "b"(L4_KipEntry(L4_KIP_SPACE_CONTROL))
                         : "memory", "cc");
    *old_Control = old;
    return result;
}

/* MEMORY ATTRIBUTES */

#define L4_DefaultMemory 0u

/* Sets the attributes of the fpages in the message registers from 0 to `control`. A program of the bed sees no cache, so every attribute is accepted,
 * and has no effect. Only threads of root's space may call it. Returns 1, or 0 with an ErrorCode. */
L4_INLINE L4_Word_t L4_MemoryControl(L4_Word_t control, const L4_Word_t *attributes) {
    L4_Word_t result = control;
    (void)attributes;
    __asm__ __volatile__("call *%[entry]" : "+a"(result) : [entry] "r"(L4_KipEntry(L4_KIP_MEMORY_CONTROL)) : "memory", "cc");
    return result;
}

/* n is from 1 to 64. */
L4_INLINE L4_Word_t L4_Set_PagesAttributes(L4_Word_t n, L4_Fpage_t *fpages, const L4_Word_t *attributes) {
    volatile L4_Word_t *registers = L4_Utcb();
    L4_Word_t k;
    for (k = 0; k < n; k++)
        registers[k] = fpages[k].raw;
    return L4_MemoryControl(n - 1, attributes);
}

L4_INLINE L4_Word_t L4_Set_PageAttribute(L4_Fpage_t f, L4_Word_t attribute) {
    L4_Word_t attributes[4];
    attributes[0] = attributes[1] = attributes[2] = attributes[3] = attribute;
    return L4_Set_PagesAttributes(1, &f, attributes);
}

L4_END_C

#ifdef __cplusplus
#include <l4/cxx/space.h>
#endif

#endif
