/* C++ forms of <l4/kip.h>. */
#ifndef L4_CXX_KIP_H
#define L4_CXX_KIP_H

L4_INLINE L4_Bool_t L4_IsVirtual(const L4_MemoryDesc_t *m) {
    return L4_IsMemoryDescVirtual(m);
}

L4_INLINE L4_Word_t L4_Type(const L4_MemoryDesc_t *m) {
    return L4_MemoryDescType(m);
}

L4_INLINE L4_Word_t L4_Low(const L4_MemoryDesc_t *m) {
    return L4_MemoryDescLow(m);
}

L4_INLINE L4_Word_t L4_High(const L4_MemoryDesc_t *m) {
    return L4_MemoryDescHigh(m);
}

#endif
