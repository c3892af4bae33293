/* C++ forms of <l4/space.h>. */
#ifndef L4_CXX_SPACE_H
#define L4_CXX_SPACE_H

L4_INLINE bool operator==(const L4_Fpage_t &l, const L4_Fpage_t &r) {
    return l.raw == r.raw;
}

L4_INLINE bool operator!=(const L4_Fpage_t &l, const L4_Fpage_t &r) {
    return l.raw != r.raw;
}

L4_INLINE L4_Fpage_t operator+(const L4_Fpage_t &f, L4_Word_t AccessRights) {
    return L4_FpageAddRights(f, AccessRights);
}

L4_INLINE L4_Fpage_t operator+=(L4_Fpage_t &f, L4_Word_t AccessRights) {
    return L4_FpageAddRightsTo(&f, AccessRights);
}

L4_INLINE L4_Fpage_t operator-(const L4_Fpage_t &f, L4_Word_t AccessRights) {
    return L4_FpageRemoveRights(f, AccessRights);
}

L4_INLINE L4_Fpage_t operator-=(L4_Fpage_t &f, L4_Word_t AccessRights) {
    return L4_FpageRemoveRightsFrom(&f, AccessRights);
}

L4_INLINE L4_Bool_t L4_MapItem(L4_MapItem_t m) {
    return L4_IsMapItem(m);
}

L4_INLINE L4_Fpage_t L4_SndFpage(L4_MapItem_t m) {
    return L4_MapItemSndFpage(m);
}

L4_INLINE L4_Word_t L4_SndBase(L4_MapItem_t m) {
    return L4_MapItemSndBase(m);
}

L4_INLINE L4_Bool_t L4_GrantItem(L4_GrantItem_t g) {
    return L4_IsGrantItem(g);
}

L4_INLINE L4_Fpage_t L4_SndFpage(L4_GrantItem_t g) {
    return L4_GrantItemSndFpage(g);
}

L4_INLINE L4_Word_t L4_SndBase(L4_GrantItem_t g) {
    return L4_GrantItemSndBase(g);
}

L4_INLINE L4_Fpage_t L4_Unmap(L4_Fpage_t f) {
    return L4_UnmapFpage(f);
}

L4_INLINE void L4_Unmap(L4_Word_t n, const L4_Fpage_t *fpages) {
    L4_UnmapFpages(n, fpages);
}

L4_INLINE void L4_Flush(L4_Word_t n, const L4_Fpage_t *fpages) {
    L4_FlushFpages(n, fpages);
}

#endif
