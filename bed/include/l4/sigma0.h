/* Requests to sigma0. */
#ifndef L4_SIGMA0_H
#define L4_SIGMA0_H

#include <l4/ipc.h>
#include <l4/space.h>

#define L4_SIGMA0_REQUEST 0xffa0u

L4_BEGIN_C

/* Requests the frames of the pages of f, which arrive in the receive window. Returns their fpage, or L4_Nilpage. */
L4_INLINE L4_Fpage_t L4_Sigma0_GetPage_RcvWindow(L4_ThreadId_t s, L4_Fpage_t f, L4_Fpage_t RcvWindow) {
    L4_Acceptor_t before = L4_Accepted();
    L4_Fpage_t got = L4_Nilpage;
    L4_MsgTag_t tag;
    L4_Accept(L4_MapGrantItems(RcvWindow));
    L4_LoadMR(1, f.raw & ~0xfu);
    L4_LoadMR(2, 0);
    L4_Set_MsgTag(L4_MsgTagOfWord(L4_SIGMA0_REQUEST << 16 | 2));
    tag = L4_Call(s);
    if (L4_IpcSucceeded(tag) && L4_UntypedWords(tag) == 0 && L4_TypedWords(tag) == 2)
        L4_StoreMR(2, &got.raw);
    L4_Accept(before);
    return got;
}

L4_INLINE L4_Fpage_t L4_Sigma0_GetPage(L4_ThreadId_t s, L4_Fpage_t f) {
    return L4_Sigma0_GetPage_RcvWindow(s, f, L4_CompleteAddressSpace);
}

L4_ABSENT("sigma0 gives frames by their address only: use L4_Sigma0_GetPage")
L4_Fpage_t L4_Sigma0_GetAny(L4_ThreadId_t s, L4_Word_t size, L4_Fpage_t RcvWindow);

L4_END_C

#ifdef __cplusplus
#include <l4/cxx/sigma0.h>
#endif

#endif
