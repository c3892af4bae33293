/* C++ forms of <l4/sigma0.h>. */
#ifndef L4_CXX_SIGMA0_H
#define L4_CXX_SIGMA0_H

L4_INLINE L4_Fpage_t L4_Sigma0_GetPage(L4_ThreadId_t s, L4_Fpage_t f, L4_Fpage_t RcvWindow) {
    return L4_Sigma0_GetPage_RcvWindow(s, f, RcvWindow);
}

#endif
