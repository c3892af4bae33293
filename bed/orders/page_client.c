/* Requests a page from sigma0, which gives each page to one space only. */
#include "shared.h"

int main(void) {
    L4_ThreadId_t sigma0 = L4_GlobalId(L4_ThreadIdUserBase(L4_GetKernelInterface()), 1);
    wait_for_go();
    print(L4_IsNilFpage(L4_Sigma0_GetPage(sigma0, L4_FpageLog2(SOURCE, PAGE_LOG))) ? "does not get the page\n" : "gets the page\n");
    return 0;
}
