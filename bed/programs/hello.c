/* The first program of docs/run-your-l4-program.md: a root task that requests a page from sigma0 and writes to it. */
#include <l4/kdebug.h>
#include <l4/kip.h>
#include <l4/sigma0.h>

int main(void) {
    L4_ThreadId_t sigma0 = L4_GlobalId(L4_ThreadIdUserBase(L4_GetKernelInterface()), 1);
    L4_Fpage_t page = L4_Sigma0_GetPage(sigma0, L4_FpageLog2(0x50000, 12));
    if (L4_IsNilFpage(page))
        L4_KDB_Enter("failed: sigma0 does not give the page");
    *(volatile L4_Word_t *)0x50000 = 42;
    L4_KDB_PrintString("hello\n");
    L4_KDB_Enter("done");
    return 0;
}
