/* Prints what the kernel interface page says. */
#include "text.h"
#include <l4/kip.h>

int main(void) {
    const void *page = L4_GetKernelInterface();
    L4_Word_t version, flags, id;
    void *found = L4_KernelInterface(&version, &flags, &id);
    print_number("interface: the page is found twice: ", found == page, "\n");
    print_word("interface: version ", version, "");
    print_word(", flags ", flags, "");
    print_word(", kernel ", id, "\n");
    print("interface: ");
    print(L4_KernelVersionString(page));
    print("\n");
    print_number("interface: processors ", L4_NumProcessors(page), "");
    print_word(", page sizes ", L4_PageSizeMask(page), "");
    print_word(", rights ", L4_PageRights(page), "\n");
    print_number("interface: bits of a thread number ", L4_ThreadIdBits(page), "");
    print_number(", the first of the system ", L4_ThreadIdSystemBase(page), "");
    print_number(", and of users ", L4_ThreadIdUserBase(page), "\n");
    print_number("interface: bytes of a UTCB ", L4_UtcbSize(page), "");
    print_number(", alignment 2 to the ", L4_UtcbAlignmentLog2(page), "");
    print_number(", areas from 2 to the ", L4_UtcbAreaSizeLog2(page), "");
    print_number(" and 2 to the ", L4_KipAreaSizeLog2(page), "\n");
    L4_KDB_Enter("done");
    return 0;
}
