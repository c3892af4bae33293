/* Each of these programs, by its thread number, tries something that it may not. To be stopped is its intended end. */
#include "children.h"

static unsigned char no_code[] = {0xc3}; /* ret, in a page with rw- */

int main(void) {
    switch (L4_ThreadNo(L4_Myself())) {
    case 3: __asm__ volatile("stray_halt: hlt\n\tnop\n\tnop\n\tnop"); break;
    case 4: __asm__ volatile("stray_invalid: ud2\n\tnop\n\tnop"); break;
    case 5: __asm__ volatile("stray_division: divl %%ecx\n\tnop\n\tnop" : : "a"(1), "d"(0), "c"(0) : "cc"); break;
    case 6: *(volatile L4_Word_t *)0x10000 = 1; break;
    case 7: *(volatile L4_Word_t *)CHILD_KIP = 1; break;
    case 8: ((void (*)(void))0x700000)(); break;
    case 9: ((void (*)(void))(L4_Word_t)no_code)(); break;
    default: *(volatile L4_Word_t *)0xffff800c; break;
    }
    print("stray: it continues, which is wrong\n");
    return 0;
}
