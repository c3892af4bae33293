/* Raises exceptions that its handler answers, one of them twice, and tries to create a thread, which only root's space may. */
#include "children.h"

int main(void) {
    L4_Word_t first, second;
    L4_Set_ExceptionHandler(L4_Pager());
    __asm__ volatile("ud2" : "=a"(first) : : "memory", "cc");
    __asm__ volatile("divl %%ecx" : "=a"(second) : "a"(1), "d"(0), "c"(0) : "cc");
    print_number("raiser: continues with ", first, ", ");
    print_number("", second, "\n");
    __asm__ volatile("divl %%ecx" : "=a"(second) : "a"(1), "d"(0), "c"(0) : "cc");
    print_number("raiser: continues again with ", second, "\n");
    __asm__ volatile("cli\n\tnop" : "=a"(first) : "a"(1) : "cc");
    print_number("raiser: cannot disable interrupts, ", first, "\n");
    first = L4_ThreadControl(L4_GlobalId(9, 1), L4_Myself(), L4_Myself(), L4_nilthread, (void *)0xffffffffu);
    print_number("raiser: creates a thread: ", first, ", ");
    print_number("ErrorCode ", L4_ErrorCode(), "\n");
    L4_Set_MsgTag(L4_Niltag);
    L4_Send(L4_Pager());
    return 0;
}
