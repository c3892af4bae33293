/* Each of these programs, by its thread number, tries to reach the host when it runs natively, and is stopped: by a system call of 32-bit
 * code; and from 64-bit code by a system call, by a call at the address of Linux's vsyscall page, by a write to the stub's program, and by an
 * endless loop. */
#include "children.h"

/* Changes to 64-bit code, and back. */
#define IN_64_BIT_CODE(instructions) \
    __asm__ volatile("mov $2f, %%esi\n\t" \
                     "ljmp $0x33, $1f\n\t" \
                     ".code64\n1:\t" instructions "\n\t" \
                     "push $0x23\n\tpush %%rsi\n\tlretq\n\t" \
                     ".code32\n2:" : : : "eax", "ecx", "esi", "edi", "memory")

int main(void) {
    L4_Word_t process = 20; /* getpid, by its number in 32-bit code; 39 in 64-bit code */
    switch (L4_ThreadNo(L4_Myself())) {
    case 3: __asm__ volatile("int $0x80" : "+a"(process)); break;
    case 4: IN_64_BIT_CODE("mov $39, %%eax\n\tsyscall"); break;
    case 5: IN_64_BIT_CODE("mov $0xffffffffff600400, %%rax\n\txor %%edi, %%edi\n\tcall *%%rax"); break; /* time */
    case 6: IN_64_BIT_CODE("mov $0x100000000000, %%rax\n\tmovb $0, (%%rax)"); break;
    default: IN_64_BIT_CODE("jmp 1b");
    }
    print("host: it continues, which is wrong\n");
    return 0;
}
