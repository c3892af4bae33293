/* These programs, by their thread numbers, execute far calls and jumps whose operand is a register, which no processor has. Unicorn calls abort()
 * when it translates them. One program executes them behind other instructions, and one in a loop. The last program continues. */
#include "children.h"

static volatile L4_Word_t count;

int main(void) {
    switch (L4_ThreadNo(L4_Myself())) {
    case 3: __asm__ volatile("invalid_call: .byte 0xff, 0xd8\n\tnop\n\tnop"); break;
    case 4: __asm__ volatile("pushl $1\n\tpopl %%eax\n\tinvalid_jump: .byte 0xff, 0xef\n\tnop\n\tnop" : : : "eax"); break;
    case 5:
        for (count = 0; count < 1000; count++)
            if (count == 999)
                __asm__ volatile("invalid_loop: .byte 0x66, 0xff, 0xdf\n\tnop" : : : "memory");
        break;
    default:
        for (count = 0; count < 3; count++)
            L4_Yield();
        print_number("invalid: thread 6 has yielded ", count, " times\n");
        return 0;
    }
    print("invalid: it continues, which is wrong\n");
    return 0;
}
