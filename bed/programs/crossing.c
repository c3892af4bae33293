/* Instructions that cross page boundaries: code that continues into pages that are still absent, instructions that lie in two pages, and
 * instructions that read and write one operand. */
#include "children.h"

#define PAGES 4

static volatile L4_Word_t words[PAGES * PAGE / 4] __attribute__((aligned(4096)));

/* Adds 1 and stores a word, so often that the code is longer than two pages. The instructions have 3 and 7 bytes, so some lie in two pages. */
static __attribute__((noinline)) L4_Word_t run_on(L4_Word_t number) {
    __asm__ volatile(".rept 1200\n\t"
                     "addl $1, %0\n\t"
                     "movl $7, 8(%1)\n\t"
                     ".endr"
                     : "+r"(number)
                     : "r"(words)
                     : "memory", "cc");
    return number;
}

int main(void) {
    print_number("crossing: ", run_on(1), "\n");
    words[PAGE / 4] += 5;
    words[2 * PAGE / 4]++;
    __asm__ volatile("lock; xaddl %0, %1" : : "r"(3), "m"(words[3 * PAGE / 4]) : "memory", "cc");
    print_number("crossing: ", words[2], ", ");
    print_number("", words[PAGE / 4], ", ");
    print_number("", words[2 * PAGE / 4], ", ");
    print_number("", words[3 * PAGE / 4], "\n");
    L4_Set_MsgTag(L4_Niltag);
    L4_Send(L4_Pager());
    return 0;
}
