/* Divides by zero in a function of its own. It is compiled with debugging information, so the bed prints the source line. */
#include "text.h"

static L4_Word_t divide(L4_Word_t number, L4_Word_t by) {
    L4_Word_t quotient;
    __asm__ volatile("divl %2" : "=a"(quotient) : "a"(number), "r"(by), "d"(0) : "cc");
    return quotient;
}

int main(void) {
    print_number("crashing: ", divide(1, 0), "\n");
    return 0;
}
