/* Adds in a loop, for gdb. It is compiled without optimization. */
#include "text.h"

static volatile int total;

static int add(int left, int right) {
    int sum = left + right;
    total += sum;
    return sum;
}

int main(void) {
    int k, all = 0;
    for (k = 0; k < 3; k++)
        all += add(k, 10);
    print_number("adding: ", (L4_Word_t)all, "\n");
    L4_KDB_Enter("done");
    return 0;
}
