/* Has two assertions, the second of which does not hold. */
#include "text.h"

int main(void) {
    volatile L4_Word_t sum = 2;
    L4_KDB_Assert(sum == 2);
    sum += 2;
    L4_KDB_Assert(sum == 5);
    L4_KDB_Enter("the sum is 5");
    return 0;
}
