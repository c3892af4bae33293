/* Reports a failure. */
#include "text.h"

int main(void) {
    print("failing: adds 2 and 2");
    L4_KDB_Enter("failed: the sum is 5");
    return 0;
}
