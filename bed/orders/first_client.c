/* Asserts that nobody has called the server before. With two such clients, this is wrong in every order. */
#include "count.h"

int main(void) {
    wait_for_go();
    L4_KDB_Assert(ask_count() == 0);
    return 0;
}
