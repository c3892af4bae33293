/* Ends the run. */
#include "unordered.h"

int main(void) {
    wait_for_go();
    L4_KDB_Enter("done");
    return 0;
}
