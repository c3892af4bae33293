/* Prints a line in the turn in which it begins to wait. */
#include "unordered.h"

int main(void) {
    wait_for_go();
    print("runs\n");
    return 0;
}
