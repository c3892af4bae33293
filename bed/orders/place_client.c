/* Prints its place in the order of the clients. */
#include "count.h"

int main(void) {
    wait_for_go();
    print_number("is number ", ask_count(), "\n");
    return 0;
}
