/* Lends its turn to thread 5, and then prints its place in the order of the clients. */
#include "count.h"

int main(void) {
    wait_for_go();
    L4_ThreadSwitch(thread(5));
    print_number("is number ", ask_count(), "\n");
    return 0;
}
