/* Divides by the server's answer, which is 0 for the first client. */
#include "count.h"

int main(void) {
    wait_for_go();
    print_number("10 by it is ", 10 / ask_count(), "\n");
    return 0;
}
