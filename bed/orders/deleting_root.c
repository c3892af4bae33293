/* Deletes the program that it has started. */
#include "unordered.h"

int main(void) {
    start_programs(1);
    let_go(0, 1);
    L4_ThreadControl(thread(3), L4_nilthread, L4_nilthread, L4_nilthread, (void *)0xffffffffu);
    serve_faults();
    return 0;
}
