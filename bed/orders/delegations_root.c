/* examples/two_delegations.litmus. Root takes the place of sigma0. */
#include "shared.h"
#define OTHER 0x8000u

int main(void) {
    start_programs(2);
    take_pages(SOURCE, PAGE);
    take_pages(OTHER, PAGE);
    send_page(thread(3), SOURCE, 0x21000, L4_FullyAccessible);
    let_go(1, 2);
    send_page(thread(4), OTHER, 0x39000, L4_FullyAccessible);
    serve_faults();
    return 0;
}
