/* examples/revoked_while_shared.litmus. Root takes the place of sigma0. */
#include "shared.h"

int main(void) {
    start_programs(2);
    take_pages(SOURCE, PAGE);
    send_page(thread(3), SOURCE, 0x20000, L4_FullyAccessible);
    let_go(1, 2);
    L4_UnmapFpage(page(SOURCE, L4_FullyAccessible));
    serve_faults();
    return 0;
}
