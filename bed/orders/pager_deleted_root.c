/* examples/pager_deleted_in_a_fault.litmus, with threads 3 and 4 for its threads 4 and 5: root deletes the pager of thread 4. */
#include "shared.h"

int main(void) {
    start_programs(2);
    demand(L4_ThreadControl(thread(4), thread(4), L4_nilthread, thread(3), (void *)0xffffffffu), "root: thread 4 gets no pager");
    let_go(0, 2);
    L4_ThreadControl(thread(3), L4_nilthread, L4_nilthread, L4_nilthread, (void *)0xffffffffu);
    serve_faults();
    return 0;
}
