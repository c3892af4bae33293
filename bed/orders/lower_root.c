/* Thread 5 has a lower priority than thread 4, so it takes its first turn when thread 4 waits. */
#include "unordered.h"
#include <l4/schedule.h>

int main(void) {
    start_programs(3);
    demand(L4_Set_Priority(thread(5), 100), "root: the priority cannot be set");
    let_go(0, 3);
    serve_faults();
    return 0;
}
