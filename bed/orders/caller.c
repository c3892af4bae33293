/* Makes the Ipc calls of a table, which `check_litmus` writes into copies of this program, and prints each reply. */
#include "unordered.h"

#define MOST_CALLS 8

static volatile struct {
    L4_Word_t mark[2], count;
    struct {
        L4_Word_t line, to, from, timeouts, tag;
    } calls[MOST_CALLS];
} table = {{0x6c6c6163, 0x656c6261}, 0, {{0, 0, 0, 0, 0}}};

int main(void) {
    L4_Word_t k;
    wait_for_go();
    for (k = 0; k < table.count; k++) {
        L4_ThreadId_t to, from;
        to.raw = table.calls[k].to;
        from.raw = table.calls[k].from;
        ipc(table.calls[k].line, to, from, table.calls[k].timeouts, table.calls[k].tag);
    }
    return 0;
}
