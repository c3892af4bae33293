/* Threads of root's space with two priorities, which take turns by them; and attributes of pages. */
#include "children.h"
#include <l4/schedule.h>

#define LOW L4_GlobalId(10, 1)
#define HIGH L4_GlobalId(11, 1)

static char stacks[2][2048] __attribute__((aligned(16)));

static void take_turns(const char *name) {
    L4_Word_t turn;
    for (turn = 1; turn <= 3; turn++) {
        print(name);
        print_number(": turn ", turn, "\n");
        if (turn == 2)
            L4_ThreadSwitch(LOW);
        else
            L4_Yield();
    }
}

static void run_high(void) {
    L4_Word_t result = L4_Set_Priority(HIGH, 201);
    print_number("high: not above itself: ", result, "");
    print_number(", ErrorCode ", L4_ErrorCode(), "\n");
    print_number("high: root waits to receive: ", L4_Set_Priority(L4_GlobalId(2, 1), 0xffffffffu), "\n");
    take_turns("high");
    for (;;)
        L4_Receive(L4_Myself());
}

static void run_low(void) {
    take_turns("low");
    L4_KDB_Enter("done");
}

static void create(L4_ThreadId_t id, L4_Word_t place, L4_Word_t priority, void (*function)(void)) {
    demand(L4_ThreadControl(id, L4_Myself(), L4_Myself(), L4_Pager(), L4_Utcb() + 128 * (place + 1)), "a thread cannot be created");
    print_number("priorities: ", L4_Set_Priority(id, priority), "");
    L4_Start_SpIp(id, (L4_Word_t)(stacks[place] + sizeof stacks[place] - 16), (L4_Word_t)function);
    print_number(", then ", L4_Set_Priority(id, priority), "\n");
}

int main(void) {
    L4_Word_t result;
    create(LOW, 0, 100, run_low);
    create(HIGH, 1, 200, run_high);
    result = L4_Set_Priority(L4_GlobalId(77, 1), 1);
    print_number("priorities: no such thread: ", result, "");
    print_number(", ErrorCode ", L4_ErrorCode(), "\n");
    print_number("priorities: attributes are accepted: ", L4_Set_PageAttribute(L4_FpageLog2(0x20000, PAGE_LOG), L4_DefaultMemory), "\n");
    for (;;)
        L4_Receive(L4_Myself());
}
