/* Time slices of two threads that never wait: turns of ten milliseconds (--turn 10). How often each has run, virtual time decides. */
#include "children.h"
#include <l4/schedule.h>

#define FIRST L4_GlobalId(10, 1)
#define SECOND L4_GlobalId(11, 1)
#define MILLISECONDS(n) L4_TimePeriod((n) * 1000u)

static char stacks[2][2048] __attribute__((aligned(16)));
static volatile L4_Word_t counts[2];

/* The threads begin their functions by a jump, so these never return. */
static void count_first(void) {
    for (;;)
        counts[0]++;
}

static void count_second(void) {
    for (;;)
        counts[1]++;
}

static void create(L4_ThreadId_t id, L4_Word_t place, void (*function)(void)) {
    demand(L4_ThreadControl(id, L4_Myself(), L4_Myself(), L4_Pager(), L4_Utcb() + 128 * (place + 1)), "a thread cannot be created");
    L4_Set_Priority(id, 100);
    L4_Start_SpIp(id, (L4_Word_t)(stacks[place] + sizeof stacks[place] - 16), (L4_Word_t)function);
}

static void show_slice(const char *what, L4_Time_t slice, L4_Time_t quantum) {
    L4_Word_t state = L4_Set_Timeslice(FIRST, slice, quantum), error = L4_ErrorCode();
    L4_Time_t ts, tq;
    L4_Timeslice(FIRST, &ts, &tq);
    print(what);
    print_number(": ", state, "");
    print_number(", ErrorCode ", error, "");
    print_word(", then ", ts.raw, "");
    print_word(" ", tq.raw, "\n");
}

/* Lets the two run for a while, and prints how often the first has run for each time that the second has, to the nearest whole number. */
static void show_counts(const char *what, L4_Word_t milliseconds) {
    counts[0] = counts[1] = 0;
    L4_Sleep(MILLISECONDS(milliseconds));
    print(what);
    print_number(": the second has run: ", counts[1] > 0, "");
    print_number(", the first as often ", counts[1] == 0 ? 0 : (counts[0] + counts[1] / 2) / counts[1], " times\n");
}

int main(void) {
    create(FIRST, 0, count_first);
    create(SECOND, 1, count_second);
    show_slice("slices: a point in time", L4_TimeOfWord(0x8001), L4_Never);
    show_slice("slices: nothing", L4_ZeroTime, L4_Never);
    show_slice("slices: a total quantum", MILLISECONDS(40), MILLISECONDS(100));
    show_counts("slices: one turn each", 200);
    show_slice("slices: four turns", MILLISECONDS(40), L4_Never);
    show_counts("slices: four turns and one", 200);
    show_slice("slices: rounded up", MILLISECONDS(11), L4_Never);
    show_counts("slices: two turns and one", 150);
    show_slice("slices: without an end", L4_Never, L4_Never);
    L4_Sleep(MILLISECONDS(30));
    show_counts("slices: all turns", 100);
    L4_KDB_Enter("done");
    return 0;
}
