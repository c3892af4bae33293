/* Finite timeouts: periods and points in time, in each phase, and of a thread that is halted or canceled. What it prints depends on no speed. */
#include "children.h"
#include <l4/schedule.h>

#define MUTE L4_GlobalId(10, 1)
#define ECHO L4_GlobalId(11, 1)
#define SLEEPER L4_GlobalId(12, 1)
#define HOUR L4_TimePeriod(3600000000u)

static char stacks[3][2048] __attribute__((aligned(16)));
static L4_Clock_t start;

static void begin(void) {
    start = L4_SystemClock();
    L4_Set_MsgTag(L4_Niltag);
}

/* The ErrorCode of the Ipc since begin(), and whether it lasted so many microseconds or longer. */
static void show(const char *what, L4_Word_t microseconds) {
    L4_Clock_t end = L4_SystemClock();
    print(what);
    print_number(": ErrorCode ", L4_ErrorCode(), "");
    print_number(", not too short: ", end.raw - start.raw >= microseconds, "\n");
}

/* The threads begin their functions by a jump, so these never return. */
static void receive_only(void) {
    for (;;)
        L4_Receive(L4_GlobalId(2, 1));
}

static void echo(void) {
    L4_ThreadId_t from;
    L4_Wait_Timeout(HOUR, &from);
    for (;;)
        L4_ReplyWait_Timeout(from, HOUR, &from);
}

static void sleep_twice(void) {
    L4_Sleep(L4_TimePeriod(2000));
    print_number("sleeper: slept while it was halted: ErrorCode ", L4_ErrorCode(), "\n");
    L4_Sleep(HOUR);
    print_number("sleeper: an hour is cut short: ErrorCode ", L4_ErrorCode(), "\n");
    L4_KDB_Enter("done");
}

static void create(L4_ThreadId_t id, L4_Word_t place) {
    demand(L4_ThreadControl(id, L4_Myself(), L4_Myself(), L4_Pager(), L4_Utcb() + 128 * (place + 1)), "a thread cannot be created");
}

static void run(L4_ThreadId_t id, L4_Word_t place, void (*function)(void)) {
    L4_Start_SpIp(id, (L4_Word_t)(stacks[place] + sizeof stacks[place] - 16), (L4_Word_t)function);
}

static void use_periods(void) {
    L4_ThreadId_t from;
    begin();
    L4_Sleep(L4_TimePeriod(5000));
    show("timeouts: a sleep", 5000);
    begin();
    L4_Wait_Timeout(L4_TimeOfWord(5 << 10 | 100), &from);
    show("timeouts: a wait of 3,200 microseconds", 3200);
    begin();
    L4_Receive_Timeout(ECHO, L4_TimeOfWord(2 << 10));
    show("timeouts: a period of nothing", 0);
    begin();
    L4_Send_Timeout(MUTE, L4_TimePeriod(1000));
    show("timeouts: a send", 1000);
    begin();
    L4_Call_Timeouts(MUTE, L4_TimePeriod(1000), HOUR);
    show("timeouts: a call that cannot send", 1000);
}

static void use_phases(void) {
    L4_ThreadId_t from;
    run(MUTE, 0, receive_only);
    run(ECHO, 1, echo);
    begin();
    L4_Call_Timeouts(MUTE, HOUR, L4_TimePeriod(1000));
    show("timeouts: a call that gets no reply", 1000);
    begin();
    L4_Call_Timeouts(ECHO, HOUR, HOUR);
    show("timeouts: a call that gets a reply", 0);
    begin();
    L4_ReplyWait_Timeout(MUTE, L4_TimePeriod(1000), &from);
    show("timeouts: a reply, and a wait", 1000);
}

static void use_points(void) {
    L4_Clock_t point = L4_ClockAddUsec(L4_SystemClock(), 5000);
    L4_Time_t time;
    point.raw &= ~(L4_Word64_t)0x3ff;
    time = L4_TimePoint2(point, 1);
    begin();
    L4_Sleep(time);
    print_number("timeouts: a point in time: ErrorCode ", L4_ErrorCode(), "");
    print_number(", not too early: ", !L4_IsClockEarlier(L4_SystemClock(), point), "\n");
    L4_Receive_Timeout(ECHO, time);
    print_number("timeouts: one that has passed: ErrorCode ", L4_ErrorCode(), "\n");
}

/* The sleeper's first sleep ends before root's. */
static void use_sleeper(void) {
    create(SLEEPER, 2);
    run(SLEEPER, 2, sleep_twice);
    L4_Yield();
    L4_Stop(SLEEPER);
    L4_Sleep(L4_TimePeriod(20000));
    L4_Start(SLEEPER);
    L4_Yield();
    L4_Start(SLEEPER);
}

static void show_word(const char *before, L4_Time_t time) {
    print_word(before, time.raw, "");
}

static void use_words(void) {
    L4_Clock_t past = L4_SystemClock(), far = L4_ClockAddUsec(past, (L4_Word64_t)1 << 40);
    show_word("timeouts: periods ", L4_TimePeriod(0));
    show_word(" ", L4_TimePeriod(1));
    show_word(" ", L4_TimePeriod(1023));
    show_word(" ", L4_TimePeriod(1025));
    show_word(" ", L4_TimePeriod(5000));
    show_word(" ", L4_TimePeriod(((L4_Word64_t)1 << 41) - 1));
    show_word(" ", L4_TimePeriod((L4_Word64_t)1 << 41));
    show_word("\ntimeouts: sums ", L4_TimeAddTo(L4_TimePeriod(1000), 24));
    show_word(" ", L4_TimeAddTo(L4_ZeroTime, 5));
    show_word(" ", L4_TimeAddTo(L4_Never, 5));
    show_word("\ntimeouts: differences ", L4_TimeSubtractFrom(L4_TimePeriod(1000), 1));
    show_word(" ", L4_TimeSubtractFrom(L4_TimePeriod(1000), 1001));
    show_word(" ", L4_TimeSubtractFrom(L4_Never, 5));
    show_word("\ntimeouts: points that are too far away, and that have passed ", L4_TimePoint2(far, 1));
    show_word(" ", L4_TimePoint2(past, 1));
    print_number("\ntimeouts: longer ", L4_IsTimeLonger(L4_Never, HOUR), "");
    print_number(" ", L4_IsTimeLonger(L4_TimePeriod(5), L4_TimePeriod(5)), "");
    print_number(", shorter ", L4_IsTimeShorter(L4_ZeroTime, L4_TimePeriod(1)), "");
    print_number(" ", L4_IsTimeShorter(HOUR, L4_TimePeriod(1)), "\n");
}

int main(void) {
    create(MUTE, 0);
    create(ECHO, 1);
    use_words();
    use_periods();
    use_phases();
    use_points();
    use_sleeper();
    for (;;)
        L4_Sleep(L4_Never);
}
