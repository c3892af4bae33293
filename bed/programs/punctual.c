/* Timeouts by a clock that is virtual: when each begins, which is over first, and what comes before it. By the host's clock, this would depend on the
 * speed of the machine. */
#include "children.h"
#include <l4/schedule.h>

#define ROOT L4_GlobalId(2, 1)
#define FIRST 10u
#define THREADS 3u
#define MILLISECONDS(n) L4_TimePeriod((n) * 1000u)

static char stacks[THREADS][2048] __attribute__((aligned(16)));
static L4_Word_t reply_after;

static L4_ThreadId_t thread(L4_Word_t place) {
    return L4_GlobalId(FIRST + place, 1);
}

static void run(L4_Word_t place, void (*function)(void)) {
    L4_Start_SpIp(thread(place), (L4_Word_t)(stacks[place] + sizeof stacks[place] - 16), (L4_Word_t)function);
}

static void print_error(const char *what) {
    print_number(what, L4_ErrorCode(), "\n");
}

static void wait_for_ever(void) {
    for (;;)
        L4_Sleep(L4_Never);
}

/* The first thread sleeps longest. */
static void sleep_in_turn(void) {
    L4_Word_t number = L4_ThreadNo(L4_Myself());
    L4_Sleep(MILLISECONDS(10 * (FIRST + THREADS - number)));
    print_number("sleeper: thread ", number, " wakes\n");
    L4_Set_MsgTag(L4_Niltag);
    L4_Send(ROOT);
    wait_for_ever();
}

static void use_sleepers(void) {
    L4_ThreadId_t from;
    L4_Word_t k;
    for (k = 0; k < THREADS; k++)
        run(k, sleep_in_turn);
    for (k = 0; k < THREADS; k++)
        L4_Wait(&from);
}

/* It receives after five milliseconds, and replies later. */
static void reply_late(void) {
    L4_ThreadId_t from;
    L4_Sleep(MILLISECONDS(5));
    L4_Wait(&from);
    L4_Sleep(L4_TimePeriod(reply_after));
    L4_Set_MsgTag(L4_Niltag);
    L4_Reply(from);
    print_error("late: its reply: ErrorCode ");
    wait_for_ever();
}

static void send_later(void) {
    L4_Sleep(MILLISECONDS(20));
    L4_Set_MsgTag(L4_Niltag);
    L4_Send(ROOT);
    wait_for_ever();
}

static void call_late(L4_Word_t microseconds) {
    reply_after = microseconds;
    run(0, reply_late);
    L4_Set_MsgTag(L4_Niltag);
    L4_Call_Timeouts(thread(0), L4_Never, MILLISECONDS(3));
    print_error("root: a receive phase of three milliseconds: ErrorCode ");
}

static void use_phases(void) {
    call_late(2000);
    run(1, send_later);
    L4_Receive(thread(1));
    print_error("root: a receive without a timeout after it: ErrorCode ");
    call_late(4000);
    L4_Sleep(MILLISECONDS(10));
}

/* Raises an exception after an Ipc with a timeout that was not needed. */
static void raise(void) {
    L4_Set_ExceptionHandler(ROOT);
    L4_Receive_Timeout(ROOT, MILLISECONDS(5));
    __asm__ volatile("hlt");
    print_error("raise: after the exception: ErrorCode ");
    wait_for_ever();
}

/* Answers the exception late: the thread continues behind its instruction, which has one byte. */
static void use_exception(void) {
    L4_Word_t words[12];
    run(1, raise);
    L4_Set_MsgTag(L4_Niltag);
    L4_Send(thread(1));
    L4_Sleep(MILLISECONDS(20));
    L4_Receive(thread(1));
    L4_StoreMRs(1, 12, words);
    words[0]++;
    L4_LoadMRs(1, 12, words);
    L4_Set_MsgTag(L4_MsgTagOfWord(12));
    L4_Reply(thread(1));
    L4_Yield();
}

/* It computes for five milliseconds, which is less than a turn, and then sends. */
static void compute(void) {
    L4_Word_t k;
    for (k = 0; k < 25000; k++)
        __asm__ volatile("");
    L4_Set_MsgTag(L4_Niltag);
    L4_Send_Timeout(ROOT, L4_ZeroTime);
    print_error("compute: root does not wait any more: ErrorCode ");
    L4_Set_MsgTag(L4_Niltag);
    L4_Send(ROOT);
    wait_for_ever();
}

static void use_turns(void) {
    run(2, compute);
    L4_Receive_Timeout(thread(2), MILLISECONDS(1));
    print_error("root: a wait that ends within the turn of another thread: ErrorCode ");
    L4_Receive_Timeout(thread(2), MILLISECONDS(50));
    print_error("root: one that is long enough: ErrorCode ");
}

static void use_times(void) {
    L4_Clock_t before = L4_SystemClock(), after;
    L4_Time_t point;
    L4_Sleep(MILLISECONDS(5));
    after = L4_SystemClock();
    print_number("root: five milliseconds, and not fifty microseconds more: ", after.raw - before.raw >= 5000 && after.raw - before.raw < 5050, "\n");
    point = L4_TimePoint2(L4_ClockAddUsec(after, 10000), 1);
    print_number("root: a point is longer than a period ", L4_IsTimeLonger(point, MILLISECONDS(9)), "");
    print_number(", and shorter than another ", L4_IsTimeShorter(point, MILLISECONDS(11)), "\n");
    point = L4_TimeAddTo(point, 10000);
    L4_Sleep(L4_TimeSubtractFrom(point, 5000));
    before = L4_SystemClock();
    print_number("root: a sum of times: ", before.raw - after.raw >= 14900 && before.raw - after.raw < 15100, "\n");
}

int main(void) {
    L4_Word_t k;
    for (k = 0; k < THREADS; k++)
        demand(L4_ThreadControl(thread(k), L4_Myself(), L4_Myself(), L4_Pager(), L4_Utcb() + 128 * (k + 1)), "a thread cannot be created");
    use_sleepers();
    use_phases();
    use_exception();
    use_turns();
    use_times();
    L4_KDB_Enter("done");
    return 0;
}
