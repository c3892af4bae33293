/* Time, timeouts, and the end of a turn. */
#ifndef L4_SCHEDULE_H
#define L4_SCHEDULE_H

#include <l4/kip.h>
#include <l4/thread.h>
#include <l4/types.h>

/* A timeout: a period of m * 2^e microseconds (a is 0), or a point in time (a is 1). */
typedef union {
    L4_Word16_t raw;
    struct {
        L4_Word_t m : 10;
        L4_Word_t e : 5;
        L4_Word_t a : 1;
    } period;
    struct {
        L4_Word_t m : 10;
        L4_Word_t c : 1;
        L4_Word_t e : 4;
        L4_Word_t a : 1;
    } point;
} L4_Time_t;

typedef union {
    L4_Word64_t raw;
} L4_Clock_t;

L4_BEGIN_C

L4_INLINE L4_Time_t L4_TimeOfWord(L4_Word_t raw) {
    L4_Time_t time;
    time.raw = (L4_Word16_t)raw;
    return time;
}

#define L4_Never L4_TimeOfWord(0)
#define L4_ZeroTime L4_TimeOfWord(0x400)

L4_INLINE L4_Bool_t L4_IsTimeEqual(L4_Time_t l, L4_Time_t r) {
    return l.raw == r.raw;
}

L4_INLINE L4_Word_t L4_Timeouts(L4_Time_t SndTimeout, L4_Time_t RcvTimeout) {
    return (L4_Word_t)SndTimeout.raw << 16 | RcvTimeout.raw;
}

/* CLOCK */

/* Returns a time in microseconds: with the engine unicorn, virtual time, which counts what was executed; otherwise, the host's. */
L4_INLINE L4_Clock_t L4_SystemClock(void) {
    L4_Clock_t clock;
    __asm__ __volatile__("call *%[entry]" : "=A"(clock.raw) : [entry] "r"(L4_KipEntry(L4_KIP_SYSTEM_CLOCK)) : "ecx", "memory", "cc");
    return clock;
}

L4_INLINE L4_Clock_t L4_ClockAddUsec(L4_Clock_t c, L4_Word64_t microseconds) {
    c.raw += microseconds;
    return c;
}

L4_INLINE L4_Clock_t L4_ClockSubUsec(L4_Clock_t c, L4_Word64_t microseconds) {
    c.raw -= microseconds;
    return c;
}

L4_INLINE L4_Bool_t L4_IsClockEarlier(L4_Clock_t l, L4_Clock_t r) {
    return l.raw < r.raw;
}

L4_INLINE L4_Bool_t L4_IsClockLater(L4_Clock_t l, L4_Clock_t r) {
    return l.raw > r.raw;
}

L4_INLINE L4_Bool_t L4_IsClockEqual(L4_Clock_t l, L4_Clock_t r) {
    return l.raw == r.raw;
}

L4_INLINE L4_Bool_t L4_IsClockNotEqual(L4_Clock_t l, L4_Clock_t r) {
    return l.raw != r.raw;
}

/* TIMEOUTS */

/* Returns the period of this many microseconds, of which the first ten binary digits count. 0 is L4_ZeroTime, and 2^41 or more is L4_Never. */
L4_INLINE L4_Time_t L4_TimePeriod(L4_Word64_t microseconds) {
    L4_Word_t exponent = 0;
    while (microseconds >> exponent > 1023)
        exponent++;
    if (microseconds == 0)
        return L4_ZeroTime;
    return exponent > 31 ? L4_Never : L4_TimeOfWord(exponent << 10 | (L4_Word_t)(microseconds >> exponent));
}

/* Returns the point in time `at`, rounded down to a multiple of 2^e microseconds. 2^e is the largest power of two up to `precision`, or a larger one if
 * `at` is too far away: a point can be named from 2^(e+10) microseconds before it, and e is 15 at most. A point that is farther away is L4_Never, and
 * one that has passed is L4_ZeroTime. Once the clock reaches the next multiple of 2^(e+10), the result names a later point. */
L4_INLINE L4_Time_t L4_TimePoint2(L4_Clock_t at, L4_Word_t precision) {
    L4_Word64_t now = L4_SystemClock().raw;
    L4_Word_t exponent = 0;
    while (exponent < 15 && 2u << exponent <= precision)
        exponent++;
    while ((at.raw >> (exponent + 10)) - (now >> (exponent + 10)) > 1 && at.raw > now)
        exponent++;
    if (at.raw <= now)
        return L4_ZeroTime;
    return exponent > 15 ? L4_Never : L4_TimeOfWord(0x8000 | exponent << 11 | (L4_Word_t)(at.raw >> exponent & 0x7ff));
}

/* Returns the point's time. */
L4_INLINE L4_Clock_t L4_ClockOfPoint(L4_Time_t t, L4_Clock_t now) {
    L4_Word_t bits = t.point.e + 10u;
    L4_Clock_t clock;
    clock.raw = now.raw >> bits;
    clock.raw += (clock.raw & 1) != t.point.c;
    clock.raw = (clock.raw << bits) + ((L4_Word64_t)t.point.m << t.point.e);
    return clock;
}

/* Returns how many microseconds are left of a timeout that begins now. */
L4_INLINE L4_Word64_t L4_TimeLeft(L4_Time_t t, L4_Clock_t now) {
    L4_Clock_t point = L4_ClockOfPoint(t, now);
    if (t.raw == 0)
        return ~(L4_Word64_t)0;
    if (!t.point.a)
        return (L4_Word64_t)t.period.m << t.period.e;
    return point.raw > now.raw ? point.raw - now.raw : 0;
}

/* Returns a timeout that is `r` microseconds longer, or a point that is so much later. L4_Never stays as it is. */
L4_INLINE L4_Time_t L4_TimeAddTo(L4_Time_t l, L4_Word_t r) {
    L4_Clock_t now = L4_SystemClock();
    if (l.raw == 0)
        return L4_Never;
    if (l.point.a)
        return L4_TimePoint2(L4_ClockAddUsec(L4_ClockOfPoint(l, now), r), 1u << l.point.e);
    return L4_TimePeriod(L4_TimeLeft(l, now) + r);
}

/* Returns a timeout that is `r` microseconds shorter, or a point that is so much earlier; L4_ZeroTime if nothing is left. L4_Never stays as it is. */
L4_INLINE L4_Time_t L4_TimeSubtractFrom(L4_Time_t l, L4_Word_t r) {
    L4_Clock_t now = L4_SystemClock();
    if (l.raw == 0)
        return L4_Never;
    if (L4_TimeLeft(l, now) <= r)
        return L4_ZeroTime;
    if (l.point.a)
        return L4_TimePoint2(L4_ClockSubUsec(L4_ClockOfPoint(l, now), r), 1u << l.point.e);
    return L4_TimePeriod(L4_TimeLeft(l, now) - r);
}

/* A point counts as the period from now to it. */
L4_INLINE L4_Bool_t L4_IsTimeLonger(L4_Time_t l, L4_Time_t r) {
    L4_Clock_t now = L4_SystemClock();
    return L4_TimeLeft(l, now) > L4_TimeLeft(r, now);
}

L4_INLINE L4_Bool_t L4_IsTimeShorter(L4_Time_t l, L4_Time_t r) {
    return L4_IsTimeLonger(r, l);
}

/* TURNS */

/* Ends the caller's turn. The next one is that of `dest`, if it can run; otherwise, and if `dest` is L4_nilthread, that of a thread with the highest
 * priority. */
L4_INLINE void L4_ThreadSwitch(L4_ThreadId_t dest) {
    L4_Word_t ignored;
    __asm__ __volatile__("call *%[entry]" : "=a"(ignored) : "a"(dest.raw), [entry] "r"(L4_KipEntry(L4_KIP_THREAD_SWITCH)) : "memory", "cc");
}

L4_INLINE void L4_Yield(void) {
    L4_ThreadSwitch(L4_nilthread);
}

/* Sets the priority of a thread, from 0 to 255, or not at all if it is 0xffffffff. A thread begins with 255. A thread runs only while no thread of a
 * higher priority can run. No priority may be higher than the caller's. A thread of root's space can change every thread, and others those of
 * their space. TimeControl sets the time slice. The other control words have to be 0xffffffff, which leaves all as it is. Returns 0 with an
 * ErrorCode, or what the thread does: 1 if the bed has stopped it, 2 without a pager, 3 if it runs, 4 if it waits to send, 6 if it waits to receive;
 * and what is left of its time slice. */
L4_INLINE L4_Word_t L4_Schedule(L4_ThreadId_t dest, L4_Word_t TimeControl, L4_Word_t ProcessorControl, L4_Word_t prio, L4_Word_t PreemptionControl,
                                L4_Word_t *old_TimeControl) {
    L4_Word_t result = dest.raw;
    __asm__ __volatile__("call *%[entry]"
                         : "+a"(result), "+c"(prio), "+d"(TimeControl), "+S"(ProcessorControl), "+D"(PreemptionControl)
                         : [entry] "b"(L4_KipEntry(L4_KIP_SCHEDULE))
                         : "memory", "cc");
    *old_TimeControl = TimeControl;
    return result;
}

L4_INLINE L4_Word_t L4_Set_Priority(L4_ThreadId_t dest, L4_Word_t prio) {
    L4_Word_t old;
    return L4_Schedule(dest, 0xffffffffu, 0xffffffffu, prio, 0xffffffffu, &old);
}

L4_ABSENT("l4_bed has one processor")
L4_Word_t L4_Set_ProcessorNo(L4_ThreadId_t dest, L4_Word_t cpu);

/* Sets the time slice of a thread: a period, which is rounded up to whole turns, or L4_Never, with which the thread runs until it waits, yields, or a
 * thread of a higher priority runs. A thread begins with one turn. The total quantum has to be L4_Never. Returns as L4_Schedule does. */
L4_INLINE L4_Word_t L4_Set_Timeslice(L4_ThreadId_t dest, L4_Time_t ts, L4_Time_t tq) {
    L4_Word_t old;
    return L4_Schedule(dest, (L4_Word_t)ts.raw << 16 | tq.raw, 0xffffffffu, 0xffffffffu, 0xffffffffu, &old);
}

/* Reads what is left of the time slice of a thread, and of its total quantum, which is L4_Never. */
L4_INLINE L4_Word_t L4_Timeslice(L4_ThreadId_t dest, L4_Time_t *ts, L4_Time_t *tq) {
    L4_Word_t left, result = L4_Schedule(dest, 0xffffffffu, 0xffffffffu, 0xffffffffu, 0xffffffffu, &left);
    *ts = L4_TimeOfWord(left >> 16);
    *tq = L4_TimeOfWord(left & 0xffff);
    return result;
}

L4_ABSENT("this kernel has no preemption control")
L4_Word_t L4_Set_PreemptionDelay(L4_ThreadId_t dest, L4_Word_t sensitivePrio, L4_Word_t maxDelay);

L4_END_C

#ifdef __cplusplus
#include <l4/cxx/schedule.h>
#endif

#endif
