/* C++ forms of <l4/schedule.h>. */
#ifndef L4_CXX_SCHEDULE_H
#define L4_CXX_SCHEDULE_H

L4_INLINE bool operator==(const L4_Time_t &l, const L4_Time_t &r) {
    return L4_IsTimeEqual(l, r);
}

L4_INLINE bool operator!=(const L4_Time_t &l, const L4_Time_t &r) {
    return !L4_IsTimeEqual(l, r);
}

L4_INLINE bool operator<(const L4_Time_t &l, const L4_Time_t &r) {
    return L4_IsTimeShorter(l, r);
}

L4_INLINE bool operator>(const L4_Time_t &l, const L4_Time_t &r) {
    return L4_IsTimeLonger(l, r);
}

L4_INLINE bool operator<=(const L4_Time_t &l, const L4_Time_t &r) {
    return !L4_IsTimeLonger(l, r);
}

L4_INLINE bool operator>=(const L4_Time_t &l, const L4_Time_t &r) {
    return !L4_IsTimeShorter(l, r);
}

L4_INLINE L4_Time_t operator+(const L4_Time_t &l, L4_Word_t r) {
    return L4_TimeAddTo(l, r);
}

L4_INLINE L4_Time_t operator-(const L4_Time_t &l, L4_Word_t r) {
    return L4_TimeSubtractFrom(l, r);
}

L4_INLINE L4_Clock_t operator+(const L4_Clock_t &c, L4_Word64_t microseconds) {
    return L4_ClockAddUsec(c, microseconds);
}

L4_INLINE L4_Clock_t operator+(const L4_Clock_t &c, int microseconds) {
    return L4_ClockAddUsec(c, (L4_Word64_t)microseconds);
}

L4_INLINE L4_Clock_t operator-(const L4_Clock_t &c, L4_Word64_t microseconds) {
    return L4_ClockSubUsec(c, microseconds);
}

L4_INLINE L4_Clock_t operator-(const L4_Clock_t &c, int microseconds) {
    return L4_ClockSubUsec(c, (L4_Word64_t)microseconds);
}

L4_INLINE bool operator<(const L4_Clock_t &l, const L4_Clock_t &r) {
    return L4_IsClockEarlier(l, r);
}

L4_INLINE bool operator>(const L4_Clock_t &l, const L4_Clock_t &r) {
    return L4_IsClockLater(l, r);
}

L4_INLINE bool operator<=(const L4_Clock_t &l, const L4_Clock_t &r) {
    return !L4_IsClockLater(l, r);
}

L4_INLINE bool operator>=(const L4_Clock_t &l, const L4_Clock_t &r) {
    return !L4_IsClockEarlier(l, r);
}

L4_INLINE bool operator==(const L4_Clock_t &l, const L4_Clock_t &r) {
    return L4_IsClockEqual(l, r);
}

L4_INLINE bool operator!=(const L4_Clock_t &l, const L4_Clock_t &r) {
    return L4_IsClockNotEqual(l, r);
}

#endif
