/* The bed's clock, and timeouts by it. The kernel knows the timeouts zero and never alone: in place of any other it gets never, and the bed ends the
 * wait once its time is over. Times are in microseconds. */
#include "bed.h"
#include "check.h"
#include <time.h>

#define NEVER 0u

/* A timeout is a period (bit 15 is 0), with an exponent of five bits and a mantissa of ten; or a point in time, with an exponent of four bits, a bit of
 * the clock, and the mantissa. */
#define IS_POINT 0x8000u
#define MANTISSA_BITS 10
#define MANTISSA 0x3ffu

/* If no thread can run, the bed sleeps for at most this many microseconds at a time. */
#define MOST_SLEEP 10000u

uint64_t clock_now(const struct bed *bed) {
    struct timespec now;
    if (bed->has_virtual_clock)
        return bed->virtual_time / 1000;
    check_system(clock_gettime(CLOCK_MONOTONIC, &now), "clock_gettime");
    return (uint64_t)now.tv_sec * 1000000 + (uint64_t)now.tv_nsec / 1000;
}

/* In a search of all orders, each thread has a clock. */
static uint64_t time_of(const struct bed *bed, const struct thread *thread) {
    return bed->orders != NULL ? orders_time(bed, thread) : clock_now(bed);
}

/* The clock's bits from e + 10 on are those of the point; or the next ones, if the lowest of them is not the point's bit of the clock. */
static uint64_t point_of(uint32_t timeout, uint64_t now) {
    uint32_t exponent = timeout >> (MANTISSA_BITS + 1) & 0xf;
    uint64_t high = now >> (exponent + MANTISSA_BITS);
    high += (high & 1) != (timeout >> MANTISSA_BITS & 1);
    return (high << (exponent + MANTISSA_BITS)) + ((uint64_t)(timeout & MANTISSA) << exponent);
}

uint64_t timeouts_microseconds(uint32_t period) {
    return (uint64_t)(period & MANTISSA) << (period >> MANTISSA_BITS & 0x1f);
}

uint32_t timeouts_period(uint64_t microseconds) {
    uint32_t exponent = 0;
    while (microseconds >> exponent > MANTISSA)
        exponent++;
    return exponent << MANTISSA_BITS | (uint32_t)(microseconds >> exponent);
}

int timeouts_is_period(uint32_t timeout) {
    return timeout != NEVER && (timeout & IS_POINT) == 0;
}

/* When a phase that begins at this time expires. A point means what it meant when the thread made the call. */
static uint64_t deadline_of(const struct thread *thread, uint32_t timeout, uint64_t begin) {
    return timeout & IS_POINT ? point_of(timeout, thread->call_time) : begin + timeouts_microseconds(timeout);
}

/* Whether the timeout is neither never nor zero: no period without a microsecond, and no point that has passed. */
static int is_finite(const struct thread *thread, uint32_t timeout) {
    return timeout != NEVER && deadline_of(thread, timeout, thread->call_time) > thread->call_time;
}

static uint32_t for_kernel(const struct thread *thread, uint32_t timeout) {
    return timeout == NEVER || is_finite(thread, timeout) ? NEVER : L4_ZERO_TIMEOUT;
}

uint64_t timeouts_length(const struct thread *thread, uint32_t timeout) {
    return deadline_of(thread, timeout, thread->call_time) - thread->call_time;
}

/* The phase with this timeout begins. */
static void begin_phase(struct bed *bed, struct thread *thread, uint32_t timeout) {
    thread->deadline = timeout == NEVER ? 0 : deadline_of(thread, timeout, time_of(bed, thread));
    if (thread->deadline != 0 && (bed->next_deadline == 0 || thread->deadline < bed->next_deadline))
        bed->next_deadline = thread->deadline;
}

static int is_plain(uint32_t timeout) {
    return timeout == NEVER || timeout == L4_ZERO_TIMEOUT;
}

void timeouts_begin(struct bed *bed, struct thread *thread, l4_call *call) {
    uint32_t send = call->timeouts >> 16, receive = call->timeouts & 0xffff;
    timeouts_forget(thread);
    if (is_plain(send) && is_plain(receive))
        return;
    thread->call_time = time_of(bed, thread);
    if (call->to != L4_NILTHREAD && is_finite(thread, send))
        thread->send_timeout = send;
    if (call->from != L4_NILTHREAD && is_finite(thread, receive))
        thread->receive_timeout = receive;
    call->timeouts = for_kernel(thread, send) << 16 | for_kernel(thread, receive);
    begin_phase(bed, thread, call->to != L4_NILTHREAD ? thread->send_timeout : thread->receive_timeout);
    bed->has_timeouts = 1;
}

void timeouts_after_transfer(struct bed *bed, uint32_t sender) {
    struct thread *thread = bed->has_timeouts ? thread_numbered(bed, sender) : NULL;
    if (thread == NULL || (thread->send_timeout | thread->receive_timeout) == 0 || thread_state(bed, thread).state != L4_STATE_RECEIVING)
        return;
    thread->send_timeout = NEVER;
    begin_phase(bed, thread, thread->receive_timeout);
}

uint64_t timeouts_left(const struct bed *bed, const struct thread *thread) {
    uint64_t time = time_of(bed, thread);
    return thread->deadline > time ? thread->deadline - time : 0;
}

void timeouts_forget(struct thread *thread) {
    thread->call_time = thread->deadline = 0;
    thread->send_timeout = thread->receive_timeout = NEVER;
}

static int is_before(const struct thread *a, const struct thread *b) {
    return a->deadline < b->deadline || (a->deadline == b->deadline && a->number < b->number);
}

/* Returns the thread whose wait expires first, or NULL if no wait expires. */
static struct thread *first_to_expire(struct bed *bed) {
    struct thread *first = NULL;
    uint32_t k;
    for (k = 0; k < bed->slots; k++) {
        struct thread *thread = &bed->threads[k];
        if (thread->deadline != 0 && thread_wait(bed, thread) != 0 && (first == NULL || is_before(thread, first)))
            first = thread;
    }
    return first;
}

static void expire_until(struct bed *bed, uint64_t now) {
    struct thread *first = first_to_expire(bed);
    while (first != NULL && first->deadline <= now) {
        timeouts_forget(first);
        kernel_timeout(bed, first->number);
        first = first_to_expire(bed);
    }
    bed->next_deadline = first == NULL ? 0 : first->deadline;
}

/* In a search of all orders, the end of a wait is a turn of its own. */
void timeouts_expire(struct bed *bed) {
    uint64_t now = bed->next_deadline == 0 ? 0 : clock_now(bed);
    if (bed->next_deadline != 0 && bed->next_deadline <= now && bed->orders == NULL)
        expire_until(bed, now);
}

/* Lets the host's time pass. Other programs of the host run meanwhile. */
static void sleep_until(struct bed *bed, uint64_t deadline) {
    uint64_t now = clock_now(bed);
    while (now < deadline && bed->end == NOT_ENDED) {
        uint64_t left = deadline - now < MOST_SLEEP ? deadline - now : MOST_SLEEP;
        struct timespec time = {0, (long)left * 1000};
        nanosleep(&time, NULL); /* a signal may end it before */
        end_watch(bed);
        now = clock_now(bed);
    }
}

int timeouts_wait(struct bed *bed) {
    struct thread *first = first_to_expire(bed);
    if (first == NULL)
        return 0;
    end_watch(bed);
    if (!bed->has_virtual_clock)
        sleep_until(bed, first->deadline);
    else if (bed->virtual_time < first->deadline * 1000)
        bed->virtual_time = first->deadline * 1000;
    if (bed->end == NOT_ENDED)
        expire_until(bed, first->deadline);
    return 1;
}
