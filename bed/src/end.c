/* Why a run ends: a program ends it, no thread can continue, a limit is reached, a signal asks for it, or an output cannot be written. */
#define _GNU_SOURCE
#include "bed.h"
#include "check.h"
#include "signals.h"
#include <fcntl.h>
#include <stdio.h>
#include <string.h>
#include <time.h>
#include <unistd.h>

/* Outputs, the time and the memory are looked at after this many nanoseconds. */
#define INTERVAL 10000000u
#define SECOND UINT64_C(1000000000)
#define MEBIBYTE_LOG 20

/* A clock that costs little. */
static uint64_t now(void) {
    struct timespec time;
    check_system(clock_gettime(CLOCK_MONOTONIC_COARSE, &time), "clock_gettime");
    return (uint64_t)time.tv_sec * SECOND + (uint64_t)time.tv_nsec;
}

void end_begin(struct bed *bed) {
    bed->watch.start = bed->watch.last = now();
    bed->watch.memory = open("/proc/self/statm", O_RDONLY | O_CLOEXEC);
    if (bed->limits.memory != 0)
        check_system(bed->watch.memory, "--memory: /proc/self/statm");
}

/* Returns how many mebibytes of the bed are in the host's memory. The second number of the file counts pages. */
static uint64_t resident(const struct bed *bed) {
    char text[100];
    unsigned long long pages = 0;
    ssize_t length = pread(bed->watch.memory, text, sizeof text - 1, 0);
    check_system(length, "--memory: /proc/self/statm");
    text[length] = 0;
    check_holds(sscanf(text, "%*u %llu", &pages) == 1, "--memory: /proc/self/statm has no number");
    return pages * (uint64_t)sysconf(_SC_PAGESIZE) >> MEBIBYTE_LOG;
}

static void end_by(struct bed *bed, enum end end, const char *reason, uint64_t number) {
    bed->end = end;
    snprintf(bed->end_reason, sizeof bed->end_reason, number == 0 ? "%s" : "%s %llu is reached", reason, (unsigned long long)number);
}

static const char *signal_text(int number) {
    return number == SIGINT ? "SIGINT" : number == SIGTERM ? "SIGTERM" : "SIGHUP";
}

static void look(struct bed *bed, uint64_t time) {
    bed->watch.last = time;
    output_write();
    if (output_has_failed())
        end_by(bed, ENDED_BY_OUTPUT, "an output cannot be written", 0);
    else if (bed->limits.seconds != 0 && time - bed->watch.start >= bed->limits.seconds * SECOND)
        end_by(bed, ENDED_BY_LIMIT, "--time", bed->limits.seconds);
    else if (bed->limits.memory != 0 && resident(bed) >= bed->limits.memory)
        end_by(bed, ENDED_BY_LIMIT, "--memory", bed->limits.memory);
}

void end_watch(struct bed *bed) {
    uint64_t time = now();
    if (bed->end != NOT_ENDED)
        return;
    if (signals_end() != 0)
        end_by(bed, ENDED_BY_SIGNAL, signal_text(signals_end()), 0);
    else if (bed->limits.calls != 0 && bed->costs.calls >= bed->limits.calls)
        end_by(bed, ENDED_BY_LIMIT, "--calls", bed->limits.calls);
    else if (time - bed->watch.last >= INTERVAL)
        look(bed, time);
}

/* Returns the number of the one thread for which a thread waits without a timeout, or 0. */
static uint32_t awaited(struct bed *bed, const struct thread *thread) {
    uint32_t partner;
    if (thread == NULL || thread->deadline != 0 || thread_wait(bed, thread) == 0)
        return 0;
    partner = thread_state(bed, thread).partner;
    return partner != L4_ANYTHREAD ? NUMBER(partner) : 0;
}

/* Says of a partner what makes the wait endless. */
static const char *partner_text(struct bed *bed, uint32_t id) {
    const struct thread *partner = thread_find(bed, id);
    if (partner == NULL)
        return "";
    return partner->state == STOPPED ? ", which is stopped" : partner->state == READY && partner->is_halted ? ", which is halted" : "";
}

void end_by_gdb(struct bed *bed) {
    end_by(bed, ENDED_BY_LIMIT, "gdb has ended it", 0);
}

/* Writes how long a wait that expires lasts at most. */
static void write_rest(const struct bed *bed, const struct thread *thread, char *text, size_t room) {
    text[0] = 0;
    if (thread->deadline != 0)
        snprintf(text, room, " for at most %llu more microseconds", (unsigned long long)timeouts_left(bed, thread));
}

static void print_ipc(struct bed *bed, const struct thread *thread, const l4_state *state) {
    char rest[80];
    write_rest(bed, thread, rest, sizeof rest);
    if (state->partner == L4_ANYTHREAD)
        print("%u waits to receive from any thread%s\n", thread->number, rest);
    else if (state->partner == thread->id && thread->deadline != 0)
        print("%u sleeps%s\n", thread->number, rest);
    else if (state->partner == thread->id)
        print("%u waits for ever: it receives from itself\n", thread->number);
    else
        print("%u waits to %s %u%s%s\n", thread->number, state->state == L4_STATE_SENDING ? "send to" : "receive from", NUMBER(state->partner),
              rest, partner_text(bed, state->partner));
}

static void print_wait(struct bed *bed, const struct thread *thread, const l4_state *state) {
    uint32_t partner = NUMBER(state->partner);
    const char *text = partner_text(bed, state->partner);
    switch (thread->calling) {
    case CALL_START: print("%u waits for the message of its pager %u%s that starts it\n", thread->number, partner, text); break;
    case CALL_FAULT:
        print("%u waits for the answer of its pager %u%s to its page fault at %08x\n", thread->number, partner, text, thread->fault_address);
        break;
    case CALL_EXCEPTION: print("%u waits for the answer of its exception handler %u%s\n", thread->number, partner, text); break;
    default: print_ipc(bed, thread, state);
    }
}

static void print_thread(struct bed *bed, const struct thread *thread) {
    l4_state state;
    char name[SYMBOL_ROOM];
    if (thread->state == INACTIVE)
        print("%u has no pager yet\n", thread->number);
    if (thread->state == READY) {
        symbols_write(bed, thread, thread->registers.eip, name, sizeof name);
        print("%u %s at %08x%s\n", thread->number, thread->is_halted ? "is halted" : "can continue", thread->registers.eip, name);
    }
    if (thread->state != CALLING)
        return;
    if (thread_wait(bed, thread) != 0) {
        state = thread_state(bed, thread);
        print_wait(bed, thread, &state);
    } else
        print("%u can continue: its call has ended\n", thread->number);
}

/* Prints the circle of waiting threads that this thread is the lowest of, if there is one. */
static void print_circle(struct bed *bed, const struct thread *first) {
    uint32_t next = awaited(bed, first), length;
    for (length = 1; length <= L4_MAX_THREADS && next > first->number; length++)
        next = awaited(bed, thread_numbered(bed, next));
    if (next != first->number || length == 1)
        return;
    print("deadlock: %u", first->number);
    for (next = awaited(bed, first); next != first->number; next = awaited(bed, thread_numbered(bed, next)))
        print(" waits for %u, which", next);
    print(" waits for %u\n", first->number);
}

void end_print_threads(struct bed *bed) {
    size_t k;
    for (k = 0; k < L4_MAX_THREADS; k++)
        print_thread(bed, &bed->threads[k]);
    for (k = 0; k < L4_MAX_THREADS; k++)
        print_circle(bed, &bed->threads[k]);
}

void end_report(struct bed *bed) {
    size_t k;
    for (k = 0; k < L4_MAX_THREADS; k++)
        text_end_begun(&bed->threads[k]);
    if (bed->end == ENDED_WELL || bed->end == ENDED_BY_FAILURE || bed->end == ENDED_BY_ASSERTION)
        return;
    if (bed->end == NOT_ENDED)
        print("no thread can continue\n");
    else
        print("the run ends: %s\n", bed->end_reason);
    end_print_threads(bed);
}

int end_status(const struct bed *bed) {
    switch (bed->end) {
    case ENDED_BY_FAILURE: return STATUS_FAILED;
    case ENDED_BY_ASSERTION: return STATUS_ASSERTION;
    case ENDED_BY_LIMIT: return STATUS_LIMIT;
    case ENDED_BY_OUTPUT: return STATUS_OUTPUT;
    case ENDED_BY_SIGNAL: signals_end_by(signals_end());
    case NOT_ENDED: return bed->has_stopped ? STATUS_STOPPED : STATUS_STUCK;
    case ENDED_WELL: break;
    }
    return bed->has_stopped ? STATUS_STOPPED : STATUS_ENDED;
}
