#define _GNU_SOURCE
#include "signals.h"
#include "check.h"
#include <stdio.h>
#include <stdio_ext.h>
#include <stdlib.h>
#include <string.h>
#include <unistd.h>

sigjmp_buf signals_abort_return;
volatile sig_atomic_t signals_abort_is_caught;

static void (*save_output)(void);
static volatile sig_atomic_t end_signal;
static volatile uint32_t running_thread, running_eip;

/* The sanitizers of compilers have handlers of their own for the first three. */
#ifdef __SANITIZE_ADDRESS__
static const int crashes[] = {SIGILL, SIGABRT};
#else
static const int crashes[] = {SIGSEGV, SIGBUS, SIGFPE, SIGILL, SIGABRT};
#endif
static const int ends[] = {SIGINT, SIGTERM, SIGHUP};

/* Writes are refused with an error instead. */
static const int ignored[] = {SIGPIPE, SIGXFSZ};

#define COUNT(list) (sizeof(list) / sizeof *(list))

static void print_crash(int number) {
    char text[120];
    int length = running_thread == 0
        ? snprintf(text, sizeof text, "l4_bed: the bed has crashed (signal %d)\n", number)
        : snprintf(text, sizeof text, "l4_bed: the engine has crashed (signal %d) while it ran thread %u from %08x on\n", number, running_thread, running_eip);
    if (write(STDERR_FILENO, text, (size_t)length) < 0)
        return;
}

static void on_crash(int number) {
    if (number == SIGABRT && signals_abort_is_caught)
        siglongjmp(signals_abort_return, 1);
    signal(number, SIG_DFL);
    save_output();
    print_crash(number);
    _exit(STATUS_HOST);
}

static void on_end(int number) {
    if (end_signal != 0) {
        save_output();
        signals_end_by(number);
    }
    end_signal = number;
}

/* A signal that the bed's parent lets it ignore (by nohup, for example) stays ignored. */
static void handle(const int *numbers, size_t count, void (*handler)(int), int flags) {
    struct sigaction action, before;
    size_t k;
    memset(&action, 0, sizeof action);
    action.sa_handler = handler;
    action.sa_flags = flags;
    for (k = 0; k < count; k++) {
        check_system(sigaction(numbers[k], NULL, &before), "sigaction");
        if (before.sa_handler != SIG_IGN)
            check_system(sigaction(numbers[k], &action, NULL), "sigaction");
    }
}

/* The signal of abort() is not blocked in its handler, because the handler may not return. A crash may be an overflow of the stack. */
void signals_begin(void (*save)(void)) {
    static char text[BUFSIZ], stack[1 << 16];
    stack_t other;
    memset(&other, 0, sizeof other);
    other.ss_sp = stack;
    other.ss_size = sizeof stack;
    save_output = save;
    check_system(sigaltstack(&other, NULL), "sigaltstack");
    handle(crashes, COUNT(crashes), on_crash, SA_NODEFER | SA_ONSTACK);
    handle(ends, COUNT(ends), on_end, SA_RESTART);
    handle(ignored, COUNT(ignored), SIG_IGN, 0);
    check_holds(setvbuf(stderr, text, _IOFBF, sizeof text) == 0, "standard error cannot be buffered");
}

void signals_forget_abort(void) {
    signals_abort_is_caught = 0;
    __fpurge(stderr);
}

void signals_set_thread(uint32_t thread, uint32_t eip) {
    running_thread = thread;
    running_eip = eip;
}

int signals_end(void) {
    return end_signal;
}

void signals_end_by(int number) {
    sigset_t set;
    signal(number, SIG_DFL);
    sigemptyset(&set);
    sigaddset(&set, number);
    sigprocmask(SIG_UNBLOCK, &set, NULL);
    raise(number);
    _exit(STATUS_HOST);
}
