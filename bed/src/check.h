/* Ends the bed with a message on standard error and an exit status if something fails that must succeed. */
#ifndef CHECK_H
#define CHECK_H

#include <stdint.h>

/* Exit statuses. */
enum {
    STATUS_ENDED = 0,     /* a program has ended the run */
    STATUS_FAILED = 1,    /* a program has said that it failed, or a test has failed */
    STATUS_INPUT = 2,     /* the command line or a program's file is invalid */
    STATUS_OUTPUT = 3,    /* output cannot be written */
    STATUS_HOST = 4,      /* the engine or the host cannot do what the bed needs */
    STATUS_STUCK = 5,     /* every thread waits, and nothing can end a wait */
    STATUS_STOPPED = 6,   /* the bed has stopped a thread */
    STATUS_ASSERTION = 7, /* an assertion of a program does not hold */
    STATUS_LIMIT = 8      /* the run has reached a limit */
};

/* Has this function called before a message is printed. */
void check_before_message(void (*function)(void));

/* Ends the bed with this status and message. */
_Noreturn void fail(int status, const char *format, ...) __attribute__((format(printf, 2, 3)));

/* Prints a note on standard error. */
void note(const char *format, ...) __attribute__((format(printf, 1, 2)));

/* Ends the bed with STATUS_HOST if the library refuses a call that must succeed. */
void check_library(uint32_t refusal, const char *what);

/* Ends the bed with STATUS_HOST unless the condition holds. */
void check_holds(int holds, const char *what);

/* Ends the bed with STATUS_HOST, and the meaning of errno, if a system call returned a number below 0. */
void check_system(long result, const char *what);

/* Writes out what was printed so far; ends the bed with STATUS_OUTPUT if that fails. */
void check_output(void);

#endif
