/* Signals: the one of abort(), which Unicorn calls if it cannot translate an instruction; those of a crash; and those that ask the bed to end. */
#ifndef SIGNALS_H
#define SIGNALS_H

#include <setjmp.h>
#include <signal.h>
#include <stdint.h>

/* Installs the handlers. Before a crash ends the bed, `save` is called. Standard error is buffered from now on. */
void signals_begin(void (*save)(void));

/* Where the bed continues if abort() is called while `signals_abort_is_caught` is 1. */
extern sigjmp_buf signals_abort_return;
extern volatile sig_atomic_t signals_abort_is_caught;

/* After such an abort(): catches no further one, and discards the line that the library has written on standard error. */
void signals_forget_abort(void);

/* Says which thread runs from which instruction, for the message of a crash. Thread 0 means that none runs. */
void signals_set_thread(uint32_t thread, uint32_t eip);

/* Returns the signal that asks the bed to end, or 0. The second such signal ends the bed at once. */
int signals_end(void);

/* Ends the bed by this signal, as if it had no handler. */
_Noreturn void signals_end_by(int number);

#endif
