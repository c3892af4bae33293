/* A stub for gdb: the bed stops threads at breakpoints and after single instructions, and lets gdb read and change registers and memory. */
#ifndef GDB_H
#define GDB_H

#include "bed.h"

/* Waits until gdb connects to this port of the machine itself. The first thread stops before its first instruction. */
void gdb_open(struct bed *bed, uint32_t port);
/* Call these before and after each run of a thread. gdb_after returns whether the stop was for gdb alone, so that the thread runs again. */
void gdb_before(struct bed *bed, struct thread *thread);
int gdb_after(struct bed *bed, struct thread *thread, const struct stop *stopped);
/* Sets the breakpoints in a new space. */
void gdb_add_space(struct bed *bed, struct space *space);
/* Reports that the bed stops a thread for good, and that the run has ended. */
void gdb_report_stop(struct bed *bed, struct thread *thread);
void gdb_report_end(int status);

#endif
