/* Runs programs, and compares what they print with what is expected. */
#ifndef TEST_H
#define TEST_H

/* Executes the words after `l4_bed test`: options, and files or folders. `run` executes one run in a process of its own, and returns its
 * status. Returns the exit status. */
int test_files(int count, char **words, int (*run)(int count, char **words));

#endif
