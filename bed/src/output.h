/* The run's output: standard output, the script and the step list. No whole line is lost: what is printed is kept until its line is complete,
 * and whole lines are written up to a hundred times a second. If the run ends early (by a signal, a crash or a full disk), the whole lines are
 * written first, and a file ends with a whole line. */
#ifndef OUTPUT_H
#define OUTPUT_H

enum output { OUTPUT_STANDARD, OUTPUT_SCRIPT, OUTPUT_STEPS, OUTPUTS };

/* Opens standard output; and a file, which an option names, unless the name is NULL. */
void output_begin(void);
void output_open(enum output output, const char *option, const char *name);
int output_is_open(enum output output);

/* Prints to an output, or to standard output. If the output is not open, nothing is printed. */
void output_print(enum output output, const char *format, ...) __attribute__((format(printf, 2, 3)));
void print(const char *format, ...) __attribute__((format(printf, 1, 2)));

/* From now on, a function gets each line of standard output without its newline, and it is not printed; NULL ends this. */
void output_take_lines(void (*take)(void *user, const char *line), void *user);

/* Writes the whole lines of all outputs. A signal's handler may call this too. */
void output_write(void);

/* Returns whether an output could not be written. */
int output_has_failed(void);

/* Writes all that was printed, and closes the files. Ends the bed with STATUS_OUTPUT if an output could not be written. */
void output_end(void);

#endif
