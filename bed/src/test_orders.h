/* The outcomes of a search, as a test expects them and as the search has printed them. */
#ifndef TEST_ORDERS_H
#define TEST_ORDERS_H

#include <stdint.h>

/* In a test, this line matches any lines, up to the next one that is expected. */
#define ANY_LINES "#= .."

/* The room for a difference. */
#define DIFFERENCE_ROOM 3000

struct outcome_lines {
    char **list; /* they belong to the text from which they are taken */
    int count;
    uint32_t line;  /* the line of the test at which it begins, or its number in what the search has printed */
    int is_matched;
    char *schedule; /* or NULL */
};

struct outcomes {
    struct outcome_lines *list;
    int count;
};

/* Adds a line of a test. A line `outcome` begins a new outcome; without such a line, all lines are those of one outcome. */
void outcomes_add_expected(struct outcomes *outcomes, char *line, uint32_t number);
/* Adds a line that the search has printed. */
void outcomes_add_printed(struct outcomes *outcomes, char *line);
/* Returns whether each expected outcome was found, and no other. Otherwise writes the first difference. */
int outcomes_compare(struct outcomes *expected, struct outcomes *found, char *difference);
/* Whether a replay has to be run without this option of the search. */
int outcomes_are_of_option(const char *option);
/* Returns the option --schedule for the schedule of the outcome, which it writes to a file. */
char *outcomes_schedule_option(const struct outcome_lines *outcome);
/* Whether a replay with these lines has led to the outcome. */
int outcomes_is_replay(const struct outcome_lines *outcome, const char *printed, char *difference);
void outcomes_free(struct outcomes *outcomes);

#endif
