/* Every order of turns: `l4_bed --orders` searches all of them, and `l4_bed --schedule` replays one. */
#ifndef ORDERS_H
#define ORDERS_H

#include "bed.h"

#define MAX_RULES 64u
#define MAX_SHOWN_PAGES 16u

struct rule {
    int is_always;
    const char *line; /* a pattern of the shell */
};

struct orders_options {
    int is_on, switches_at_memory, takes_all_turns, hides_schedules;
    uint64_t most_states, most_depth;
    const char *from_line, *schedule, *folder;
    const char *certificate, *check; /* the file to write, or to check; and which of several equal parts of its states */
    uint32_t part, part_count;
    struct rule rules[MAX_RULES];
    uint32_t rule_count;
    uint32_t pages[MAX_SHOWN_PAGES], page_count; /* outcomes have what each space has at these pages */
};

void orders_add_rule(struct orders_options *options, int is_always, const char *line);
/* Reads a part of a check: K/N. */
void orders_set_part(struct orders_options *options, const char *text);
void orders_add_page(struct orders_options *options, uint32_t page);
/* Whether the bed is to search or to replay. */
int orders_are_asked(const struct orders_options *options);
/* Prepares it. To be called when the engine is open, before the first space is made. */
void orders_open(struct bed *bed, const struct orders_options *options);
/* Searches or replays, prints the result, and returns the exit status; or STATUS_OF_END if the bed's end determines it. */
#define STATUS_OF_END (-1)
int orders_run(struct bed *bed);
void orders_print_costs(const struct bed *bed, double seconds);
/* To be called before the bed is freed. */
void orders_close(struct bed *bed);

#endif
