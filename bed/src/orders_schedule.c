/* Schedules: the numbers of the threads that take turns, with `*` and a count if one takes several turns in a row. The words of memory at
 * which turns end, as `@FRAME.WORD`, are before the first turn that may end there. A line from `#` on is a comment. */
#include "check.h"
#include "states.h"
#include <ctype.h>
#include <errno.h>
#include <stdio.h>
#include <stdlib.h>
#include <string.h>

#define MOST_TURNS 100000000u
#define LINE_BYTES 4000u

static void append_switches(const struct orders *orders, struct text *text) {
    uint32_t frame, word;
    for (frame = 0; orders->options->switches_at_memory && frame < MAX_BED_FRAMES; frame++) {
        for (word = 0; orders->switches[frame] != NULL && word < FRAME_WORDS; word++) {
            if (orders->switches[frame][word])
                text_append(text, " @%u.%u", frame, word);
        }
    }
}

/* Returns how many turns the thread takes in a row from this one on. */
static uint32_t turns_in_row(const uint32_t *turns, uint32_t count) {
    uint32_t k = 1;
    while (k < count && turns[k] == turns[0])
        k++;
    return k;
}

void schedule_append(const struct orders *orders, struct text *text, uint32_t node) {
    uint32_t count = orders->prefix_count + orders->nodes[node].depth, k, row;
    uint32_t *turns = parts_need(malloc((count + 1) * sizeof *turns));
    for (k = 0; k < orders->prefix_count; k++)
        turns[k] = orders->prefix[k];
    for (k = count; k > orders->prefix_count; node = orders->nodes[node].parent)
        turns[--k] = orders->nodes[node].by;
    for (k = 0; k < count; k += row) {
        row = turns_in_row(turns + k, (k < orders->prefix_count ? orders->prefix_count : count) - k);
        if (k == orders->prefix_count)
            append_switches(orders, text);
        text_append(text, row == 1 ? " %u" : " %u*%u", turns[k], row);
    }
    free(turns);
}

/* A long schedule has several lines. */
void schedule_print(const struct orders *orders, uint32_t node) {
    struct text text = {NULL, 0, 0};
    size_t from = 0, length;
    text_append(&text, "%s", "");
    schedule_append(orders, &text, node);
    do {
        length = text.length - from;
        if (length > LINE_BYTES)
            for (length = LINE_BYTES; text.bytes[from + length] != ' ';)
                length--;
        print("schedule%.*s\n", (int)length, text.bytes + from);
        from += length;
    } while (from < text.length);
    free(text.bytes);
}

void schedule_add(struct orders *orders, uint32_t thread) {
    if (orders->prefix_count == orders->prefix_room) {
        orders->prefix_room = orders->prefix_room * 2 + 256;
        orders->prefix = parts_need(realloc(orders->prefix, orders->prefix_room * sizeof *orders->prefix));
    }
    orders->prefix[orders->prefix_count++] = thread;
}

/* Reads one word of a schedule, and returns its length. */
static int read_word(struct orders *orders, const char *text) {
    uint32_t thread, count = 1, frame, word;
    int length = 0;
    if (sscanf(text, "@%u.%u%n", &frame, &word, &length) == 2 && frame < MAX_BED_FRAMES && word < FRAME_WORDS) {
        memory_set_switch(orders, frame, word);
        orders->switching_from = orders->prefix_count;
        return length;
    }
    if ((sscanf(text, "%u*%u%n", &thread, &count, &length) != 2 || count > MOST_TURNS) && sscanf(text, "%u%n", &thread, &length) != 1)
        fail(STATUS_INPUT, "--schedule: %.*s is neither a thread nor THREAD*COUNT", (int)strcspn(text, " \t\n"), text);
    while (count-- > 0)
        schedule_add(orders, thread);
    return length;
}

static void read_schedule(struct orders *orders, const char *text) {
    while (*text != 0) {
        if (isspace((unsigned char)*text))
            text++;
        else if (*text == '#')
            text += strcspn(text, "\n");
        else
            text += read_word(orders, text);
    }
}

void schedule_read(struct orders *orders, const char *name) {
    FILE *file = fopen(name, "r");
    char *line = NULL;
    size_t room = 0;
    if (file == NULL)
        fail(STATUS_INPUT, "--schedule: %s: %s", name, strerror(errno));
    while (getline(&line, &room, file) >= 0)
        read_schedule(orders, line);
    free(line);
    fclose(file);
}

void schedule_take(struct orders *orders) {
    const char *option = orders->is_replay ? "--schedule" : "--check-orders";
    struct bed *bed = orders->bed;
    uint32_t k;
    for (k = 0; k < orders->prefix_count && !turn_was_interrupted(bed); k++) {
        struct thread *thread = thread_numbered(bed, orders->prefix[k]);
        orders->is_switching = orders->is_replay && k >= orders->switching_from;
        if (bed->end != NOT_ENDED)
            fail(STATUS_INPUT, "%s: turn %u: the run has ended before", option, k + 1);
        if (thread == NULL || !(turn_enabled(bed) >> slot_of(bed, thread) & 1))
            fail(STATUS_INPUT, "%s: turn %u: thread %u %s", option, k + 1, orders->prefix[k], thread == NULL ? "does not exist" : "cannot continue now");
        turn_take(orders, thread);
    }
}
