/* What threads print: each line is a part that has the number of the line before it. */
#include "check.h"
#include "states.h"
#include <stdarg.h>
#include <stdio.h>
#include <stdlib.h>
#include <string.h>

/* No line of the bed is longer. */
#define LINE_ROOM 8192u

struct line {
    uint32_t before;
    char text[LINE_ROOM];
};

uint32_t lines_add(struct orders *orders, uint32_t before, const char *text) {
    static struct line line;
    size_t length = strlen(text) + 1;
    check_holds(length <= sizeof line.text, "a line of output is too long");
    line.before = before;
    memcpy(line.text, text, length);
    return parts_number(&orders->parts, &line, offsetof(struct line, text) + length);
}

/* Returns what the thread has said, in the order of the numbers of threads. */
static struct said *said_by(struct orders *orders, uint32_t thread) {
    uint32_t k = 0;
    while (k < orders->said_count && orders->said[k].thread < thread)
        k++;
    if (k < orders->said_count && orders->said[k].thread == thread)
        return &orders->said[k];
    check_holds(orders->said_count < MAX_SPEAKERS, "more threads print than the search has room for");
    memmove(&orders->said[k + 1], &orders->said[k], (orders->said_count - k) * sizeof *orders->said);
    orders->said[k].thread = thread;
    orders->said[k].line = NONE;
    orders->said_count++;
    return &orders->said[k];
}

/* Each line of a thread begins with its number. */
static void take(void *user, const char *text) {
    struct orders *orders = user;
    struct said *said = said_by(orders, (uint32_t)strtoul(text, NULL, 10));
    orders->turn.has_printed = 1;
    if (orders->options->from_line != NULL && strstr(text, orders->options->from_line) != NULL)
        orders->has_seen_line = 1;
    said->line = lines_add(orders, said->line, text);
}

void lines_begin(struct orders *orders) {
    if (!orders->is_replay)
        output_take_lines(take, orders);
}

void lines_end(struct orders *orders) {
    if (!orders->is_replay)
        output_take_lines(NULL, NULL);
}

void text_append(struct text *text, const char *format, ...) {
    va_list arguments;
    int length;
    if (text->room - text->length <= LINE_ROOM) {
        text->room = text->room * 2 + 2 * LINE_ROOM;
        text->bytes = parts_need(realloc(text->bytes, text->room));
    }
    va_start(arguments, format);
    length = vsnprintf(text->bytes + text->length, text->room - text->length, format, arguments);
    va_end(arguments);
    if (length > 0)
        text->length += (size_t)length;
}

/* Goes back to the first line, and so needs a list of them. */
void lines_append(const struct orders *orders, struct text *text, uint32_t last) {
    uint32_t count = 0, before, line, k, *list;
    for (line = last; line != NONE; count++)
        memcpy(&line, orders->parts.list[line]->bytes, sizeof line);
    list = parts_need(malloc((count + 1) * sizeof *list));
    for (line = last, k = count; line != NONE; line = before) {
        memcpy(&before, orders->parts.list[line]->bytes, sizeof before);
        list[--k] = line;
    }
    for (k = 0; k < count; k++)
        text_append(text, "%s\n", (const char *)orders->parts.list[list[k]]->bytes + offsetof(struct line, text));
    free(list);
}
