/* Source lines of addresses. Without libdw there are none. */
#ifndef LINES_H
#define LINES_H

#include <stddef.h>
#include <stdint.h>

struct lines;

/* Returns the lines of the program with these bytes, or NULL if it has no debugging information. */
struct lines *lines_new(const unsigned char *bytes, size_t length);
void lines_free(struct lines *lines);
/* Writes `, FILE:LINE`, or nothing if the address has no line. */
#define LINE_ROOM 60
void lines_write(const struct lines *lines, uint32_t address, char *text, size_t room);

#endif
