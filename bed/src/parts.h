/* Byte strings, each of which is kept once and has a number, so that two are equal exactly if their numbers are. */
#ifndef PARTS_H
#define PARTS_H

#include <stddef.h>
#include <stdint.h>

#define NONE UINT32_C(0xffffffff)

struct part {
    uint64_t hash;
    uint32_t length, node; /* the node whose state this part is, or NONE */
    unsigned char bytes[];
};

struct block;

struct parts {
    struct part **list;
    uint32_t count, room;
    uint32_t *places; /* an open hash table of numbers + 1 */
    uint32_t places_log;
    struct block *block; /* the memory of the parts: the last block, which points to the one before it */
    uint64_t bytes;      /* how many bytes the parts take */
};

/* Ends the bed unless there is memory; returns it. */
void *parts_need(void *memory);
/* Returns the number of these bytes. */
uint32_t parts_number(struct parts *parts, const void *bytes, size_t length);
/* Sets a number to that of these bytes. This costs less if it was theirs before. */
void parts_renumber(struct parts *parts, uint32_t *number, const void *bytes, size_t length);
void parts_free(struct parts *parts);

#endif
