#include "parts.h"
#include "check.h"
#include <stdlib.h>
#include <string.h>

#define FIRST_LOG 12
#define FIRST_ROOM 4096u
#define BLOCK_BYTES ((size_t)1 << 20)
#define ALIGNMENT ((size_t)16)

struct block {
    struct block *before;
    size_t used, room;
    _Alignas(16) unsigned char bytes[];
};

void *parts_need(void *memory) {
    check_holds(memory != NULL, "there is not enough memory for the search");
    return memory;
}

/* The hash only chooses a place: parts are compared byte by byte. */
static uint64_t hash_of(const unsigned char *bytes, size_t length) {
    uint64_t hash = length * UINT64_C(0x9e3779b97f4a7c15), word;
    for (; length >= sizeof word; bytes += sizeof word, length -= sizeof word) {
        memcpy(&word, bytes, sizeof word);
        hash = (hash ^ word) * UINT64_C(0xff51afd7ed558ccd);
        hash ^= hash >> 32;
    }
    word = 0;
    memcpy(&word, bytes, length);
    hash = (hash ^ word) * UINT64_C(0xc4ceb9fe1a85ec53);
    return hash ^ hash >> 29;
}

static void *take_bytes(struct parts *parts, size_t bytes) {
    struct block *block = parts->block;
    bytes = (bytes + ALIGNMENT - 1) & ~(ALIGNMENT - 1);
    if (block == NULL || block->room - block->used < bytes) {
        size_t room = bytes > BLOCK_BYTES ? bytes : BLOCK_BYTES;
        block = parts_need(malloc(sizeof *block + room));
        block->before = parts->block;
        block->used = 0;
        block->room = room;
        parts->block = block;
        parts->bytes += sizeof *block + room;
    }
    block->used += bytes;
    return block->bytes + (block->used - bytes);
}

static int is_part(const struct part *part, uint64_t hash, const void *bytes, size_t length) {
    return part->hash == hash && part->length == length && memcmp(part->bytes, bytes, length) == 0;
}

/* Returns the place of these bytes in the table: the one that has their number, or the free one where it would be. */
static uint32_t place_of(const struct parts *parts, uint64_t hash, const void *bytes, size_t length) {
    uint32_t mask = (1u << parts->places_log) - 1, place = (uint32_t)hash & mask;
    while (parts->places[place] != 0 && !is_part(parts->list[parts->places[place] - 1], hash, bytes, length))
        place = (place + 1) & mask;
    return place;
}

static void grow_places(struct parts *parts) {
    uint32_t k;
    parts->places_log = parts->places_log == 0 ? FIRST_LOG : parts->places_log + 1;
    free(parts->places);
    parts->places = parts_need(calloc((size_t)1 << parts->places_log, sizeof *parts->places));
    for (k = 0; k < parts->count; k++) {
        const struct part *part = parts->list[k];
        parts->places[place_of(parts, part->hash, part->bytes, part->length)] = k + 1;
    }
}

static void grow_list(struct parts *parts) {
    parts->room = parts->room == 0 ? FIRST_ROOM : parts->room * 2;
    parts->list = parts_need(realloc(parts->list, parts->room * sizeof(struct part *)));
}

static struct part *new_part(struct parts *parts, uint64_t hash, const void *bytes, size_t length) {
    struct part *part = take_bytes(parts, sizeof *part + length);
    part->hash = hash;
    part->length = (uint32_t)length;
    part->node = NONE;
    memcpy(part->bytes, bytes, length);
    return part;
}

uint32_t parts_number(struct parts *parts, const void *bytes, size_t length) {
    uint64_t hash = hash_of(bytes, length);
    uint32_t place;
    if (parts->places_log == 0 || parts->count >= 1u << (parts->places_log - 1))
        grow_places(parts);
    if (parts->count == parts->room)
        grow_list(parts);
    place = place_of(parts, hash, bytes, length);
    if (parts->places[place] != 0)
        return parts->places[place] - 1;
    parts->list[parts->count] = new_part(parts, hash, bytes, length);
    parts->places[place] = ++parts->count;
    return parts->count - 1;
}

void parts_renumber(struct parts *parts, uint32_t *number, const void *bytes, size_t length) {
    const struct part *part = *number == NONE ? NULL : parts->list[*number];
    if (part == NULL || part->length != length || memcmp(part->bytes, bytes, length) != 0)
        *number = parts_number(parts, bytes, length);
}

void parts_free(struct parts *parts) {
    struct block *block = parts->block, *before;
    for (; block != NULL; block = before) {
        before = block->before;
        free(block);
    }
    free(parts->list);
    free(parts->places);
    memset(parts, 0, sizeof *parts);
}
