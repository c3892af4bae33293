/* What turns do to the kernel. If a turn makes the same calls in the same kernel as another one did, the kernel's words are known without reading them. */
#include "states.h"
#include <stdlib.h>
#include <string.h>

/* Words that no key needs more than, beside those of calls; and those of a call beside its message. */
#define FIRST_WORDS 3u
#define CALL_WORDS (2u + sizeof(l4_call) / sizeof(uint32_t))

static void make_room(struct kernels *kernels, size_t more) {
    if (kernels->key_room - kernels->key_count >= more)
        return;
    kernels->key_room = 2 * kernels->key_room + more;
    kernels->key = parts_need(realloc(kernels->key, kernels->key_room * sizeof *kernels->key));
}

/* A key begins with a word with which no state begins. */
void kernels_begin_turn(struct orders *orders) {
    struct kernels *kernels = &orders->kernels;
    kernels->key_count = 0;
    make_room(kernels, FIRST_WORDS);
    kernels->key[kernels->key_count++] = NONE;
    kernels->key[kernels->key_count++] = orders->now.heading[OF_THREADS];
    kernels->key[kernels->key_count++] = orders->now.heading[OF_MAPPINGS];
}

/* The kernel reads the words that the tag counts, or as many as an Unmap counts. */
static size_t words_of(const l4_call *call, const uint32_t *words, size_t count) {
    size_t used = 0;
    if (call->kind == L4_IPC && count > 0)
        used = 1 + l4_tag_untyped(words[0]) + l4_tag_typed(words[0]);
    else if (call->kind == L4_UNMAP)
        used = (call->control & 0x3f) + 1;
    return used < count ? used : count;
}

void kernels_add_call(struct orders *orders, uint32_t thread, const l4_call *call, const uint32_t *words, size_t count) {
    struct kernels *kernels = &orders->kernels;
    size_t used = words_of(call, words, count);
    make_room(kernels, CALL_WORDS + used);
    kernels->key[kernels->key_count++] = thread;
    kernels->key[kernels->key_count++] = (uint32_t)used;
    memcpy(kernels->key + kernels->key_count, call, sizeof *call);
    kernels->key_count += sizeof *call / sizeof *kernels->key;
    if (used > 0)
        memcpy(kernels->key + kernels->key_count, words, used * sizeof *words);
    kernels->key_count += used;
}

/* No call has this number of words. */
void kernels_add_end_of_wait(struct orders *orders, uint32_t thread, int is_cancel) {
    struct kernels *kernels = &orders->kernels;
    make_room(kernels, CALL_WORDS);
    kernels->key[kernels->key_count++] = thread;
    kernels->key[kernels->key_count++] = is_cancel ? NONE : NONE - 1;
}

/* A new key can move the list of parts. */
static struct part *key_part(struct orders *orders) {
    const struct kernels *kernels = &orders->kernels;
    const uint32_t number = parts_number(&orders->parts, kernels->key, kernels->key_count * sizeof *kernels->key);
    return orders->parts.list[number];
}

/* A check of a certificate reads each kernel. */
static int is_known(const struct orders *orders) {
    return orders->options->check == NULL && orders->kernels.key_count > 0 && orders->kernels.key[1] != NONE;
}

int kernels_find(struct orders *orders) {
    const struct part *part = is_known(orders) ? key_part(orders) : NULL;
    if (part == NULL || part->node == NONE)
        return 0;
    orders->now.heading[OF_THREADS] = orders->kernels.list[part->node].threads;
    orders->now.heading[OF_MAPPINGS] = orders->kernels.list[part->node].mappings;
    return 1;
}

void kernels_add(struct orders *orders) {
    struct kernels *kernels = &orders->kernels;
    if (!is_known(orders))
        return;
    if (kernels->count == kernels->room) {
        kernels->room = kernels->room * 2 + 1024;
        kernels->list = parts_need(realloc(kernels->list, kernels->room * sizeof *kernels->list));
    }
    kernels->list[kernels->count].threads = orders->now.heading[OF_THREADS];
    kernels->list[kernels->count].mappings = orders->now.heading[OF_MAPPINGS];
    key_part(orders)->node = kernels->count++;
}

void kernels_free(struct orders *orders) {
    free(orders->kernels.list);
    free(orders->kernels.key);
}
