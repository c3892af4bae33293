/* The set of all states as a file, a certificate. Another process checks it: from each of these states, each turn leads to one of them. So the outcomes
 * of these states are all there are, whatever the search has done.
 *
 * The file has numbers of four bytes, in the order of the machine's: the heading; the turns before the search; the words of memory at which turns end;
 * the frames that vary; the length and the bytes of each part; and for each state the number of its part, and the length and the bytes of its
 * kernel's checkpoint. */
#include "check.h"
#include "states.h"
#include <errno.h>
#include <stdio.h>
#include <stdlib.h>
#include <string.h>

#define MAGIC UINT32_C(0x5342344c)
#define FORM 1u
enum { HEAD_MAGIC, HEAD_FORM, HEAD_FRAMES, HEAD_TURNS, HEAD_SWITCHES, HEAD_VARYING, HEAD_PARTS, HEAD_STATES, HEADING_WORDS };

/* What a check has read. */
struct certificate {
    uint32_t *words; /* the whole file */
    size_t count, next;
    uint32_t heading[HEADING_WORDS];
    const uint32_t **checkpoints; /* for each state, its length and its bytes */
    uint32_t *states;
};

static void put(FILE *file, const void *bytes, size_t length) {
    static const unsigned char zeros[4];
    fwrite(bytes, 1, length, file);
    fwrite(zeros, 1, (4 - length % 4) % 4, file);
}

static void put_bytes(FILE *file, const void *bytes, uint32_t length) {
    put(file, &length, sizeof length);
    put(file, bytes, length);
}

void certificate_begin(struct orders *orders) {
    if (orders->options->certificate == NULL)
        return;
    if (orders->certificate != NULL)
        fclose(orders->certificate);
    orders->certificate = parts_need(tmpfile());
}

void certificate_add(struct orders *orders, uint32_t state) {
    if (orders->certificate == NULL)
        return;
    keep_checkpoint(orders);
    put(orders->certificate, &state, sizeof state);
    put_bytes(orders->certificate, orders->buffer, orders->checkpoint_bytes);
}

static void put_switches(const struct orders *orders, FILE *file) {
    uint32_t frame, word;
    for (frame = 0; orders->options->switches_at_memory && frame < MAX_BED_FRAMES; frame++) {
        for (word = 0; orders->switches[frame] != NULL && word < FRAME_WORDS; word++) {
            if (orders->switches[frame][word]) {
                put(file, &frame, sizeof frame);
                put(file, &word, sizeof word);
            }
        }
    }
}

static void copy(FILE *from, FILE *to) {
    char bytes[4096];
    size_t length;
    rewind(from);
    while ((length = fread(bytes, 1, sizeof bytes, from)) > 0)
        fwrite(bytes, 1, length, to);
}

void certificate_write(struct orders *orders) {
    const char *name = orders->options->certificate;
    const uint32_t heading[HEADING_WORDS] = {MAGIC, FORM, orders->bed->frames, orders->prefix_count,
                                             orders->options->switches_at_memory ? orders->shared_words : 0, orders->varying_count, orders->parts.count,
                                             orders->node_count};
    FILE *file;
    uint32_t k;
    if (orders->certificate == NULL || orders->incomplete[0] != 0)
        return;
    file = fopen(name, "wb");
    if (file == NULL)
        fail(STATUS_OUTPUT, "--certificate: %s: %s", name, strerror(errno));
    put(file, heading, sizeof heading);
    put(file, orders->prefix, orders->prefix_count * sizeof *orders->prefix);
    put_switches(orders, file);
    put(file, orders->varying, orders->varying_count * sizeof *orders->varying);
    for (k = 0; k < orders->parts.count; k++)
        put_bytes(file, orders->parts.list[k]->bytes, orders->parts.list[k]->length);
    copy(orders->certificate, file);
    if (ferror(file) | fclose(file))
        fail(STATUS_OUTPUT, "--certificate: the file cannot be written: %s: %s", name, strerror(errno));
}

/* CHECKS */

static struct certificate *read_file(const char *name) {
    struct certificate *read = parts_need(calloc(1, sizeof *read));
    FILE *file = fopen(name, "rb");
    size_t room = 0, got;
    if (file == NULL)
        fail(STATUS_INPUT, "--check-orders: %s: %s", name, strerror(errno));
    do {
        room = room * 2 + 4096;
        read->words = parts_need(realloc(read->words, room * sizeof *read->words));
        got = fread(read->words + read->count, sizeof *read->words, room - read->count, file);
        read->count += got;
    } while (read->count == room);
    fclose(file);
    return read;
}

static const uint32_t *take(struct certificate *read, size_t words) {
    const uint32_t *taken = read->words + read->next;
    if (read->count - read->next < words)
        fail(STATUS_INPUT, "--check-orders: the file ends early");
    read->next += words;
    return taken;
}

/* Returns the length of bytes, which are behind it. */
static const uint32_t *take_bytes(struct certificate *read) {
    const uint32_t *length = take(read, 1);
    take(read, (*length + sizeof *length - 1) / sizeof *length);
    return length;
}

static void take_heading(struct orders *orders, struct certificate *read) {
    memcpy(read->heading, take(read, HEADING_WORDS), sizeof read->heading);
    if (read->heading[HEAD_MAGIC] != MAGIC || read->heading[HEAD_FORM] != FORM)
        fail(STATUS_INPUT, "--check-orders: the file is no certificate that this version of l4_bed has written");
    if (read->heading[HEAD_FRAMES] != orders->bed->frames)
        fail(STATUS_INPUT, "--check-orders: the certificate is for --frames %u", read->heading[HEAD_FRAMES]);
    if ((read->heading[HEAD_SWITCHES] != 0) != orders->options->switches_at_memory)
        fail(STATUS_INPUT, "--check-orders: --switch-at-memory has to be used in the search and in the check, or in neither");
}

/* Takes the turns before the search, and makes the state behind them the first one. The parts come before all others, so that they keep their numbers. */
static void take_start(struct orders *orders, struct certificate *read) {
    const uint32_t *turns = take(read, read->heading[HEAD_TURNS]), *switches = take(read, (size_t)2 * read->heading[HEAD_SWITCHES]);
    const uint32_t *varying = take(read, read->heading[HEAD_VARYING]);
    uint32_t k;
    for (k = 0; k < read->heading[HEAD_PARTS]; k++) {
        const uint32_t *length = take_bytes(read);
        if (parts_number(&orders->parts, length + 1, *length) != k)
            fail(STATUS_INPUT, "--check-orders: two parts are equal");
    }
    for (k = 0; k < read->heading[HEAD_TURNS]; k++)
        schedule_add(orders, turns[k]);
    schedule_take(orders);
    search_begin(orders);
    for (k = 0; k < read->heading[HEAD_SWITCHES]; k++) {
        if (switches[2 * k] < MAX_BED_FRAMES && switches[2 * k + 1] < FRAME_WORDS)
            memory_set_switch(orders, switches[2 * k], switches[2 * k + 1]);
    }
    for (k = 0; k < read->heading[HEAD_VARYING]; k++) {
        if (varying[k] >= orders->bed->memory.frames || orders->varies[varying[k]])
            fail(STATUS_INPUT, "--check-orders: the list of frames is invalid");
        orders->varies[varying[k]] = 1;
        orders->varying[orders->varying_count++] = varying[k];
    }
}

/* Each part that is a state gets the state's number. */
static void take_states(struct orders *orders, struct certificate *read) {
    uint32_t count = read->heading[HEAD_STATES], k;
    read->states = parts_need(calloc((size_t)count + 1, sizeof *read->states));
    read->checkpoints = parts_need(calloc((size_t)count + 1, sizeof *read->checkpoints));
    for (k = 0; k < count; k++) {
        read->states[k] = *take(read, 1);
        read->checkpoints[k] = take_bytes(read);
        if (!valid_is_state(orders, read->states[k]))
            fail(STATUS_INPUT, "--check-orders: state %u is invalid", k);
        orders->parts.list[read->states[k]]->node = k;
    }
    if (orders->parts.list[orders->first_state]->node == NONE)
        fail(STATUS_FAILED, "--check-orders: the first state is not in the certificate");
}

/* Makes a state the present one, with the kernel of its checkpoint. Then the present state has to be it, down to each register and byte. */
static void enter_state(struct orders *orders, const struct certificate *read, uint32_t number) {
    struct bed *bed = orders->bed;
    restore_state(orders, read->states[number]);
    l4_free(&bed->kernel);
    check_library(l4_checkpoint_read(&bed->kernel, (const uint8_t *)(read->checkpoints[number] + 1), *read->checkpoints[number]).refusal,
                  "--check-orders: l4_checkpoint_read");
    keep_forget(orders);
    if (keep_state(orders) != read->states[number])
        fail(STATUS_FAILED, "--check-orders: state %u is not the state that its parts and its kernel make", number);
}

/* Takes each turn of a state. */
static void check_state(struct orders *orders, const struct certificate *read, uint32_t number) {
    struct bed *bed = orders->bed;
    uint64_t places;
    enter_state(orders, read, number);
    places = turn_enabled(bed);
    if (places == 0)
        outcome_take(orders, number);
    for (; places != 0; places &= places - 1) {
        uint32_t slot = (uint32_t)__builtin_ctzll(places), by = bed->threads[slot].number, state;
        turn_take(orders, &bed->threads[slot]);
        if (turn_was_interrupted(bed))
            return;
        state = keep_state(orders); /* which can move the list of parts */
        if (orders->parts.list[state]->node == NONE)
            fail(STATUS_FAILED, "--check-orders: a turn of %u leads from state %u to a state that is not in the certificate", by, number);
        if (places & (places - 1))
            enter_state(orders, read, number);
    }
}

static void free_certificate(struct certificate *read) {
    free(read->words);
    free(read->checkpoints);
    free(read->states);
    free(read);
}

void certificate_check(struct orders *orders) {
    const struct orders_options *options = orders->options;
    struct certificate *read = read_file(options->check);
    uint32_t k;
    take_heading(orders, read);
    take_start(orders, read);
    take_states(orders, read);
    for (k = options->part - 1; k < read->heading[HEAD_STATES] && !turn_was_interrupted(orders->bed); k += options->part_count) {
        check_state(orders, read, k);
        orders->reached_count++;
    }
    if (turn_was_interrupted(orders->bed))
        snprintf(orders->incomplete, sizeof orders->incomplete, "%s", orders->bed->end_reason);
    if (options->switches_at_memory && orders->has_new_shared)
        fail(STATUS_FAILED, "--check-orders: threads share a word of memory at which turns do not end");
    free_certificate(read);
}

void certificate_close(struct orders *orders) {
    if (orders->certificate != NULL)
        fclose(orders->certificate);
}
