/* What the files of the search share.
 *
 * A turn is what a thread does from one entry of the kernel to the next: its instructions, the call or fault that ends them, and the kernel's
 * steps until none is enabled. A state is everything on which the rest of a run depends: the kernel, sigma0's table, threads with their registers,
 * spaces, the bytes of frames, and what the threads have printed. Each of these parts is kept once, however many states have it, and has a number.
 * A state is the list of the numbers of its parts. So states are compared exactly, and a state can be restored from its list. */
#ifndef STATES_H
#define STATES_H

#include "orders.h"
#include "parts.h"
#include <stdio.h>

#define MAX_BED_FRAMES (L4_MAX_FRAMES + 1u + L4_MAX_THREADS)
#define FRAME_WORDS (PAGE_BYTES / 4)

/* The last line of a thread, which has the number of the line before it. */
struct said {
    uint32_t thread, line;
};

#define MAX_SPEAKERS (2u * L4_MAX_THREADS)

/* What belongs to no thread, no space and no frame. */
struct rest {
    uint32_t end, has_stopped, named_next, said_count;
    unsigned char is_own_frame_used[L4_MAX_THREADS];
    struct said said[MAX_SPEAKERS];
};

/* A state's list: the heading, the threads, the space and the pages of each space, and the frames that vary. */
enum { OF_THREADS, OF_MAPPINGS, OF_REST, OF_OWNERS, THREAD_COUNT, SPACE_COUNT, HEADING };

/* The numbers of the parts of the bed's present state. */
struct current {
    uint32_t heading[HEADING];
    uint32_t threads[L4_MAX_THREADS], spaces[L4_MAX_THREADS], pages[L4_MAX_THREADS];
    uint32_t frames[MAX_BED_FRAMES];
};

/* A part of a state: a thread. Behind it are the words of its call, if they are still to be sent, and the text that it has begun to print. */
struct thread_part {
    uint32_t state, calling, number, id, pager, priority, space, utcb, fault_address, fault_access, vain_answers, is_halted;
    uint32_t to, acceptor, word_count, text_length, floats, send_timeout, receive_timeout, more_turns, turns_left;
    uint32_t general[10];
    uint64_t time, call_time, deadline;
};

struct space_part {
    uint64_t number;
    uint32_t exists, has_engine, kip_page, utcb_page, utcb_pages;
    uint32_t utcb_frames[MAX_UTCB_PAGES];
};

struct page_part {
    uint32_t page, entry;
};

/* What the search knows of the thread in a place, beside the bed. */
struct extra {
    uint64_t time; /* its virtual clock, in microseconds */
    uint32_t to;   /* the thread to which its Ipc has sent before it receives, or 0 */
};

struct edge {
    uint32_t slot, to; /* the place of the thread, and the node to which its turn leads */
};

/* A state that was found. */
struct node {
    uint32_t state;      /* the part that is its list */
    uint32_t parent, by; /* from where it was found first, by the turn of this thread */
    uint32_t depth, edge_count;
    uint32_t outcome;    /* the number of the outcome + 1 if nothing follows this state */
    uint32_t checkpoint_bytes;
    unsigned char is_listed, is_expanded, is_reached;
    l4_kernel kernel;          /* its kernel, or the checkpoint of it, while its turns are still to be taken */
    unsigned char *checkpoint;
    struct edge *edges;
    uint64_t enabled; /* the places of the threads that can take a turn */
    uint64_t waits;   /* the places of the threads that wait for one other thread */
};

struct outcome {
    uint32_t text, node; /* the part, and the first node with it, which has the fewest turns */
    int status;
};

/* A place at which a thread receives: the address behind its call, or 0 for all places of the thread. */
struct site {
    uint32_t thread, address;
};

/* What is known about the present turn. */
struct turn {
    struct thread *running;
    uint32_t calls;
    int can_be_single, has_shared, has_printed, has_sigma0;
    struct site site;
    uint64_t waited;  /* the places of the threads that waited before it */
    uint64_t touched; /* the places of the threads that its calls and steps name */
};

/* For each word of a frame: the places of the threads that have accessed it, and of those that have written it. */
struct words {
    uint64_t accessed[FRAME_WORDS], written[FRAME_WORDS];
};

/* Turns of which the search has seen that another turn can notice them. */
struct races {
    struct site *list;
    uint32_t count, room;
    uint32_t controlled[MAX_SPEAKERS], controlled_count; /* threads that others delete, change or look at while they are active */
    int of_ends, of_priorities;
    int are_new; /* there are more of them than when the search began */
};

/* The kernel after a turn follows from the kernel before it and from the calls of the turn. So what a turn did to the kernel is kept: a key (both numbers
 * of the kernel before, and the calls) is a part, whose node is the place of what the kernel was then. */
struct kernels {
    struct {
        uint32_t threads, mappings;
    } *list;
    uint32_t count, room;
    uint32_t *key; /* of the present turn */
    size_t key_count, key_room;
};

#define MAX_SPARES 32u
struct spare {
    struct engine_space *space;
    uint32_t kip_page;
};

struct orders {
    struct bed *bed;
    const struct orders_options *options;
    struct parts parts;
    struct current now;
    struct extra extras[L4_MAX_THREADS];
    uint32_t owners[L4_MAX_FRAMES]; /* for each frame that sigma0 has given to a space: the number of the space, plus 1 */
    struct said said[MAX_SPEAKERS];
    uint32_t said_count;
    struct turn turn;
    struct kernels kernels;
    struct races races;

    /* frames that differ from those of the first state in some state, in the order in which they were found */
    uint32_t varying[MAX_BED_FRAMES], varying_count;
    unsigned char varies[MAX_BED_FRAMES];
    uint32_t first_frames[MAX_BED_FRAMES];
    /* frames that the present turn has written */
    uint32_t written[MAX_BED_FRAMES], written_count;
    unsigned char is_written[MAX_BED_FRAMES];
    struct spare spares[MAX_SPARES]; /* spaces of the engine for later states */
    uint32_t spare_count;

    /* shared memory */
    struct words *words[MAX_BED_FRAMES];
    unsigned char *switches[MAX_BED_FRAMES]; /* for each word: whether a turn ends behind an access to it */
    uint32_t shared_words;
    int has_new_shared, is_switching; /* turns end there from now on */

    /* the search */
    struct node *nodes;
    uint32_t node_count, node_room, reached_count;
    uint32_t *work; /* the nodes that are still to be followed */
    uint64_t work_first, work_end, work_room;
    uint32_t holder; /* the node that gets the bed's kernel when the bed gets another one, or NONE */
    uint32_t kept_kernels, rounds;
    uint64_t turns, edge_count;
    l4_kernel first_kernel;
    uint32_t first_state;
    unsigned char *buffer; /* the present kernel's checkpoint, if checkpoint_bytes is not 0 */
    uint32_t buffer_bytes, checkpoint_bytes, *kernel_words;
    struct outcome *outcomes;
    uint32_t outcome_count;
    char incomplete[120]; /* why the search has ended early, or "" */
    FILE *certificate;    /* the states so far, or NULL */

    /* the turns before the search, or of the replay */
    uint32_t *prefix, prefix_count, prefix_room, switching_from; /* the turn from which on turns end at words of memory, if there are such words */
    int is_replay, has_seen_line;
};

static inline uint32_t slot_of(const struct bed *bed, const struct thread *thread) {
    return (uint32_t)(thread - bed->threads);
}

/* orders_notes.c, and orders_single.c: turns that need not be compared with others. */
int single_is_turn(const struct orders *orders);
/* What was noted so far does not count. */
void single_forget(struct orders *orders);
void single_note_call(struct orders *orders, uint32_t caller, const l4_call *call);
void single_note_controlled(struct orders *orders, const struct thread *thread);
/* To be called when the turn has ended. */
void single_note_end(struct orders *orders, const struct thread *running);
void single_touch(struct orders *orders, uint32_t number);

/* orders_memory.c: accesses to memory. */
void memory_watch(struct orders *orders);
/* Accesses so far do not count. */
void memory_forget(struct orders *orders);
void memory_set_switch(struct orders *orders, uint32_t frame, uint32_t word);

/* orders_lines.c: what threads print. */
void lines_begin(struct orders *orders);
void lines_end(struct orders *orders);
uint32_t lines_add(struct orders *orders, uint32_t before, const char *text);

/* A text that grows. */
struct text {
    char *bytes;
    size_t length, room;
};
void text_append(struct text *text, const char *format, ...) __attribute__((format(printf, 2, 3)));
void lines_append(const struct orders *orders, struct text *text, uint32_t last);

/* orders_kernels.c: a turn begins; it makes a call. */
void kernels_begin_turn(struct orders *orders);
void kernels_add_call(struct orders *orders, uint32_t thread, const l4_call *call, const uint32_t *words, size_t count);
/* It ends the wait of a thread. */
void kernels_add_end_of_wait(struct orders *orders, uint32_t thread, int is_cancel);
/* Sets the numbers of the present kernel if the turn is known. Returns whether it is. */
int kernels_find(struct orders *orders);
/* Keeps the numbers of the present kernel for this turn. */
void kernels_add(struct orders *orders);
void kernels_free(struct orders *orders);

/* orders_keep.c: writes the present kernel's checkpoint to the buffer, unless it is there. */
void keep_checkpoint(struct orders *orders);
/* Returns the part that is the present state. */
uint32_t keep_state(struct orders *orders);
/* Forgets the present state, so that the next call of keep_state looks at everything. */
void keep_forget(struct orders *orders);
/* Keeps the first state, with which the frames of all others are compared. */
void keep_first_state(struct orders *orders);

/* orders_restore.c: makes a state the present one, except for its kernel. */
void restore_state(struct orders *orders, uint32_t state);

/* orders_turn.c */
uint64_t turn_enabled(const struct bed *bed);
/* Returns the first of these threads, but one whose wait would expire only if there is no other. */
struct thread *turn_first(struct bed *bed, uint64_t places);
void turn_take(struct orders *orders, struct thread *thread);
/* Whether a limit, a signal or an output has ended the run within a turn, and so ends the search. */
int turn_was_interrupted(const struct bed *bed);

/* orders_outcome.c */
uint64_t outcome_waiting(struct bed *bed);
/* Adds the text of how the present run has ended. */
void outcome_append_end(struct orders *orders, struct text *text);
/* Returns the number of the present outcome, plus 1. */
uint32_t outcome_take(struct orders *orders, uint32_t node);
/* Returns the status of a run that has ended so. */
int outcome_status(struct bed *bed);

/* orders_search.c */
/* Makes the present state the first one. */
void search_begin(struct orders *orders);
void search_all(struct orders *orders);
void search_free(struct orders *orders);

/* orders_graph.c: prints what the graph of all states says: how many schedules there are, and cycles. Returns how many threads can wait for ever. */
uint64_t graph_schedules(const struct orders *orders);
uint32_t graph_print_cycles(struct orders *orders);

/* orders_schedule.c */
void schedule_append(const struct orders *orders, struct text *text, uint32_t node);
/* Prints the schedule that leads to a node. */
void schedule_print(const struct orders *orders, uint32_t node);
void schedule_add(struct orders *orders, uint32_t thread);
/* Reads a schedule from a file. */
void schedule_read(struct orders *orders, const char *name);
/* Takes the turns before the search, or those of the replay. */
void schedule_take(struct orders *orders);

/* orders_certificate.c: writes the states of a search, and checks them. A search begins, adds each state that it finds, and writes the file at its end. */
void certificate_begin(struct orders *orders);
void certificate_add(struct orders *orders, uint32_t state);
void certificate_write(struct orders *orders);
void certificate_close(struct orders *orders);
/* Ends the bed with STATUS_FAILED unless each turn of each state leads to one of the states. Takes the outcomes. */
void certificate_check(struct orders *orders);

/* orders_valid.c: whether the part with this number is the list of a state whose parts can be restored. */
int valid_is_state(const struct orders *orders, uint32_t number);

/* orders_report.c: prints the result of the search, and returns the exit status. */
int report_print(struct orders *orders);

#endif
