/* Writes the calls of the run as a script for `l4`, and its steps as a list for `l4_steps`. */
#include "bed.h"
#include "check.h"
#include <inttypes.h>

#define COMPLETE_WINDOW 0x10u

void record_begin(struct bed *bed) {
    output_print(OUTPUT_SCRIPT, "# a run of l4_bed; the kernel has %u frames: pass --frames %u\n", bed->frames, bed->frames);
    output_print(OUTPUT_STEPS, "# a run of l4_bed; the kernel has %u frames: pass --frames %u\n", bed->frames, bed->frames);
}

/* The thread with this number, as the kernel has it. */
static l4_state thread_of(struct bed *bed, uint32_t number) {
    l4_state state = l4_state_of(&bed->kernel, number);
    check_library(state.refusal, "l4_state_of");
    return state;
}

/* In a script a thread is named by its number. So an id that names no thread, because a thread has another version of it, becomes the number of no
 * thread: a call of such a thread ends in the same way. */
static uint32_t number_of(struct bed *bed, uint32_t id) {
    uint32_t number = NUMBER(id);
    l4_state state = thread_of(bed, number);
    if (state.state == L4_STATE_ABSENT || state.id == id)
        return number;
    for (number = LAST_NUMBER; thread_of(bed, number).state != L4_STATE_ABSENT; number--)
        continue;
    return number;
}

static void write_id(struct bed *bed, uint32_t id) {
    if (id == L4_NILTHREAD)
        output_print(OUTPUT_SCRIPT, " nil");
    else if (id == L4_ANYTHREAD)
        output_print(OUTPUT_SCRIPT, " any");
    else
        output_print(OUTPUT_SCRIPT, " %u", number_of(bed, id));
}

static void write_words(enum output file, const uint32_t *words, uint32_t count) {
    uint32_t k;
    for (k = 0; k < count; k++)
        output_print(file, " 0x%08" PRIx32, words[k]);
}

/* The tag and the words that it counts. */
static uint32_t message_words(const uint32_t *words) {
    return 1 + (words[0] & 0x3f) + (words[0] >> 6 & 0x3f);
}

/* The window of a call that does not receive has no meaning. */
static uint32_t window_of(const l4_call *call) {
    return call->from == L4_NILTHREAD ? 0 : call->acceptor;
}

static void write_ipc(struct bed *bed, uint32_t thread, const l4_call *call, const uint32_t *words) {
    const enum output file = OUTPUT_SCRIPT;
    if (call->to == L4_NILTHREAD && call->from == L4_NILTHREAD) {
        output_print(file, "ipc %u nil nil 0x%08" PRIx32 " 0x%08" PRIx32, thread, call->timeouts, window_of(call));
    } else if (call->to == L4_NILTHREAD && call->timeouts == 0) {
        output_print(file, "recv %u", thread);
        write_id(bed, call->from);
        output_print(file, " 0x%08" PRIx32, call->acceptor);
        return;
    } else if (call->from == L4_NILTHREAD && call->timeouts == 0) {
        output_print(file, "send %u", thread);
        write_id(bed, call->to);
    } else {
        output_print(file, "ipc %u", thread);
        write_id(bed, call->to);
        write_id(bed, call->from);
        output_print(file, " 0x%08" PRIx32 " 0x%08" PRIx32, call->timeouts, window_of(call));
    }
    if (call->to != L4_NILTHREAD)
        write_words(file, words, message_words(words));
}

static void write_control(struct bed *bed, const l4_call *call) {
    const enum output file = OUTPUT_SCRIPT;
    if (call->kind == L4_DELETE) {
        output_print(file, "delete %u", NUMBER(call->id));
        return;
    }
    output_print(file, call->kind == L4_CREATE ? "thread %u" : "setpager %u", NUMBER(call->id));
    if (call->kind == L4_CREATE && call->space == call->id)
        output_print(file, " new");
    else if (call->kind == L4_CREATE)
        write_id(bed, call->space);
    write_id(bed, call->pager);
}

/* Whether a thread has a pager with another version of this id. In a script, both would be one. */
static int is_pager_of_other_version(struct bed *bed, uint32_t id) {
    l4_thread found = l4_next_thread(&bed->kernel, 0);
    while (found.there) {
        uint32_t pager = thread_of(bed, found.thread).pager;
        if (NUMBER(pager) == NUMBER(id) && pager != id)
            return 1;
        found = l4_next_thread(&bed->kernel, found.thread + 1);
    }
    return 0;
}

/* Scripts create and delete threads in the name of root alone. */
static int fits_scripts(struct bed *bed, uint32_t thread, const l4_call *call) {
    int is_control = call->kind == L4_CREATE || call->kind == L4_SET_PAGER || call->kind == L4_DELETE;
    return call->to != L4_ANYTHREAD && (!is_control || thread == ROOT) && (call->kind != L4_CREATE || !is_pager_of_other_version(bed, call->id));
}

static void write_script_line(struct bed *bed, uint32_t thread, const l4_call *call, const uint32_t *words) {
    const enum output file = OUTPUT_SCRIPT;
    if (!fits_scripts(bed, thread, call)) {
        bed->script_gaps++;
        output_print(file, "# here thread %u makes a call that scripts cannot express\n", thread);
        return;
    }
    switch (call->kind) {
    case L4_IPC: write_ipc(bed, thread, call, words); break;
    case L4_FAULT:
        output_print(file, "fault %u 0x%08" PRIx32 " 0x%08" PRIx32 " %s", thread, call->address, call->ip, rights_text(call->access));
        break;
    case L4_UNMAP:
        output_print(file, "unmap %u 0x%08" PRIx32, thread, call->control);
        write_words(file, words, 1 + (call->control & 0x3f));
        break;
    default: write_control(bed, call);
    }
    output_print(file, "\n");
}

static void write_start(enum output file, uint32_t thread, const l4_call *call, const uint32_t *words) {
    output_print(file, "start %u ", thread);
    switch (call->kind) {
    case L4_IPC:
        output_print(file, "ipc 0x%08" PRIx32 " 0x%08" PRIx32 " 0x%08" PRIx32 " 0x%08" PRIx32, call->to, call->from, call->timeouts, window_of(call));
        if (call->to != L4_NILTHREAD)
            write_words(file, words, message_words(words));
        break;
    case L4_FAULT: output_print(file, "fault 0x%08" PRIx32 " 0x%08" PRIx32 " %" PRIu32, call->address, call->ip, call->access); break;
    case L4_UNMAP:
        output_print(file, "unmap 0x%08" PRIx32, call->control);
        write_words(file, words, 1 + (call->control & 0x3f));
        break;
    case L4_CREATE:
        output_print(file, "create 0x%08" PRIx32 " 0x%08" PRIx32 " 0x%08" PRIx32, call->id, call->space, call->pager);
        break;
    case L4_SET_PAGER: output_print(file, "setpager 0x%08" PRIx32 " 0x%08" PRIx32, call->id, call->pager); break;
    default: output_print(file, "delete 0x%08" PRIx32, call->id);
    }
    output_print(file, "\n");
}

void record_call(struct bed *bed, uint32_t thread, const l4_call *call, const uint32_t *words, size_t count) {
    (void)count;
    if (output_is_open(OUTPUT_SCRIPT))
        write_script_line(bed, thread, call, words);
    if (output_is_open(OUTPUT_STEPS))
        write_start(OUTPUT_STEPS, thread, call, words);
}

void record_step(const l4_step *step) {
    if (step->kind == L4_TRANSFER)
        output_print(OUTPUT_STEPS, "transfer %" PRIu32 " %" PRIu32 "\n", step->thread, step->receiver);
    else
        output_print(OUTPUT_STEPS, "expire %" PRIu32 "\n", step->thread);
}

void record_end_of_wait(const char *name, uint32_t thread) {
    output_print(OUTPUT_SCRIPT, "%s %" PRIu32 "\n", name, thread);
    output_print(OUTPUT_STEPS, "%s %" PRIu32 "\n", name, thread);
}

void record_end(struct bed *bed) {
    if (bed->script_gaps > 0)
        note("the script lacks %u call%s that scripts cannot express; --steps writes them all", bed->script_gaps, bed->script_gaps == 1 ? "" : "s");
}
