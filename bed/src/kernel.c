#include "bed.h"
#include "check.h"
#include <stdarg.h>
#include <stdio.h>
#include <string.h>

/* The longest line of the library has 656 bytes. */
#define MAX_LINE 657

static const uint32_t no_words[1] = {0};

void print_line(const struct bed *bed, const char *format, ...) {
    char text[MAX_LINE];
    va_list arguments;
    if (!bed->prints_lines)
        return;
    va_start(arguments, format);
    vsnprintf(text, sizeof text, format, arguments);
    va_end(arguments);
    print("%s\n", text);
}

const char *rights_text(uint32_t rights) {
    static const char *const texts[8] = {"---", "--x", "-w-", "-wx", "r--", "r-x", "rw-", "rwx"};
    return texts[rights & 7];
}

l4_call kernel_call(uint32_t kind) {
    l4_call call;
    memset(&call, 0, sizeof call);
    call.kind = kind;
    return call;
}

l4_reply kernel_reply(struct bed *bed, uint32_t thread) {
    l4_reply reply = l4_reply_of(&bed->kernel, thread);
    check_library(reply.refusal, "l4_reply_of");
    return reply;
}

uint64_t kernel_space(struct bed *bed, uint32_t thread) {
    l4_space space = l4_space_of(&bed->kernel, thread);
    check_library(space.refusal, "l4_space_of");
    check_holds(space.there == 1, "a thread of the bed does not exist in the kernel");
    return space.space;
}

l4_mapping kernel_mapping(struct bed *bed, uint64_t space, uint32_t page) {
    l4_mapping mapping = l4_mapping_of(&bed->kernel, space, page);
    check_library(mapping.refusal, "l4_mapping_of");
    return mapping;
}

/* The library prints replies and steps as `l4 run` does. */
static void print_reply(uint32_t thread, const l4_reply *reply) {
    char text[MAX_LINE];
    l4_reply_text(thread, reply, text, sizeof text);
    print("%s\n", text);
}

static void print_step(const l4_step *step) {
    char text[MAX_LINE];
    l4_step_text(step, text, sizeof text);
    print("%s\n", text);
}

static void take_ended(struct bed *bed, const uint32_t *ended, uint32_t count) {
    uint32_t k;
    if (!bed->prints_lines && bed->traced_count == 0)
        return;
    for (k = 0; k < count; k++) {
        l4_reply reply = kernel_reply(bed, ended[k]);
        if (reply.kind == L4_NONE) /* a thread that no longer exists has no reply */
            reply.kind = L4_REPLY_GONE;
        if (bed->prints_lines)
            print_reply(ended[k], &reply);
        trace_reply(bed, ended[k], &reply);
    }
}

static void take_step(struct bed *bed, const l4_step *step) {
    check_library(step->refusal, "a step of the kernel");
    record_step(step);
    orders_note_step(bed, step);
    if (bed->prints_lines)
        print_step(step);
    take_ended(bed, step->ended, step->ended_count);
    if (step->kind == L4_TRANSFER && step->outcome == L4_DELIVERED) {
        change_after_transfer(bed, step->thread, step->receiver);
        timeouts_after_transfer(bed, step->thread);
    }
}

/* This takes an offer of a message or a readiness away, so no step is enabled afterwards. */
static void end_wait(struct bed *bed, const char *name, uint32_t thread, const l4_answer *answer) {
    check_library(answer->refusal, "the end of a wait");
    record_end_of_wait(name, thread);
    print_line(bed, "%s %u", name, thread);
    take_ended(bed, answer->ended, answer->ended_count);
}

void kernel_timeout(struct bed *bed, uint32_t thread) {
    l4_answer answer = l4_timeout(&bed->kernel, thread);
    orders_note_end_of_wait(bed, thread, 0);
    end_wait(bed, "timeout", thread, &answer);
}

void kernel_cancel(struct bed *bed, uint32_t thread) {
    l4_answer answer = l4_cancel(&bed->kernel, thread);
    orders_note_end_of_wait(bed, thread, 1);
    end_wait(bed, "cancel", thread, &answer);
}

struct entered *kernel_entered(struct bed *bed, uint32_t thread) {
    struct thread *found = thread_numbered(bed, thread);
    return found == NULL ? &bed->sigma0_entered : &found->entered;
}

/* The words of this call are needed when its message is delivered, which a call of another thread may cause. */
static void keep_entered(struct bed *bed, uint32_t thread, const l4_call *call, const uint32_t *words, size_t count) {
    struct entered *entered = kernel_entered(bed, thread);
    entered->acceptor = call->kind == L4_FAULT ? 0x10u : call->acceptor;
    memset(entered->words, 0, sizeof entered->words);
    memcpy(entered->words, words, (count < L4_MAX_WORDS ? count : L4_MAX_WORDS) * sizeof *words);
}

/* Collects the pages that the start of a call can change. */
static void before_start(struct bed *bed, uint32_t thread, const l4_call *call, const uint32_t *words, size_t count) {
    if (call->kind == L4_UNMAP)
        change_before_unmap(bed, thread, call->control, words, count);
    if (call->kind == L4_DELETE)
        change_before_delete(bed, call->id);
}

/* Executes the next step. Returns 0 if no step is enabled. */
static int take_next(struct bed *bed) {
    l4_step step = l4_enabled(&bed->kernel);
    check_library(step.refusal, "l4_enabled");
    if (step.kind == L4_TRANSFER)
        change_before_transfer(bed, step.thread, step.receiver);
    step = l4_next(&bed->kernel);
    if (step.kind == L4_NONE)
        return 0;
    take_step(bed, &step);
    return 1;
}

static uint32_t enter(struct bed *bed, uint32_t thread, const l4_call *call, const uint32_t *words, size_t count) {
    l4_answer start;
    orders_note_call(bed, thread, call, words, count);
    before_start(bed, thread, call, words, count);
    start = l4_start(&bed->kernel, thread, call, words, count);
    if (start.refusal == L4_OK) {
        bed->costs.calls++;
        keep_entered(bed, thread, call, words, count);
        record_call(bed, thread, call, words, count);
        take_ended(bed, start.ended, start.ended_count);
        while (take_next(bed)) {
        }
    }
    change_apply(bed);
    return start.refusal;
}

void kernel_begin_sigma0(struct bed *bed) {
    l4_call call = kernel_call(L4_IPC);
    call.from = L4_ANYTHREAD;
    check_library(enter(bed, SIGMA0, &call, no_words, 0), "the first receive of sigma0");
}

static l4_message answer_of_sigma0(struct bed *bed, const l4_reply *reply) {
    uint32_t words[L4_MAX_WORDS];
    l4_message message;
    words[0] = reply->tag;
    memcpy(words + 1, reply->words, reply->word_count * sizeof *words);
    message = l4_sigma0_answer(&bed->sigma0, kernel_space(bed, NUMBER(reply->from)), words, 1 + reply->word_count);
    check_library(message.refusal, "l4_sigma0_answer");
    orders_note_owner(bed, kernel_space(bed, NUMBER(reply->from)), &message);
    return message;
}

/* sigma0 answers each message that it has received, and receives again. */
static void serve(struct bed *bed) {
    l4_reply reply = kernel_reply(bed, SIGMA0);
    while (reply.kind == L4_REPLY_IPC) {
        l4_call call = kernel_call(L4_IPC);
        call.from = L4_ANYTHREAD;
        if (reply.from == L4_NILTHREAD) { /* its last answer could not be delivered */
            check_library(enter(bed, SIGMA0, &call, no_words, 0), "a receive of sigma0");
        } else {
            l4_message message = answer_of_sigma0(bed, &reply);
            call.to = reply.from;
            call.timeouts = L4_ZERO_TIMEOUT << 16;
            check_library(enter(bed, SIGMA0, &call, message.words, message.word_count), "an answer of sigma0");
        }
        reply = kernel_reply(bed, SIGMA0);
    }
}

uint32_t kernel_enter(struct bed *bed, uint32_t thread, const l4_call *call, const uint32_t *words, size_t count) {
    uint32_t refusal = enter(bed, thread, call, words, count);
    serve(bed);
    return refusal;
}
