/* Prints the calls of traced threads by name, with decoded messages. */
#include "bed.h"
#include "check.h"

#define LABEL_FAULT_BITS 0xfff8u
#define LABEL_FAULT 0xffe0u
#define MAP_KIND 8u
#define KIND_BITS 0xeu
#define BASE_BITS (~UINT32_C(0x3ff))

static void print_id(uint32_t id) {
    if (id == L4_NILTHREAD)
        print("nilthread");
    else if (id == L4_ANYTHREAD)
        print("anythread");
    else if (id == ID(NUMBER(id)))
        print("%u", NUMBER(id));
    else
        print("%u version %u", NUMBER(id), id & 0x3fff);
}

static void print_before_id(const char *text, uint32_t id) {
    print("%s", text);
    print_id(id);
}

static void print_fpage(uint32_t fpage) {
    uint32_t log = fpage >> 4 & 0x3f;
    if (log == 1 || log == 32)
        print("all pages");
    else if (log < L4_PAGE_LOG)
        print("no page");
    else if (log == L4_PAGE_LOG)
        print("page %u", (fpage & BASE_BITS) / PAGE_BYTES);
    else
        print("pages %u to %u", (fpage & BASE_BITS & ~((1u << log) - 1)) / PAGE_BYTES, ((fpage & BASE_BITS) | ((1u << log) - 1)) / PAGE_BYTES);
}

static void print_item(const uint32_t *item) {
    print(", %s ", (item[0] & KIND_BITS) == MAP_KIND ? "maps" : "grants");
    print_fpage(item[1]);
    print(" %s at send base %08x", rights_text(item[1]), item[0] & BASE_BITS);
}

static void print_label(uint32_t tag) {
    uint32_t label = tag >> 16;
    if ((label & LABEL_FAULT_BITS) == LABEL_FAULT)
        print(" (a page fault for %s)", rights_text(label));
    else if (label == 0xffa0)
        print(" (a request to sigma0)");
    else if (label == 0xffb0)
        print(" (an exception)");
}

/* `rest` has the words after the tag. */
static void print_words(uint32_t tag, const uint32_t *rest) {
    uint32_t untyped = tag & 0x3f, typed = tag >> 6 & 0x3f, k;
    print("label %04x", tag >> 16);
    print_label(tag);
    if (untyped > 0)
        print(", words");
    for (k = 0; k < untyped; k++)
        print(" %08x", rest[k]);
    for (k = 0; k + 1 < typed && untyped + k + 1 < L4_MAX_WORDS - 1; k += 2)
        print_item(rest + untyped + k);
    print("\n");
}

static const char *ipc_name(const l4_call *call) {
    if (call->to == L4_NILTHREAD)
        return call->from == L4_ANYTHREAD ? "Wait" : "Receive";
    if (call->from == L4_NILTHREAD)
        return "Send";
    if (call->from == call->to)
        return "Call";
    return call->from == L4_ANYTHREAD ? "ReplyWait" : "Ipc";
}

/* The thread keeps a timeout in place of which the kernel gets never. */
static void print_timeout(const struct thread *thread, uint32_t for_kernel, uint32_t kept) {
    if (kept != 0)
        print(" for at most %llu microseconds", (unsigned long long)timeouts_length(thread, kept));
    else if (for_kernel == L4_ZERO_TIMEOUT)
        print(" without waiting");
}

static void trace_ipc(const struct thread *thread, const l4_call *call, const uint32_t *words) {
    print("%u calls %s:", thread->number, ipc_name(call));
    if (call->to != L4_NILTHREAD) {
        print(" sends to ");
        print_id(call->to);
        print_timeout(thread, call->timeouts >> 16, thread->send_timeout);
        print(": ");
        print_words(words[0], words + 1);
    }
    if (call->from == L4_NILTHREAD)
        return;
    print(call->to == L4_NILTHREAD ? " receives from " : "%u then receives from ", thread->number);
    print_id(call->from);
    print_timeout(thread, call->timeouts & 0xffff, thread->receive_timeout);
    if ((call->acceptor & ~0xfu) != 0) {
        print(", accepts pages in ");
        print_fpage(call->acceptor);
    }
    print("\n");
}

static void trace_control(uint32_t thread, const l4_call *call) {
    static const char *const names[] = {"creates ", "changes the pager of ", "deletes "};
    print("%u calls ThreadControl: %s", thread, names[call->kind - L4_CREATE]);
    print_id(call->id);
    if (call->kind == L4_CREATE && call->space == call->id)
        print(" in a new space");
    else if (call->kind == L4_CREATE)
        print_before_id(" in the space of ", call->space);
    if (call->kind != L4_DELETE)
        print_before_id(", pager ", call->pager);
    print("\n");
}

static void trace_unmap(uint32_t thread, const l4_call *call, const uint32_t *words) {
    uint32_t k;
    print("%u calls %s:", thread, call->control & 0x40 ? "Flush" : "Unmap");
    for (k = 0; k <= (call->control & 0x3f); k++) {
        print(k == 0 ? " takes %s from " : ", %s from ", rights_text(words[k]));
        print_fpage(words[k]);
    }
    print("\n");
}

void trace_add(struct bed *bed, uint32_t thread) {
    if (bed->traced_count == L4_MAX_THREADS)
        fail(STATUS_INPUT, "--trace: more than %u threads are traced", L4_MAX_THREADS);
    bed->has_existed[bed->traced_count] = thread == SIGMA0;
    bed->traced[bed->traced_count++] = thread;
}

int trace_is_on(const struct bed *bed, uint32_t thread) {
    uint32_t k;
    for (k = 0; k < bed->traced_count; k++) {
        if (bed->traced[k] == thread)
            return 1;
    }
    return 0;
}

void trace_thread_exists(struct bed *bed, uint32_t thread) {
    uint32_t k;
    for (k = 0; k < bed->traced_count; k++)
        bed->has_existed[k] |= bed->traced[k] == thread;
}

void trace_check(const struct bed *bed) {
    uint32_t k;
    for (k = 0; k < bed->traced_count; k++) {
        if (!bed->has_existed[k])
            fail(STATUS_INPUT, "--trace: no thread had the number %u", bed->traced[k]);
    }
}

static void trace_fault(struct bed *bed, uint32_t thread, const l4_call *call) {
    char name[SYMBOL_ROOM];
    symbols_write(bed, thread_numbered(bed, thread), call->ip, name, sizeof name);
    print("%u page fault: address %08x, instruction %08x%s, needs %s\n", thread, call->address, call->ip, name, rights_text(call->access));
}

void trace_call(struct bed *bed, uint32_t thread, const l4_call *call, const uint32_t *words) {
    if (!trace_is_on(bed, thread))
        return;
    switch (call->kind) {
    case L4_IPC: trace_ipc(thread_numbered(bed, thread), call, words); break;
    case L4_FAULT: trace_fault(bed, thread, call); break;
    case L4_UNMAP: trace_unmap(thread, call, words); break;
    default: trace_control(thread, call);
    }
}

void trace_refusal(const struct bed *bed, uint32_t thread, uint32_t refusal) {
    char text[160];
    if (!trace_is_on(bed, thread))
        return;
    l4_refusal_text(refusal, text, sizeof text);
    print("%u is refused: %s\n", thread, text);
}

static const char *error_text(uint32_t error) {
    static const char *const texts[] = {"timeout", "no such thread", "canceled", "message overflow"};
    uint32_t kind = error >> 1;
    return kind >= 1 && kind <= 4 ? texts[kind - 1] : "error";
}

static void trace_received(uint32_t thread, const l4_reply *reply) {
    if (reply->tag & FAILED_TAG && reply->error != 0) {
        print("%u returns: failed, ErrorCode %u (%s in the %s phase)\n", thread, reply->error, error_text(reply->error),
               reply->error & 1 ? "receive" : "send");
    } else if (reply->from == L4_NILTHREAD) {
        print("%u returns: sent\n", thread);
    } else {
        print("%u returns: received from ", thread);
        print_id(reply->from);
        print(": ");
        print_words(reply->tag, reply->words);
    }
}

void trace_reply(const struct bed *bed, uint32_t thread, const l4_reply *reply) {
    if (!trace_is_on(bed, thread))
        return;
    switch (reply->kind) {
    case L4_REPLY_IPC: trace_received(thread, reply); break;
    case L4_REPLY_HIT: print("%u returns: the page is present\n", thread); break;
    case L4_REPLY_ANSWERED: print("%u returns: its pager answered the page fault\n", thread); break;
    case L4_REPLY_FAILED: print("%u returns: the page fault failed, ErrorCode %u\n", thread, reply->error); break;
    case L4_REPLY_GONE: print("%u is deleted\n", thread); break;
    default: print("%u returns\n", thread);
    }
}
