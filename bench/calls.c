/* Does over l4.h what crates/l4_calls does inside: enters a call that waits and one that sends four words, again and again. */
#include <l4.h>
#include <stdio.h>
#include <string.h>

#define MESSAGES 100000
#define FRAMES 256
#define SENDER 1
#define RECEIVER 2

static uint32_t enter(l4_kernel *kernel, uint32_t thread, const l4_call *call, const uint32_t *words, size_t count) {
    l4_step steps[L4_MAX_THREADS];
    l4_entered entered = l4_enter(kernel, thread, call, words, count, steps, L4_MAX_THREADS);
    uint32_t step, delivered = 0;
    for (step = 0; step < entered.step_count; step++) {
        delivered += steps[step].outcome == L4_DELIVERED;
    }
    return delivered;
}

int main(void) {
    uint32_t words[5] = {4, 0, 2, 3, 5}, message, delivered = 0;
    l4_kernel kernel = L4_EMPTY;
    l4_call receiving, sending;
    memset(&receiving, 0, sizeof receiving);
    receiving.kind = L4_IPC;
    receiving.from = L4_ANYTHREAD;
    memset(&sending, 0, sizeof sending);
    sending.kind = L4_IPC;
    sending.to = RECEIVER << 14 | 1;
    if (l4_boot(&kernel, FRAMES) != L4_OK) {
        return 1;
    }
    for (message = 0; message < MESSAGES; message++) {
        enter(&kernel, RECEIVER, &receiving, words, 0);
        words[1] = message;
        delivered += enter(&kernel, SENDER, &sending, words, 5);
    }
    if (l4_enabled(&kernel).kind != L4_NONE) {
        return 1;
    }
    printf("%lu messages, the last with %lu words\n", (unsigned long)delivered, (unsigned long)l4_reply_of(&kernel, RECEIVER).word_count);
    l4_free(&kernel);
    return 0;
}
