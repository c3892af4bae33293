/* Ends waits of a locked kernel while allocations fail. A failure changes nothing, and the wait can be ended once there is memory. A call gets
 * the room for the entries of several steps, so that memory can only run out if the entries were dropped since. Link it with --wrap=malloc and
 * --wrap=realloc. */
#include <l4.h>
#include <stdio.h>
#include <string.h>

#define ROUNDS 100

static int failures = 0;

static void expect(int holds, const char *what, int line) {
    if (!holds) {
        printf("line %d: %s\n", line, what);
        failures++;
    }
}

#define EXPECT(claim) expect((claim) ? 1 : 0, #claim, __LINE__)

void *__real_malloc(size_t size);
void *__real_realloc(void *old, size_t size);
void *__wrap_malloc(size_t size);
void *__wrap_realloc(void *old, size_t size);

/* whether allocations fail */
static int fails = 0;

void *__wrap_malloc(size_t size) {
    return fails ? NULL : __real_malloc(size);
}

void *__wrap_realloc(void *old, size_t size) {
    return fails ? NULL : __real_realloc(old, size);
}

/* Ends the wait of a thread, with or without memory. */
static uint32_t end(l4_lock *lock, uint32_t thread, int is_late, int without) {
    uint32_t refusal;
    fails = without;
    refusal = is_late ? l4_lock_timeout(lock, thread) : l4_lock_cancel(lock, thread);
    fails = 0;
    return refusal;
}

/* Root waits, and its wait is ended without memory, or else with memory. The entries may be dropped before. */
static void round_of(l4_lock *lock, int is_late, int drops) {
    const uint64_t length = l4_lock_length(lock).count;
    l4_call call;
    uint32_t refusal;
    memset(&call, 0, sizeof call);
    call.kind = L4_IPC;
    call.from = L4_ANYTHREAD;
    EXPECT(l4_lock_enter(lock, 2, &call, NULL, 0).reply.kind == L4_NONE && l4_lock_length(lock).count == length + 1);
    EXPECT(!drops || l4_lock_forget(lock) == L4_OK);
    refusal = end(lock, 2, is_late, 1);
    EXPECT(refusal == (drops ? L4_NO_MEMORY : L4_OK));
    if (drops) {
        EXPECT(l4_lock_length(lock).count == length + 1);
        EXPECT(l4_lock_state_of(lock, 2).state == L4_STATE_RECEIVING && l4_lock_poll(lock, 2) == 0 && l4_lock_reply_of(lock, 2).kind == L4_NONE);
        /* this is tested before the thread, which does not exist */
        EXPECT(end(lock, 9, is_late, 1) == L4_NO_MEMORY && end(lock, 9, is_late, 0) == L4_K1);
        EXPECT(end(lock, 2, is_late, 0) == L4_OK);
    }
    EXPECT(l4_lock_length(lock).count == length + 2 && l4_lock_take(lock, 2).error == (is_late ? 3U : 7U));
}

int main(void) {
    static const uint32_t seats[1] = {2};
    l4_lock lock = L4_EMPTY;
    int round;
    EXPECT(l4_lock_new(&lock, 1) == L4_OK && l4_lock_give(&lock, 2) == L4_OK);
    for (round = 0; round < ROUNDS; round++) {
        round_of(&lock, round % 2, round / 2 % 2);
    }
    EXPECT(l4_lock_length(&lock).count == 2 * ROUNDS && l4_lock_seat_of(&lock, 2).receipts == ROUNDS);
    EXPECT(l4_lock_close(&lock, seats, 1).refusal == L4_OK);
    return failures == 0 ? 0 : 1;
}
