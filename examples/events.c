/* One thread of the program makes the calls of 60 L4 threads, which pass a number round in a ring. Each seat has a pipe: its reading end
 * becomes readable when the reply of the seat's call is ready. So an event loop can wait for seats and for other descriptors at the same
 * time.
 *
 * Build it with: cc events.c $(pkg-config --cflags --libs l4) */
#include <l4.h>
#include <poll.h>
#include <stdio.h>
#include <stdlib.h>
#include <unistd.h>

#define MEMBERS 60
#define ROUNDS 3
#define FIRST 3 /* the members are the L4 threads 3 to 62 */

static l4_lock kernel = L4_EMPTY;
static int pipes[MEMBERS][2];
static uint32_t turns[MEMBERS]; /* how many numbers each member has received */

/* Returns the id of the thread with this number, version 1. */
static uint32_t id(uint32_t number) {
    return number << 14 | 1;
}

static void stop(const char *where, uint32_t refusal) {
    char text[160];
    l4_refusal_text(refusal, text, sizeof text);
    fprintf(stderr, "%s: %s\n", where, text);
    exit(1);
}

/* Makes the descriptors of the seats readable whose calls ended in the entries from this one on, except that of the caller. */
static void wake(uint64_t number, uint32_t caller) {
    uint32_t threads[L4_MAX_THREADS];
    uint64_t place, count = l4_lock_ended(&kernel, (size_t)number, threads, L4_MAX_THREADS).count;
    for (place = 0; place < count; place++)
        if (threads[place] != caller && threads[place] >= FIRST && write(pipes[threads[place] - FIRST][1], "", 1) != 1)
            exit(1);
}

/* Enters a call of a seat, and returns its reply; the kind is L4_NONE if the call waits. */
static l4_reply enter(uint32_t seat, const l4_call *call, const uint32_t *words, size_t count) {
    uint64_t before = l4_lock_length(&kernel).count;
    l4_seated entered = l4_lock_enter(&kernel, seat, call, words, count);
    if (entered.refusal != L4_OK)
        stop("a call was refused", entered.refusal);
    wake(before, seat);
    return entered.reply;
}

/* Sends the number to the next member unless it is 0, and receives one from the member before unless this is the last call. Returns the
 * reply, if the call has ended. */
static l4_reply pass(uint32_t member, uint32_t number, int is_last) {
    const uint32_t words[2] = {1, number}; /* the tag: one untyped word */
    l4_call call = {0};
    call.kind = L4_IPC;
    if (number != 0)
        call.to = id(FIRST + (member + 1) % MEMBERS);
    if (!is_last)
        call.from = id(FIRST + (member + MEMBERS - 1) % MEMBERS);
    return enter(FIRST + member, &call, words, number != 0 ? 2 : 0);
}

/* Passes on each number that the member has received, until a call of it waits or was its last one. */
static void go_on(uint32_t member, l4_reply reply) {
    while (reply.word_count == 1) {
        turns[member]++;
        if (member == 0 && turns[member] == ROUNDS) {
            printf("the number is %u\n", reply.words[0]);
            return;
        }
        reply = pass(member, reply.words[0] + 1, turns[member] == ROUNDS);
    }
}

/* Waits for replies until the first member has received its last number. */
static void loop(void) {
    struct pollfd ready[MEMBERS];
    uint32_t member;
    char byte;
    for (member = 0; member < MEMBERS; member++) {
        ready[member].fd = pipes[member][0];
        ready[member].events = POLLIN;
    }
    while (turns[0] < ROUNDS && poll(ready, MEMBERS, -1) > 0)
        for (member = 0; member < MEMBERS; member++)
            if ((ready[member].revents & POLLIN) && read(pipes[member][0], &byte, 1) == 1)
                go_on(member, l4_lock_take(&kernel, FIRST + member));
}

int main(void) {
    uint32_t seats[MEMBERS + 1] = {2}, member, refusal = l4_lock_new(&kernel, 16);
    if (refusal != L4_OK)
        stop("no kernel", refusal);
    l4_lock_give(&kernel, 2); /* root, which creates the members */
    for (member = 0; member < MEMBERS; member++) {
        l4_call create = {0};
        create.kind = L4_CREATE;
        create.id = create.space = id(FIRST + member); /* in a space of its own */
        seats[member + 1] = FIRST + member;
        l4_lock_give(&kernel, FIRST + member);
        enter(2, &create, NULL, 0);
        if (pipe(pipes[member]) != 0)
            return 1;
    }
    for (member = 1; member < MEMBERS; member++)
        go_on(member, pass(member, 0, 0));
    go_on(0, pass(0, 1, 0));
    loop();
    printf("the history has %llu steps\n", (unsigned long long)l4_lock_length(&kernel).count);
    refusal = l4_lock_close(&kernel, seats, MEMBERS + 1).refusal;
    if (refusal != L4_OK)
        stop("the lock", refusal);
    puts("every seat agrees with it");
    return 0;
}
