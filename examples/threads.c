/* Four threads of the program share one locked kernel. Each makes the calls of one L4 thread, and they pass a number round in a ring: each
 * receives it from the thread before, adds 1, and sends it to the next one. At the end the lock is closed, which confirms that the history
 * agrees with the replies that every seat got.
 *
 * Build it with: cc threads.c -pthread $(pkg-config --cflags --libs l4) */
#include <l4.h>
#include <pthread.h>
#include <stdio.h>
#include <stdlib.h>

#define MEMBERS 4
#define ROUNDS 100
#define FIRST 3 /* the members are the L4 threads 3 to 6 */

/* A locked kernel has no lock inside. The mutex protects the handle, and a thread whose call waits sleeps on the condition of its seat. */
static l4_lock kernel = L4_EMPTY;
static pthread_mutex_t mutex = PTHREAD_MUTEX_INITIALIZER;
static pthread_cond_t ended[FIRST + MEMBERS];

/* Returns the id of the thread with this number, version 1. */
static uint32_t id(uint32_t number) {
    return number << 14 | 1;
}

static void stop(const char *where, uint32_t refusal) {
    char text[160];
    l4_refusal_text(refusal, text, sizeof text);
    fprintf(stderr, "%s: %s\n", where, text);
    exit(1);
}

/* Wakes the seats whose calls ended in the entries from this one on. */
static void wake(uint64_t number) {
    uint32_t threads[L4_MAX_THREADS];
    uint64_t place, count = l4_lock_ended(&kernel, (size_t)number, threads, L4_MAX_THREADS).count;
    for (place = 0; place < count; place++)
        pthread_cond_signal(&ended[threads[place]]);
}

/* Makes a call of the seat's thread, and returns its reply, which another thread's call may have to bring about first. */
static l4_reply make(uint32_t seat, const l4_call *call, const uint32_t *words, size_t count) {
    l4_seated entered;
    l4_reply reply;
    uint64_t before;
    pthread_mutex_lock(&mutex);
    before = l4_lock_length(&kernel).count;
    entered = l4_lock_enter(&kernel, seat, call, words, count);
    if (entered.refusal != L4_OK)
        stop("a call was refused", entered.refusal);
    reply = entered.reply;
    wake(before);
    while (reply.kind == L4_NONE) {
        pthread_cond_wait(&ended[seat], &mutex);
        reply = l4_lock_take(&kernel, seat);
    }
    pthread_mutex_unlock(&mutex);
    return reply;
}

/* Sends the number to the next member unless it is 0, then receives one from the member before unless this is the last call. */
static uint32_t pass(uint32_t member, uint32_t number, int is_last) {
    const uint32_t words[2] = {1, number}; /* the tag: one untyped word */
    l4_call call = {0};
    l4_reply reply;
    call.kind = L4_IPC;
    if (number != 0)
        call.to = id(FIRST + (member + 1) % MEMBERS);
    if (!is_last)
        call.from = id(FIRST + (member + MEMBERS - 1) % MEMBERS);
    reply = make(FIRST + member, &call, words, number != 0 ? 2 : 0);
    return reply.word_count == 1 ? reply.words[0] : 0;
}

static void *run(void *place) {
    uint32_t member = *(const uint32_t *)place, number, round;
    if (member == 0) {
        for (number = 1, round = 0; round < ROUNDS; round++)
            number = pass(member, number, 0) + 1;
        printf("the number is %u\n", number - 1);
    } else {
        number = pass(member, 0, 0) + 1;
        for (round = 1; round < ROUNDS; round++)
            number = pass(member, number, 0) + 1;
        pass(member, number, 1);
    }
    return NULL;
}

int main(void) {
    uint32_t seats[MEMBERS + 1] = {2}, places[MEMBERS], member, refusal = l4_lock_new(&kernel, 16);
    pthread_t threads[MEMBERS];
    if (refusal != L4_OK)
        stop("no kernel", refusal);
    for (member = 0; member < FIRST + MEMBERS; member++)
        pthread_cond_init(&ended[member], NULL);
    l4_lock_give(&kernel, 2); /* root, which creates the members */
    for (member = 0; member < MEMBERS; member++) {
        l4_call create = {0};
        create.kind = L4_CREATE;
        create.id = create.space = id(FIRST + member); /* in a space of its own */
        seats[member + 1] = FIRST + member;
        l4_lock_give(&kernel, FIRST + member);
        make(2, &create, NULL, 0);
    }
    for (member = 0; member < MEMBERS; member++) {
        places[member] = member;
        if (pthread_create(&threads[member], NULL, run, &places[member]) != 0)
            return 1;
    }
    for (member = 0; member < MEMBERS; member++)
        pthread_join(threads[member], NULL);
    printf("the history has %llu steps\n", (unsigned long long)l4_lock_length(&kernel).count);
    refusal = l4_lock_close(&kernel, seats, MEMBERS + 1).refusal;
    if (refusal != L4_OK)
        stop("the lock", refusal);
    puts("every seat agrees with it");
    return 0;
}
