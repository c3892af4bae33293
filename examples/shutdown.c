/* A client calls a server that does not receive yet: its call times out, and is made again once the server receives. At the end, the program
 * cancels the receive with which the server waits for its next call, and the server's thread returns.
 *
 * Build it with: cc shutdown.c -pthread $(pkg-config --cflags --libs l4) */
#include <errno.h>
#include <l4.h>
#include <pthread.h>
#include <stdio.h>
#include <stdlib.h>
#include <time.h>

#define CLIENT 2 /* root, which creates the server */
#define SERVER 3
#define SEATS 4
#define SEND_TIMED_OUT 2 /* ErrorCodes of the manual */
#define RECEIVE_CANCELED 7

/* A locked kernel has no lock inside. The mutex protects the handle, and a thread whose call waits sleeps on the condition of its seat. */
static l4_lock kernel = L4_EMPTY;
static pthread_mutex_t mutex = PTHREAD_MUTEX_INITIALIZER;
static pthread_cond_t ended[SEATS];

static void stop(const char *where, uint32_t refusal) {
    char text[160];
    l4_refusal_text(refusal, text, sizeof text);
    fprintf(stderr, "%s: %s\n", where, text);
    exit(1);
}

/* Wakes the seats whose calls ended in the entries from this one on. */
static void wake(uint64_t number) {
    uint32_t threads[L4_MAX_THREADS];
    uint64_t place, count = l4_lock_ended(&kernel, (size_t)number, threads, L4_MAX_THREADS).count;
    for (place = 0; place < count; place++)
        pthread_cond_signal(&ended[threads[place]]);
}

/* Returns the time that is this many milliseconds from now. */
static struct timespec after(long milliseconds) {
    struct timespec time;
    clock_gettime(CLOCK_REALTIME, &time);
    time.tv_nsec += milliseconds * 1000000;
    time.tv_sec += time.tv_nsec / 1000000000;
    time.tv_nsec %= 1000000000;
    return time;
}

/* Makes a call of the seat's thread, and returns its reply. If a limit is given and the call has not ended by then, the call times out. */
static l4_reply make(uint32_t seat, const l4_call *call, const uint32_t *words, size_t count, const struct timespec *limit) {
    l4_seated entered;
    l4_reply reply;
    uint64_t before;
    pthread_mutex_lock(&mutex);
    before = l4_lock_length(&kernel).count;
    entered = l4_lock_enter(&kernel, seat, call, words, count);
    if (entered.refusal != L4_OK)
        stop("a call was refused", entered.refusal);
    reply = entered.reply;
    wake(before);
    while (reply.kind == L4_NONE) {
        if (limit == NULL)
            pthread_cond_wait(&ended[seat], &mutex);
        else if (pthread_cond_timedwait(&ended[seat], &mutex, limit) == ETIMEDOUT)
            l4_lock_timeout(&kernel, seat); /* refused (K1) if the call has ended just now */
        reply = l4_lock_take(&kernel, seat);
    }
    pthread_mutex_unlock(&mutex);
    return reply;
}

/* Cancels the wait of a thread. While the thread runs, it has none, and the kernel refuses this with K1: so it is tried again. */
static void cancel(uint32_t thread) {
    uint32_t refusal;
    do {
        uint64_t before;
        pthread_mutex_lock(&mutex);
        before = l4_lock_length(&kernel).count;
        refusal = l4_lock_cancel(&kernel, thread);
        wake(before);
        pthread_mutex_unlock(&mutex);
    } while (refusal == L4_K1);
    if (refusal != L4_OK)
        stop("the wait goes on", refusal);
}

/* The server: doubles the number in each message, until its receive is canceled. */
static void *serve(void *answers) {
    l4_call call = {0};
    uint32_t words[2] = {1, 0}; /* the tag: one untyped word */
    l4_reply reply;
    call.kind = L4_IPC;
    call.from = L4_ANYTHREAD;
    reply = make(SERVER, &call, NULL, 0, NULL);
    while (reply.error == 0) {
        words[1] = 2 * reply.words[0];
        call.to = reply.from;
        call.timeouts = l4_timeouts(L4_ZERO_TIMEOUT, 0); /* a client that does not receive is not waited for */
        ++*(int *)answers;
        reply = make(SERVER, &call, words, 2, NULL);
    }
    if (reply.error != RECEIVE_CANCELED)
        fprintf(stderr, "the server ends with ErrorCode %u\n", (unsigned)reply.error);
    return NULL;
}

int main(void) {
    static const uint32_t words[2] = {1, 21}, seats[2] = {CLIENT, SERVER};
    l4_call create = {0}, call = {0};
    struct timespec limit;
    l4_reply reply;
    pthread_t server;
    int answers = 0;
    uint32_t seat, refusal = l4_lock_new(&kernel, 16);
    if (refusal != L4_OK)
        stop("no kernel", refusal);
    for (seat = CLIENT; seat <= SERVER; seat++) {
        pthread_cond_init(&ended[seat], NULL);
        l4_lock_give(&kernel, seat);
    }
    create.kind = L4_CREATE;
    create.id = create.space = l4_id(SERVER, 1); /* in a space of its own */
    make(CLIENT, &create, NULL, 0, NULL);

    call.kind = L4_IPC;
    call.to = call.from = l4_id(SERVER, 1);
    limit = after(10);
    reply = make(CLIENT, &call, words, 2, &limit);
    if (reply.error == SEND_TIMED_OUT)
        puts("the call timed out while it was sending");

    if (pthread_create(&server, NULL, serve, &answers) != 0)
        return 1;
    reply = make(CLIENT, &call, words, 2, NULL);
    printf("made again, it returned %u\n", (unsigned)reply.words[0]);

    cancel(SERVER);
    pthread_join(server, NULL);
    printf("the server shut down after %d call\n", answers);
    refusal = l4_lock_close(&kernel, seats, 2).refusal;
    if (refusal != L4_OK)
        stop("the lock", refusal);
    return 0;
}
