/* Two threads of the program exchange messages through one locked kernel, while IDLE others wait in a receive. Each seat has a condition
 * variable, and a call wakes the seats whose calls ended. usage: seats IDLE ROUNDS. Prints the round trips per second. */
#define _XOPEN_SOURCE 600
#include <l4.h>
#include <pthread.h>
#include <stdio.h>
#include <stdlib.h>
#include <time.h>
#include <unistd.h>

enum { CLIENT = 3, SERVER = 4, FIRST_IDLE = 5 };
static l4_lock kernel = L4_EMPTY;
static pthread_mutex_t mutex = PTHREAD_MUTEX_INITIALIZER;
static pthread_cond_t ended[L4_MAX_THREADS + 1];
static uint32_t rounds;

static uint32_t id(uint32_t number) {
    return l4_id(number, 1);
}

/* Makes a call of the seat's thread, wakes the seats whose calls it ended, and waits until it has ended itself. */
static void make(uint32_t seat, const l4_call *call, size_t count) {
    static const uint32_t words[2] = {1, 1};
    l4_seated entered;
    l4_reply reply;
    uint64_t number, place, woken;
    uint32_t threads[L4_MAX_THREADS];
    pthread_mutex_lock(&mutex);
    number = l4_lock_length(&kernel).count;
    entered = l4_lock_enter(&kernel, seat, call, words, count);
    if (entered.refusal != L4_OK)
        exit(1);
    woken = l4_lock_ended(&kernel, (size_t)number, threads, L4_MAX_THREADS).count;
    for (place = 0; place < woken; place++)
        if (threads[place] != seat)
            pthread_cond_signal(&ended[threads[place]]);
    for (reply = entered.reply; reply.kind == L4_NONE; reply = l4_lock_take(&kernel, seat))
        pthread_cond_wait(&ended[seat], &mutex);
    pthread_mutex_unlock(&mutex);
}

static void ipc(uint32_t seat, uint32_t to, uint32_t from) {
    l4_call call = {0};
    call.kind = L4_IPC;
    call.to = to;
    call.from = from;
    make(seat, &call, to == 0 ? 0 : 2);
}

static void *wait_for_root(void *seat) {
    ipc(*(const uint32_t *)seat, 0, id(2));
    return NULL;
}

static void *serve(void *none) {
    uint32_t round;
    ipc(SERVER, 0, L4_ANYTHREAD);
    for (round = 1; round <= rounds; round++)
        ipc(SERVER, id(CLIENT), round < rounds ? L4_ANYTHREAD : 0);
    return none;
}

static double now(void) {
    struct timespec time;
    clock_gettime(CLOCK_MONOTONIC, &time);
    return (double)time.tv_sec + (double)time.tv_nsec / 1e9;
}

int main(int count, char **words) {
    static uint32_t seats[L4_MAX_THREADS + 1];
    static pthread_t idle[L4_MAX_THREADS + 1];
    uint32_t number, last, round;
    pthread_t server;
    double start;
    if (count != 3)
        return 2;
    last = FIRST_IDLE + (uint32_t)atoi(words[1]);
    rounds = (uint32_t)atoi(words[2]);
    if (last > L4_MAX_THREADS || l4_lock_new(&kernel, 16) != L4_OK)
        return 1;
    for (number = 0; number <= L4_MAX_THREADS; number++)
        pthread_cond_init(&ended[number], NULL);
    l4_lock_give(&kernel, 2);
    for (number = CLIENT; number < last; number++) {
        l4_call create = {0};
        create.kind = L4_CREATE;
        create.id = create.space = id(number);
        pthread_mutex_lock(&mutex);
        l4_lock_give(&kernel, number);
        pthread_mutex_unlock(&mutex);
        make(2, &create, 0);
        seats[number] = number;
        if (number >= FIRST_IDLE && pthread_create(&idle[number], NULL, wait_for_root, &seats[number]) != 0)
            return 1;
    }
    usleep(200000);
    start = now();
    if (pthread_create(&server, NULL, serve, NULL) != 0)
        return 1;
    for (round = 0; round < rounds; round++)
        ipc(CLIENT, id(SERVER), id(SERVER));
    printf("%.0f\n", rounds / (now() - start));
    pthread_join(server, NULL);
    for (number = FIRST_IDLE; number < last; number++) {
        ipc(2, id(number), 0);
        pthread_join(idle[number], NULL);
    }
    l4_lock_free(&kernel);
    return 0;
}
