/* A framework of components: a pager, a memory server and two workers. Each is an L4 thread in a space of its own, and a thread of the program
 * executes it. Components share no memory but what one maps to another. Every access looks up the page in the component's space, and a page
 * that is not there is a page fault, which the pager answers. The memory server lends pages, and takes them back from all who got them.
 *
 * The framework needs no history. So it has a kernel and no locked kernel, and its memory does not grow. A mutex protects the handle. l4_enter
 * returns the threads whose calls ended, and only these are woken. After half of the rounds the framework writes a checkpoint and then loses the
 * kernel, the frames and its threads. It reads the checkpoint, and continues.
 *
 * Build it with: cc components.c -pthread $(pkg-config --cflags --libs l4) */
#include <l4.h>
#include <pthread.h>
#include <stdio.h>
#include <stdlib.h>
#include <string.h>

#define FRAMES 64
#define ROUNDS 100

enum { SIGMA0 = 1, ROOT = 2, PAGER = 3, SERVER = 4, FIRST = 5, SECOND = 6 }; /* the numbers of the L4 threads */
enum { LEND = 1, TAKE_BACK, SHARE, MEET, STOP };                             /* the labels of messages */
enum { HEAP = 16, LENT = 32, SHARED = 33 }; /* pages of a worker: four that the pager serves, one from the server, one from the other worker */

static l4_kernel kernel = L4_EMPTY;
static pthread_mutex_t mutex = PTHREAD_MUTEX_INITIALIZER;
static pthread_cond_t ended[SECOND + 1];
static int is_lost;     /* whether the threads of the program must end, although their calls wait */
static int is_restored; /* whether the kernel comes from a checkpoint, in which the servers wait for messages */
static uint8_t memory[FRAMES][L4_PAGE_BYTES];
static uint32_t first_round, last_round, faults, loans;

static void expect(int holds, const char *what) {
    if (holds)
        return;
    fprintf(stderr, "expected: %s\n", what);
    exit(1);
}

/* Waits for the reply of the thread's call. The kind is L4_NONE if the kernel was lost. */
static l4_reply wait_for_reply(uint32_t thread) {
    l4_reply reply;
    pthread_mutex_lock(&mutex);
    while ((reply = l4_reply_of(&kernel, thread)).kind == L4_NONE && !is_lost)
        pthread_cond_wait(&ended[thread], &mutex);
    pthread_mutex_unlock(&mutex);
    return reply;
}

static void wake(const uint32_t *threads, uint32_t count) {
    uint32_t i;
    for (i = 0; i < count; i++)
        pthread_cond_signal(&ended[threads[i]]);
}

/* Makes a call of a thread, wakes those whose calls it ended, and returns its reply. */
static l4_reply make(uint32_t thread, const l4_call *call, const uint32_t *words, size_t count) {
    l4_step steps[L4_MAX_THREADS];
    l4_entered entered;
    uint32_t i;
    pthread_mutex_lock(&mutex);
    entered = l4_enter(&kernel, thread, call, words, count, steps, L4_MAX_THREADS);
    expect(entered.start.refusal == L4_OK, "a call that is not refused");
    wake(entered.start.ended, entered.start.ended_count);
    for (i = 0; i < entered.step_count; i++)
        wake(steps[i].ended, steps[i].ended_count);
    pthread_mutex_unlock(&mutex);
    return wait_for_reply(thread);
}

/* Sends the words to a thread id, unless that is L4_NILTHREAD, and then receives from one, unless that is L4_NILTHREAD. */
static l4_reply ipc(uint32_t thread, uint32_t to, uint32_t from, uint32_t window, const uint32_t *words, size_t count) {
    l4_call call = {0};
    call.kind = L4_IPC;
    call.to = to;
    call.from = from;
    call.acceptor = l4_acceptor(window);
    return make(thread, &call, words, count);
}

/* Maps pages to a thread: those of this fpage, from this page of the other thread on. */
static void map_pages(uint32_t thread, uint32_t to, uint32_t fpage, uint32_t page) {
    uint32_t words[3];
    words[0] = l4_tag(SHARE, 0, 2);
    l4_map_item(words + 1, page * L4_PAGE_BYTES, fpage);
    ipc(thread, to, L4_NILTHREAD, 0, words, 3);
}

/* Takes pages from all spaces that got them from this thread, and with `own` from its own space too. */
static void unmap(uint32_t thread, uint32_t fpage, int own) {
    l4_call call = {0};
    call.kind = L4_UNMAP;
    call.control = own ? 0x40 : 0;
    make(thread, &call, &fpage, 1);
}

/* Returns the first byte of a page of a component, or NULL if it may not access it in this way even after its page fault. */
static uint8_t *touch(uint32_t thread, uint32_t page, uint32_t rights) {
    l4_mapping mapping = {0};
    int tries;
    for (tries = 0; tries < 2; tries++) {
        l4_call fault = {0};
        pthread_mutex_lock(&mutex);
        mapping = l4_mapping_of(&kernel, l4_space_of(&kernel, thread).space, page);
        pthread_mutex_unlock(&mutex);
        if (mapping.there && (mapping.rights & rights) == rights)
            return memory[mapping.frame];
        fault.kind = L4_FAULT;
        fault.address = page * L4_PAGE_BYTES;
        fault.access = rights;
        if (tries == 0)
            make(thread, &fault, NULL, 0);
    }
    return NULL;
}

/* Writes the message that a thread received to words, and returns their number. */
static size_t message_of(const l4_reply *reply, uint32_t *words) {
    words[0] = reply->tag;
    memcpy(words + 1, reply->words, reply->word_count * sizeof *words);
    return reply->word_count + 1;
}

/* Returns the first message that a server receives. In a kernel from a checkpoint, the call that receives it waits already, or has ended. */
static l4_reply first_message(uint32_t thread) {
    return is_restored ? wait_for_reply(thread) : ipc(thread, L4_NILTHREAD, L4_ANYTHREAD, 0, NULL, 0);
}

/* Returns whether a server has to end. */
static int is_last(const l4_reply *reply) {
    return reply->kind == L4_NONE || l4_tag_label(reply->tag) == STOP;
}

static void *pager(void *none) {
    static const l4_region region = {8, HEAP, 8, L4_READ | L4_WRITE}; /* the pager's pages 8 to 15 serve pages 16 to 23 */
    l4_pager table = L4_EMPTY;
    l4_reply fault;
    expect(l4_pager_new(&table) == L4_OK && l4_pager_add(&table, &region) == L4_OK, "a table");
    for (fault = first_message(PAGER); !is_last(&fault); faults++) {
        uint32_t words[L4_MAX_WORDS];
        l4_message answer = l4_pager_answer(&table, words, message_of(&fault, words));
        fault = ipc(PAGER, fault.from, L4_ANYTHREAD, 0, answer.words, answer.word_count);
    }
    l4_pager_free(&table);
    return none;
}

/* The memory server has pages 16 and 17, one for each worker. */
static void *server(void *none) {
    l4_reply request = first_message(SERVER);
    while (!is_last(&request)) {
        uint32_t words[3] = {0}, page = l4_fpage_of_page(16 + l4_id_number(request.from) - FIRST, L4_READ | L4_WRITE);
        size_t count = 1;
        if (l4_tag_label(request.tag) == LEND) {
            words[0] = l4_tag(LEND, 0, 2);
            l4_map_item(words + 1, LENT * L4_PAGE_BYTES, page);
            count = 3;
            loans++;
        } else
            unmap(SERVER, page, 0);
        request = ipc(SERVER, request.from, L4_ANYTHREAD, 0, words, count);
    }
    return none;
}

/* Sends a message that is only a label, and receives one from the same thread. */
static void ask(uint32_t thread, uint32_t to, uint32_t label, uint32_t window) {
    uint32_t tag = l4_tag(label, 0, 0);
    ipc(thread, l4_id(to, 1), l4_id(to, 1), window, &tag, 1);
}

/* A worker shows its page to the other one, or sees what the other one shows: it may read there, but not write. */
static void share(uint32_t worker, uint32_t other, int shows, uint32_t round) {
    const uint8_t *byte;
    if (shows) {
        map_pages(worker, l4_id(other, 1), l4_fpage_of_page(LENT, L4_READ), SHARED);
        ipc(worker, L4_NILTHREAD, l4_id(other, 1), 0, NULL, 0);
        return;
    }
    ipc(worker, L4_NILTHREAD, l4_id(other, 1), l4_fpage_of_page(SHARED, 0), NULL, 0);
    byte = touch(worker, SHARED, L4_READ);
    expect(byte != NULL && *byte == round, "what the other worker wrote");
    expect(touch(worker, SHARED, L4_WRITE) == NULL, "a page that may only be read");
    ipc(worker, l4_id(other, 1), L4_NILTHREAD, 0, &(uint32_t){0}, 1);
}

static void work(uint32_t worker, uint32_t other, uint32_t round) {
    uint32_t heap = HEAP + (worker - FIRST) * 4 + round % 4, tag = l4_tag(MEET, 0, 0);
    uint8_t *byte = touch(worker, heap, L4_WRITE);
    expect(byte != NULL, "a page from the pager");
    *byte = (uint8_t)round;
    ask(worker, SERVER, LEND, l4_fpage_of_page(LENT, 0));
    byte = touch(worker, LENT, L4_READ | L4_WRITE);
    expect(byte != NULL, "a page from the memory server");
    *byte = (uint8_t)round;
    share(worker, other, worker == FIRST, round);
    share(worker, other, worker == SECOND, round);
    ask(worker, SERVER, TAKE_BACK, 0);
    if (worker == FIRST)
        ask(worker, other, MEET, 0);
    else {
        ipc(worker, L4_NILTHREAD, l4_id(other, 1), 0, NULL, 0);
        ipc(worker, l4_id(other, 1), L4_NILTHREAD, 0, &tag, 1);
    }
    expect(touch(worker, LENT, L4_READ) == NULL && touch(worker, SHARED, L4_READ) == NULL, "no page that was taken back");
    unmap(worker, l4_fpage_of_page(heap, L4_READ | L4_WRITE | L4_EXECUTE), 1);
}

static void *run_worker(void *place) {
    uint32_t worker = *(const uint32_t *)place, round;
    for (round = first_round; round < last_round; round++)
        work(worker, worker == FIRST ? SECOND : FIRST, round);
    return NULL;
}

/* Boots the kernel, creates the components, and lets sigma0 map eight pages to the pager and two to the server. */
static void begin(void) {
    static const uint32_t fpages[2] = {8 * L4_PAGE_BYTES | 15 << 4 | 7, 16 * L4_PAGE_BYTES | 13 << 4 | 7};
    uint32_t number;
    expect(l4_boot(&kernel, FRAMES) == L4_OK, "a kernel");
    for (number = PAGER; number <= SECOND; number++) {
        l4_call create = {0};
        create.kind = L4_CREATE;
        create.id = create.space = l4_id(number, 1); /* in a space of its own */
        create.pager = number >= FIRST ? l4_id(PAGER, 1) : L4_SIGMA0_ID;
        make(ROOT, &create, NULL, 0);
    }
    for (number = PAGER; number <= SERVER; number++) {
        l4_call receive = {0};
        receive.kind = L4_IPC;
        receive.from = L4_SIGMA0_ID;
        receive.acceptor = L4_COMPLETE_FPAGE;
        expect(l4_start(&kernel, number, &receive, NULL, 0).refusal == L4_OK, "a receive");
        map_pages(SIGMA0, l4_id(number, 1), fpages[number - PAGER], number == PAGER ? 8 : 16);
    }
}

/* Executes the workers in these rounds. The servers wait for requests then, and their threads go on. */
static void run(pthread_t servers[2], uint32_t first, uint32_t last) {
    static const uint32_t workers[2] = {FIRST, SECOND};
    pthread_t threads[2];
    int i;
    first_round = first;
    last_round = last;
    expect(pthread_create(&servers[0], NULL, pager, NULL) == 0 && pthread_create(&servers[1], NULL, server, NULL) == 0, "two threads");
    for (i = 0; i < 2; i++)
        expect(pthread_create(&threads[i], NULL, run_worker, (void *)&workers[i]) == 0, "a thread");
    for (i = 0; i < 2; i++)
        pthread_join(threads[i], NULL);
}

/* Writes a checkpoint and the frames, loses all, and reads them again. */
static void restart(pthread_t servers[2]) {
    static uint8_t bytes[1 << 16], frames[FRAMES][L4_PAGE_BYTES];
    size_t length;
    uint32_t thread;
    pthread_mutex_lock(&mutex);
    length = (size_t)l4_checkpoint_write(&kernel, FRAMES, 0, bytes, sizeof bytes).count;
    expect(length > 0 && length <= sizeof bytes, "a checkpoint");
    memcpy(frames, memory, sizeof frames);
    is_lost = 1;
    for (thread = PAGER; thread <= SERVER; thread++)
        pthread_cond_signal(&ended[thread]);
    pthread_mutex_unlock(&mutex);
    pthread_join(servers[0], NULL);
    pthread_join(servers[1], NULL);
    l4_free(&kernel);
    memset(memory, 0, sizeof memory);
    expect(l4_checkpoint_read(&kernel, bytes, length).refusal == L4_OK, "the kernel of the checkpoint");
    memcpy(memory, frames, sizeof memory);
    is_lost = 0;
    is_restored = 1;
}

int main(void) {
    static const uint32_t stop[1] = {(uint32_t)STOP << 16};
    pthread_t servers[2];
    uint32_t thread;
    for (thread = 0; thread <= SECOND; thread++)
        pthread_cond_init(&ended[thread], NULL);
    begin();
    run(servers, 0, ROUNDS / 2);
    restart(servers);
    run(servers, ROUNDS / 2, ROUNDS);
    for (thread = PAGER; thread <= SERVER; thread++) {
        ipc(ROOT, l4_id(thread, 1), L4_NILTHREAD, 0, stop, 1);
        pthread_join(servers[thread - PAGER], NULL);
    }
    printf("%d rounds, with a restart between two of them\n", ROUNDS);
    printf("the pager answered %u faults\nthe memory server lent %u pages\n", faults, loans);
    l4_free(&kernel);
    return 0;
}
