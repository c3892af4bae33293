/* Sends messages and pages over a locked kernel, and hands out its entries in segments, each of which is checked: it begins where the one
 * before it ended, and every entry gets the recorded answer on a second kernel, which replays all segments from boot. At the end the second
 * kernel has the same threads, replies and mappings as the locked one.
 *
 *     soak [CALLS [FILE]]
 *
 * FILE gets the files of all segments, one after another. */
#include <l4.h>
#include <stdio.h>
#include <stdlib.h>
#include <string.h>

#define FRAMES 256
#define SENDER 1
#define RECEIVER 2
#define EACH 100000

static void must(int holds, const char *what) {
    if (!holds) {
        fprintf(stderr, "soak: %s\n", what);
        exit(1);
    }
}

/* Executes the step of an entry, and compares the answer. */
static void replay(l4_kernel *kernel, const l4_entry *entry) {
    l4_answer answer;
    uint32_t place;
    if (entry->kind == L4_START) {
        answer = l4_start(kernel, entry->thread, &entry->call, entry->words, entry->word_count);
    } else if (entry->kind == L4_TRANSFER) {
        answer = l4_transfer(kernel, entry->thread, entry->receiver);
    } else {
        answer = l4_expire(kernel, entry->thread);
    }
    must(answer.refusal == L4_OK && answer.outcome == entry->outcome && answer.ended_count == entry->ended_count, "an entry gets another answer");
    for (place = 0; place < entry->ended_count; place++) {
        must(answer.ended[place] == entry->ended[place], "another call ended");
    }
}

/* Writes the file of a segment behind those before it. */
static void save(l4_segment *segment, FILE *file) {
    size_t room = (size_t)l4_segment_bytes(segment, NULL, 0).count;
    uint8_t *bytes = (uint8_t *)malloc(room);
    must(bytes != NULL && l4_segment_bytes(segment, bytes, room).refusal == L4_OK, "no memory for the file of a segment");
    must(fwrite(bytes, 1, room, file) == room, "the file cannot be written");
    free(bytes);
}

/* Hands out a segment, checks it, writes it to the file if there is one, and returns the number of the first entry after it. */
static uint64_t hand_out(l4_lock *lock, l4_kernel *kernel, FILE *file, uint64_t next) {
    l4_segment segment = L4_EMPTY;
    l4_entry entry;
    uint64_t end;
    must(l4_lock_hand_out(lock, &segment) == L4_OK, "no segment");
    must(l4_segment_first(&segment).count == next, "a segment begins elsewhere");
    end = next + l4_segment_length(&segment).count;
    for (; next < end; next++) {
        entry = l4_segment_entry(&segment, next);
        must(entry.kind != L4_NONE, "an entry is missing");
        replay(kernel, &entry);
    }
    if (file != NULL) {
        save(&segment, file);
    }
    l4_segment_free(&segment);
    return end;
}

/* Compares the second kernel with the locked one: what each thread is doing, its last reply, and the mappings of each space. */
static void compare(l4_lock *lock, l4_kernel *kernel) {
    l4_thread thread = l4_next_thread(kernel, 0);
    l4_space space = l4_next_space(kernel, 0);
    for (; thread.there; thread = l4_next_thread(kernel, thread.thread + 1)) {
        l4_state state = l4_state_of(kernel, thread.thread), locked = l4_lock_state_of(lock, thread.thread);
        l4_reply reply = l4_reply_of(kernel, thread.thread), taken = l4_lock_reply_of(lock, thread.thread);
        must(memcmp(&state, &locked, sizeof state) == 0, "a thread is doing something else");
        must(memcmp(&reply, &taken, sizeof reply) == 0, "a thread has another reply");
    }
    for (; space.there; space = l4_next_space(kernel, space.space + 1)) {
        l4_page page = l4_next_page(kernel, space.space, 0);
        must(page.page == l4_lock_next_page(lock, space.space, 0).page, "another page is the first one");
        for (; page.there; page = l4_next_page(kernel, space.space, page.page + 1)) {
            l4_mapping mapping = l4_mapping_of(kernel, space.space, page.page), locked = l4_lock_mapping_of(lock, space.space, page.page);
            must(memcmp(&mapping, &locked, sizeof mapping) == 0, "a mapping differs");
        }
    }
}

/* The memory that the process has in use, in pages of the system. */
static unsigned long resident(void) {
    unsigned long size = 0, pages = 0;
    FILE *file = fopen("/proc/self/statm", "r");
    must(file != NULL && fscanf(file, "%lu %lu", &size, &pages) == 2, "no /proc/self/statm");
    fclose(file);
    return pages;
}

/* The receiver waits, and the sender sends it the number of the call and maps a page. */
static void exchange(l4_lock *lock, const l4_call *receiving, const l4_call *sending, unsigned long long call) {
    uint32_t words[5] = {l4_tag(0, 2, 2), (uint32_t)call, 0, 0, 0};
    l4_map_item(words + 3, (uint32_t)(call / 2 % 1024) * L4_PAGE_BYTES, l4_fpage_of_page((uint32_t)(call / 2 % FRAMES), L4_READ | L4_WRITE));
    must(l4_lock_enter(lock, RECEIVER, receiving, words, 0).reply.kind == L4_NONE, "a receive does not wait");
    must(l4_lock_enter(lock, SENDER, sending, words, 5).reply.kind == L4_REPLY_IPC, "a message is not sent");
    must(l4_lock_take(lock, RECEIVER).words[0] == (uint32_t)call, "another message arrived");
}

int main(int argc, char **argv) {
    unsigned long long calls = argc > 1 ? strtoull(argv[1], NULL, 10) : 1000000, call;
    uint64_t next = 0;
    FILE *file = argc > 2 ? fopen(argv[2], "wb") : NULL;
    l4_lock lock = L4_EMPTY;
    l4_kernel kernel = L4_EMPTY;
    l4_call receiving, sending;
    memset(&receiving, 0, sizeof receiving);
    receiving.kind = L4_IPC;
    receiving.from = L4_ANYTHREAD;
    receiving.acceptor = l4_acceptor(L4_COMPLETE_FPAGE);
    memset(&sending, 0, sizeof sending);
    sending.kind = L4_IPC;
    sending.to = L4_ROOT_ID;
    must(argc <= 2 || file != NULL, "the file cannot be opened");
    must(l4_lock_new(&lock, FRAMES) == L4_OK && l4_boot(&kernel, FRAMES) == L4_OK, "no kernel");
    must(l4_lock_give(&lock, SENDER) == L4_OK && l4_lock_give(&lock, RECEIVER) == L4_OK, "no seat");
    for (call = 0; call < calls; call += 2) {
        exchange(&lock, &receiving, &sending, call);
        if ((call + 2) % EACH == 0) {
            next = hand_out(&lock, &kernel, file, next);
        }
        if (call + 2 == calls / 100 || (call + 2) % (calls / 10) == 0) {
            printf("%llu calls, %lu pages in use\n", call + 2, resident());
            fflush(stdout);
        }
    }
    next = hand_out(&lock, &kernel, file, next);
    must(file == NULL || fclose(file) == 0, "the file cannot be written");
    must(next == l4_lock_length(&lock).count && next == calls / 2 * 3, "entries are missing");
    must(l4_lock_seat_of(&lock, RECEIVER).receipts == calls / 2, "receipts are missing");
    compare(&lock, &kernel);
    printf("%llu entries\n", (unsigned long long)next);
    l4_free(&kernel);
    l4_lock_free(&lock);
    return 0;
}
