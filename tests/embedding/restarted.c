/* A program that is killed and restarted: it makes calls of pseudo-random threads, and writes a checkpoint after each 50th one. It begins with
 * the checkpoint in FILE if there is one, and otherwise at boot. The calls are a function of their numbers, so the last state is the same
 * however often the program was killed.
 *
 * usage: restarted FILE CALLS [KILLED]. With KILLED, the program kills itself after that many calls, when half of the checkpoint is written.
 * Prints the number of the first call to standard error, and a sum of the last checkpoint to standard output. */
#define _XOPEN_SOURCE 600
#include <l4.h>
#include <signal.h>
#include <stdio.h>
#include <stdlib.h>

#define FRAMES 64
#define EVERY 50

static l4_kernel kernel = L4_EMPTY;
static uint8_t bytes[1 << 20];

static void stop(const char *what) {
    fprintf(stderr, "restarted: %s\n", what);
    exit(1);
}

/* Returns a number below the bound that depends on the call's number and on which of its members it is. */
static uint32_t number_for(uint64_t call, uint64_t member, uint32_t bound) {
    uint64_t mixed = (call + 1) * UINT64_C(0x9E3779B97F4A7C15) + member * UINT64_C(0xBF58476D1CE4E5B9);
    mixed = (mixed ^ mixed >> 30) * UINT64_C(0x94D049BB133111EB);
    return (uint32_t)(mixed >> 33) % bound;
}

/* Makes the call with this number. It may be refused. */
static void make(uint64_t number) {
    uint32_t thread = 1 + number_for(number, 1, 7), other = l4_id(3 + number_for(number, 3, 5), 1), words[3] = {0};
    uint32_t base = number_for(number, 4, 64) * L4_PAGE_BYTES, log = 12 + number_for(number, 5, 4);
    size_t count = 0;
    l4_call call = {0};
    switch (number_for(number, 2, 8)) {
    case 0:
        thread = 2;
        call.kind = L4_CREATE;
        call.id = call.space = other;
        break;
    case 1:
        thread = 2;
        call.kind = L4_DELETE;
        call.id = other;
        break;
    case 2:
        call.kind = L4_UNMAP;
        words[count++] = l4_fpage(base >> log << log, log, 7);
        break;
    case 3:
    case 4:
        call.kind = L4_IPC;
        call.from = L4_ANYTHREAD;
        call.acceptor = L4_COMPLETE_FPAGE;
        call.timeouts = l4_timeouts(0, thread < 3 ? L4_ZERO_TIMEOUT : 0);
        break;
    default:
        thread = number_for(number, 6, 2) ? 1 : thread;
        call.kind = L4_IPC;
        call.to = l4_id(2 + number_for(number, 3, 6), 1);
        call.timeouts = l4_timeouts(L4_ZERO_TIMEOUT, 0);
        words[0] = l4_tag(0, 0, 2);
        l4_map_item(words + 1, number_for(number, 7, 64) * L4_PAGE_BYTES, l4_fpage(base >> log << log, log, 7));
        count = 3;
    }
    l4_enter(&kernel, thread, &call, words, count, NULL, 0);
}

/* Reads the checkpoint if there is one, and boots the kernel otherwise. Returns the number of the first call. */
static uint64_t begin(const char *name) {
    FILE *file = fopen(name, "rb");
    l4_checkpoint read;
    if (file == NULL) {
        if (l4_boot(&kernel, FRAMES) != L4_OK)
            stop("no kernel");
        return 0;
    }
    read = l4_checkpoint_read(&kernel, bytes, fread(bytes, 1, sizeof bytes, file));
    fclose(file);
    if (read.refusal != L4_OK || read.frames != FRAMES)
        stop("the file is not a checkpoint");
    return read.entries;
}

static size_t checkpoint(uint64_t calls) {
    l4_count written = l4_checkpoint_write(&kernel, FRAMES, (size_t)calls, bytes, sizeof bytes);
    if (written.refusal != L4_OK || written.count > sizeof bytes)
        stop("no checkpoint");
    return (size_t)written.count;
}

/* Writes the checkpoint to a new file, which then takes the place of the old one: whenever the program is killed, one of them is whole. */
static void keep(const char *name, uint64_t calls, int is_killed) {
    char other[4096];
    size_t length = checkpoint(calls);
    FILE *file;
    if (snprintf(other, sizeof other, "%s.new", name) >= (int)sizeof other || (file = fopen(other, "wb")) == NULL)
        stop("no file");
    if (is_killed) {
        fwrite(bytes, 1, length / 2, file);
        fflush(file);
        raise(SIGKILL);
    }
    if (fwrite(bytes, 1, length, file) != length || fclose(file) != 0 || rename(other, name) != 0)
        stop("the checkpoint could not be written");
}

int main(int count, char **words) {
    uint64_t call, calls, killed, sum = UINT64_C(14695981039346656037);
    size_t length, place;
    if (count < 3)
        return 2;
    calls = strtoull(words[2], NULL, 10);
    killed = count > 3 ? strtoull(words[3], NULL, 10) : UINT64_MAX;
    call = begin(words[1]);
    fprintf(stderr, "from call %llu\n", (unsigned long long)call);
    while (call < calls) {
        make(call++);
        if (call % EVERY == 0 || call == killed)
            keep(words[1], call, call == killed);
    }
    length = checkpoint(calls);
    for (place = 0; place < length; place++)
        sum = (sum ^ bytes[place]) * UINT64_C(1099511628211);
    printf("%llu bytes, sum %016llx\n", (unsigned long long)length, (unsigned long long)sum);
    l4_free(&kernel);
    return 0;
}
