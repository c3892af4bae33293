/* Judges a kernel while it runs. The kernel is a small one with a known bug: of two senders it takes the one that came last, but L4 takes the
 * one that came first. The program passes each of its steps with its answer to the proved kernel, and stops at the first difference.
 *
 * Build it with: cc judge.c $(pkg-config --cflags --libs l4) */
#include <l4.h>
#include <stdio.h>
#include <string.h>

enum { ROOT = 2, FIRST = 3, SECOND = 4, THREADS = 5, ROOM = 700 };

/* THE SMALL KERNEL. It answers each step with the lines of a step list. */

static uint32_t queue[THREADS]; /* the threads that wait to send to root, in the order in which they came */
static uint32_t waiting;        /* how many there are */
static uint32_t sent[THREADS];  /* the word that each of them sends */

/* A thread starts to send a word to root. */
static const char *small_send(uint32_t thread, uint32_t word) {
    queue[waiting++] = thread;
    sent[thread] = word;
    return "started";
}

/* Root, which waits, gets the message of this sender. */
static void small_transfer(uint32_t sender, char answer[ROOM]) {
    snprintf(answer, ROOM, "done\n%u ipc 00000000 0 00000000\n%d ipc 00000001 0 %08x %08x\n", sender, ROOT, l4_id(sender, 1), sent[sender]);
}

/* THE JUDGE */

static l4_kernel kernel = L4_EMPTY;
static uint32_t steps; /* how many steps agreed */

/* Returns the length of the first line of a text. */
static int line_length(const char *text) {
    return (int)strcspn(text, "\n");
}

/* Prints the line at this place of an answer. */
static void print_found(const char *answer, uint64_t place) {
    for (; place > 0 && *answer != 0; place--)
        answer += line_length(answer) + (answer[line_length(answer)] == '\n');
    printf(", found %.*s\n", line_length(answer), answer);
}

/* Passes a step of the small kernel with its answer to the proved kernel. Prints the difference if there is one. */
static int agrees(const char *step, const char *answer) {
    char expected[ROOM];
    l4_judgement seen = l4_judge(&kernel, step, strlen(step), answer, strlen(answer), expected, sizeof expected);
    if (seen.verdict == L4_AGREES) {
        steps++;
        return 1;
    }
    if (seen.refusal != L4_OK)
        return 0;
    printf("%u steps agree\n%s: expected %s", steps, step, seen.length == 0 ? "no further answer" : expected);
    if (seen.verdict == L4_NOT_ENABLED && seen.enabled.kind == L4_TRANSFER)
        printf(" (enabled transfer %u %u)", seen.enabled.thread, seen.enabled.receiver);
    print_found(answer, seen.place);
    return 0;
}

/* A RUN */

static int create(uint32_t thread) {
    char step[ROOM];
    snprintf(step, sizeof step, "start %d create 0x%x 0x%x 0", ROOT, l4_id(thread, 1), L4_ROOT_ID);
    return agrees(step, "started\n2 controlled");
}

static int send(uint32_t thread, uint32_t word) {
    char step[ROOM];
    snprintf(step, sizeof step, "start %u ipc 0x%x 0 0 0 1 %u", thread, L4_ROOT_ID, word); /* a tag with one untyped word */
    return agrees(step, small_send(thread, word));
}

static int transfer(uint32_t sender) {
    char step[ROOM], answer[ROOM];
    snprintf(step, sizeof step, "transfer %u %d", sender, ROOT);
    small_transfer(sender, answer);
    return agrees(step, answer);
}

int main(void) {
    if (l4_boot(&kernel, 1) != L4_OK)
        return 1;
    if (create(FIRST) && create(SECOND) && send(FIRST, 33) && send(SECOND, 44) && agrees("start 2 ipc 0 0xffffffff 0 0", "started"))
        transfer(queue[waiting - 1]); /* the bug: it should be queue[0] */
    l4_free(&kernel);
    return 0;
}
