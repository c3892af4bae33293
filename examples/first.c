/* Does what examples/first.script does, through the library: root creates thread 3, thread 3 receives, and thread 1 (sigma0) sends it a map
 * item, which maps page 16 with all rights to page 32 of thread 3. The program prints the mappings of thread 3's space.
 *
 * Build it with: cc first.c $(pkg-config --cflags --libs l4) */
#include <l4.h>
#include <stdio.h>

/* Returns the id of the thread with this number, version 1. */
static uint32_t id(uint32_t number) {
    return number << 14 | 1;
}

/* Starts a call, and executes the steps that follow. Returns 1 if the call was refused. */
static int enter(l4_kernel *kernel, uint32_t thread, const l4_call *call, const uint32_t *words, size_t count) {
    char text[160];
    l4_step steps[1];
    l4_entered entered = l4_enter(kernel, thread, call, words, count, steps, 1);
    if (entered.start.refusal == L4_OK)
        return 0;
    l4_refusal_text(entered.start.refusal, text, sizeof text);
    fprintf(stderr, "thread %u: %s\n", thread, text);
    return 1;
}

/* Prints the mappings of a space. */
static void show(l4_kernel *kernel, uint64_t space) {
    l4_page next = l4_next_page(kernel, space, 0);
    while (next.there) {
        l4_mapping mapping = l4_mapping_of(kernel, space, next.page);
        printf("page %u frame %u %c%c%c\n", next.page, mapping.frame, mapping.rights & L4_READ ? 'r' : '-',
               mapping.rights & L4_WRITE ? 'w' : '-', mapping.rights & L4_EXECUTE ? 'x' : '-');
        next = l4_next_page(kernel, space, next.page + 1);
    }
}

int main(void) {
    /* a message with one map item: page 16 with all rights, to page 32 */
    static const uint32_t words[3] = {0x80, 0x20008, 0x100c7};
    l4_kernel kernel = L4_EMPTY;
    l4_call create = {0}, receive = {0}, send = {0};
    int refused;
    if (l4_boot(&kernel, 256) != L4_OK)
        return 1;
    create.kind = L4_CREATE;
    create.id = create.space = id(3); /* in a new space, since space is the thread's own id */
    receive.kind = L4_IPC;
    receive.from = L4_ANYTHREAD;
    receive.acceptor = 0x10; /* pages may come anywhere in the space */
    send.kind = L4_IPC;
    send.to = id(3);
    refused = enter(&kernel, 2, &create, words, 0) || enter(&kernel, 3, &receive, words, 0) || enter(&kernel, 1, &send, words, 3);
    if (!refused)
        show(&kernel, l4_space_of(&kernel, 3).space);
    l4_free(&kernel);
    return refused;
}
