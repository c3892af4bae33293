/* Writes a kernel to a checkpoint and reads it back: both continue with the same answers, each prefix and each altered byte is refused, and
 * each allocation is made to fail in turn. Link it with --wrap=malloc, --wrap=realloc and --wrap=free. */
#include <l4.h>
#include <stdio.h>
#include <stdlib.h>
#include <string.h>

enum { FRAMES = 128, ENTRIES = 1000 };

static int failures = 0;

static void expect(int holds, const char *what, int line) {
    if (!holds) {
        printf("line %d: %s\n", line, what);
        failures++;
    }
}

#define EXPECT(claim) expect((claim) ? 1 : 0, #claim, __LINE__)

/* ALLOCATIONS */

void *__real_malloc(size_t size);
void *__real_realloc(void *old, size_t size);
void __real_free(void *old);
void *__wrap_malloc(size_t size);
void *__wrap_realloc(void *old, size_t size);
void __wrap_free(void *old);

/* The number of blocks that are allocated, the allocations since fail_at was called, and the first and the last of them that fail. */
static long blocks = 0, asked = 0, first_failing = 0, last_failing = 0;

static int fails(void) {
    asked++;
    return asked >= first_failing && asked <= last_failing;
}

/* Makes the allocation with this number fail, counted from now on, and as many after it as `more` says. With 0 and 0, none fails. */
static void fail_at(long number, long more) {
    asked = 0;
    first_failing = number;
    last_failing = number + more;
}

void *__wrap_malloc(size_t size) {
    void *made = fails() ? NULL : __real_malloc(size);
    blocks += made != NULL;
    return made;
}

void *__wrap_realloc(void *old, size_t size) {
    void *made = fails() ? NULL : __real_realloc(old, size);
    blocks += made != NULL && old == NULL;
    return made;
}

void __wrap_free(void *old) {
    blocks -= old != NULL;
    __real_free(old);
}

/* KERNELS */

static l4_call kind(uint32_t which) {
    l4_call call;
    memset(&call, 0, sizeof call);
    call.kind = which;
    return call;
}

static l4_call create(uint32_t number, uint32_t space, uint32_t pager) {
    l4_call call = kind(L4_CREATE);
    call.id = l4_id(number, 1);
    call.space = l4_id(space, 1);
    call.pager = l4_id(pager, 1);
    return call;
}

static l4_call receive(uint32_t window) {
    l4_call call = kind(L4_IPC);
    call.from = L4_ANYTHREAD;
    call.acceptor = window;
    return call;
}

static l4_call send(uint32_t number, uint32_t timeout) {
    l4_call call = kind(L4_IPC);
    call.to = l4_id(number, 1);
    call.timeouts = l4_timeouts(timeout, 0);
    return call;
}

static void start(l4_kernel *kernel, uint32_t thread, l4_call call, const uint32_t *words, size_t count) {
    EXPECT(l4_start(kernel, thread, &call, words, count).refusal == L4_OK);
}

/* Threads 3 and 4 share space 2, and thread 5 has space 3. sigma0's page at byte 0x10000 was mapped to 0x20000 in space 2, and from there to
 * 0x30000 in root's space. Then thread 3 waits for any message, 4 waits to send to root, 5 has a page fault whose message its pager 3 can get, and sigma0's send
 * to root can expire. */
static void begin(l4_kernel *kernel, uint32_t page_bytes) {
    static const uint32_t lends[3] = {0x80, 0x20008, 0x100c7}, shares[3] = {0x80, 0x30008, 0x200c6}, says[3] = {2, 7, 9};
    l4_call fault = kind(L4_FAULT);
    fault.address = 0x50123;
    fault.ip = 0x1000;
    fault.access = L4_READ;
    EXPECT(l4_boot_sized(kernel, FRAMES, page_bytes) == L4_OK);
    start(kernel, 2, create(3, 3, 2), NULL, 0);
    start(kernel, 2, create(4, 3, 3), NULL, 0);
    start(kernel, 2, create(5, 5, 3), NULL, 0);
    start(kernel, 3, receive(L4_COMPLETE_FPAGE), NULL, 0);
    start(kernel, 1, send(3, 0), lends, 3);
    EXPECT(l4_next(kernel).outcome == L4_DELIVERED);
    start(kernel, 2, receive(L4_COMPLETE_FPAGE), NULL, 0);
    start(kernel, 3, send(2, 0), shares, 3);
    EXPECT(l4_next(kernel).outcome == L4_DELIVERED && l4_next(kernel).kind == L4_NONE);
    start(kernel, 3, receive(L4_COMPLETE_FPAGE), NULL, 0);
    start(kernel, 4, send(2, 0), says, 3);
    start(kernel, 5, fault, NULL, 0);
    start(kernel, 1, send(2, L4_ZERO_TIMEOUT), says, 3);
}

static int same_state(l4_kernel *one, l4_kernel *other, uint32_t thread) {
    l4_state here = l4_state_of(one, thread), there = l4_state_of(other, thread);
    l4_reply got = l4_reply_of(one, thread), gets = l4_reply_of(other, thread);
    return memcmp(&here, &there, sizeof here) == 0 && memcmp(&got, &gets, sizeof got) == 0;
}

static int same_pages(l4_kernel *one, l4_kernel *other, uint64_t space) {
    l4_place here[8], there[8];
    uint32_t page;
    memset(here, 0, sizeof here);
    memset(there, 0, sizeof there);
    for (page = 0; page < 400; page++) {
        l4_mapping first = l4_mapping_of(one, space, page), second = l4_mapping_of(other, space, page);
        if (memcmp(&first, &second, sizeof first) != 0 || l4_descendants(one, space, page, here, 8).count != l4_descendants(other, space, page, there, 8).count
            || memcmp(here, there, sizeof here) != 0)
            return 0;
    }
    return 1;
}

/* Both kernels give the same answers to all queries. */
static int are_same(l4_kernel *one, l4_kernel *other) {
    l4_step here = l4_enabled(one), there = l4_enabled(other);
    int same = memcmp(&here, &there, sizeof here) == 0 && l4_page_size_of(one).page_bytes == l4_page_size_of(other).page_bytes;
    uint64_t space;
    uint32_t thread;
    for (thread = 0; thread < 8; thread++)
        same = same && same_state(one, other, thread) && l4_next_thread(one, thread).thread == l4_next_thread(other, thread).thread;
    for (space = 0; space < 6; space++)
        same = same && same_pages(one, other, space) && l4_next_space(one, space).space == l4_next_space(other, space).space;
    return same;
}

/* Both kernels execute their next steps, with the same results. Returns how many there were. */
static int go_on(l4_kernel *one, l4_kernel *other) {
    int count = 0;
    for (;;) {
        l4_step here = l4_next(one), there = l4_next(other);
        EXPECT(memcmp(&here, &there, sizeof here) == 0 && are_same(one, other));
        if (here.kind == L4_NONE)
            return count;
        count++;
    }
}

/* Both kernels go on: the fault's message comes to thread 3 and sigma0's send expires; root receives from thread 4; thread 3 answers the
 * fault with a page; a thread is created in a new space; and root takes its page back from all spaces below. */
static void continue_both(l4_kernel *one, l4_kernel *other, uint32_t page_bytes) {
    static const uint32_t answer[3] = {0x80, 0x50008, 0x200c4}, all[1] = {0x10 | 7};
    l4_kernel *kernels[2];
    l4_call unmap = kind(L4_UNMAP);
    int which;
    kernels[0] = one;
    kernels[1] = other;
    EXPECT(go_on(one, other) == 2);
    for (which = 0; which < 2; which++) {
        EXPECT(l4_reply_of(kernels[which], 3).from == l4_id(5, 1) && l4_reply_of(kernels[which], 1).error == 2);
        start(kernels[which], 2, receive(0), NULL, 0);
    }
    EXPECT(go_on(one, other) == 1);
    for (which = 0; which < 2; which++) {
        EXPECT(l4_reply_of(kernels[which], 2).words[1] == 9);
        start(kernels[which], 3, send(5, 0), answer, 3);
        start(kernels[which], 2, create(6, 6, 1), NULL, 0);
    }
    EXPECT(go_on(one, other) == 1);
    for (which = 0; which < 2; which++) {
        EXPECT(l4_mapping_of(kernels[which], 3, 0x50000 / page_bytes).there == 1 && l4_space_of(kernels[which], 6).space == 4);
        start(kernels[which], 1, unmap, all, 1);
        EXPECT(l4_mapping_of(kernels[which], 3, 0x50000 / page_bytes).there == 0 && l4_mapping_of(kernels[which], 1, 0x30000 / page_bytes).there == 0);
    }
    EXPECT(go_on(one, other) == 0);
}

/* TESTS */

/* The bytes are not a checkpoint, the handle stays empty, and no block is left. */
static int is_refused(const uint8_t *bytes, size_t length) {
    l4_kernel kernel = L4_EMPTY;
    long before = blocks;
    l4_checkpoint told = l4_checkpoint_read(&kernel, bytes, length);
    return told.refusal == L4_B6 && told.fault >= L4_CHECKPOINT_MAGIC && told.fault <= L4_CHECKPOINT_STATE && told.position <= length && told.entries == 0
        && told.frames == 0 && told.reserved == 0 && l4_next(&kernel).refusal == L4_B1 && blocks == before;
}

static void refuses(uint8_t *bytes, size_t length) {
    size_t at;
    for (at = 0; at < length; at++)
        EXPECT(is_refused(bytes, at));
    for (at = 0; at < length; at += 5) {
        bytes[at] ^= (uint8_t)(1 << at % 8);
        EXPECT(is_refused(bytes, length));
        bytes[at] ^= (uint8_t)(1 << at % 8);
    }
}

/* A write whose Nth allocation fails writes nothing, and one without a failure writes the bytes. */
static void lacks_to_write(l4_kernel *kernel, const uint8_t *bytes, size_t length) {
    uint8_t *out = malloc(length);
    long number, before = blocks;
    int failed = 1;
    for (number = 1; failed; number++) {
        l4_count told;
        memset(out, 0xaa, length);
        fail_at(number, 0);
        told = l4_checkpoint_write(kernel, FRAMES, ENTRIES, out, length);
        failed = asked >= number;
        fail_at(0, 0);
        EXPECT(blocks == before);
        if (failed)
            EXPECT(told.refusal == L4_NO_MEMORY && told.count == 0 && out[0] == 0xaa && out[length - 1] == 0xaa);
        else
            EXPECT(told.refusal == L4_OK && told.count == length && memcmp(out, bytes, length) == 0);
    }
    EXPECT(number > 3);
    free(out);
}

/* Reads the checkpoint while the allocation with this number fails, and as many after it as `more` says. Returns whether all of them failed. A
 * refused read leaves the handle empty, and any other has read the kernel. */
static int read_lacking(l4_kernel *kernel, const uint8_t *bytes, size_t length, long number, long more, l4_checkpoint *told) {
    l4_kernel made = L4_EMPTY;
    long before = blocks;
    int failed;
    fail_at(number, more);
    *told = l4_checkpoint_read(&made, bytes, length);
    failed = asked >= number + more;
    fail_at(0, 0);
    if (told->refusal == L4_NO_MEMORY)
        EXPECT(told->fault == 0 && told->position == 0 && told->entries == 0 && told->frames == 0 && blocks == before);
    else
        EXPECT(told->refusal == L4_OK && told->frames == FRAMES && told->entries == ENTRIES && are_same(kernel, &made));
    EXPECT(l4_enabled(&made).refusal == (told->refusal == L4_OK ? L4_OK : L4_B1));
    l4_free(&made);
    return failed;
}

/* A read whose Nth allocation fails is refused, or mappings that found no memory on one path took another, for which a further allocation
 * has to fail. There are three paths: for one page, for tables and for all other messages. */
static void lacks_to_read(l4_kernel *kernel, const uint8_t *bytes, size_t length) {
    long number, before = blocks;
    int failed = 1;
    for (number = 1; failed; number++) {
        l4_checkpoint told;
        long more = 0;
        failed = read_lacking(kernel, bytes, length, number, 0, &told);
        while (failed && told.refusal == L4_OK && more < 2)
            EXPECT(read_lacking(kernel, bytes, length, number, ++more, &told));
        EXPECT(told.refusal == (failed ? L4_NO_MEMORY : L4_OK));
    }
    EXPECT(number > 8 && blocks == before);
}

static void of_page_size(uint32_t page_bytes) {
    static uint8_t small[16];
    l4_kernel kernel = L4_EMPTY, made = L4_EMPTY;
    l4_checkpoint told;
    uint8_t *bytes;
    size_t length;
    begin(&kernel, page_bytes);
    length = (size_t)l4_checkpoint_write(&kernel, FRAMES, ENTRIES, NULL, 0).count;
    bytes = malloc(length);
    EXPECT(l4_checkpoint_write(&kernel, FRAMES, ENTRIES, bytes, length).count == length);
    memset(small, 0xaa, sizeof small);
    EXPECT(l4_checkpoint_write(&kernel, FRAMES, ENTRIES, small, 8).count == length && memcmp(small, bytes, 8) == 0 && small[8] == 0xaa);
    told = l4_checkpoint_read(&made, bytes, length);
    EXPECT(told.refusal == L4_OK && told.frames == FRAMES && told.entries == ENTRIES && told.fault == 0 && told.position == 0 && told.reserved == 0);
    EXPECT(l4_page_size_of(&made).page_bytes == page_bytes && are_same(&kernel, &made));
    refuses(bytes, length);
    lacks_to_write(&kernel, bytes, length);
    lacks_to_read(&kernel, bytes, length);
    EXPECT(l4_checkpoint_read(&made, bytes, length).refusal == L4_B2 && l4_checkpoint_read(&made, NULL, 0).refusal == L4_B2 && are_same(&kernel, &made));
    free(bytes);
    continue_both(&kernel, &made, page_bytes);
    l4_free(&kernel);
    l4_free(&made);
}

/* Numbers that no checkpoint has are refused before anything is written. */
static void numbers(void) {
    uint8_t out[8] = {0};
    l4_kernel kernel = L4_EMPTY;
    EXPECT(l4_checkpoint_write(&kernel, 0, SIZE_MAX, out, 8).refusal == L4_B1);
    EXPECT(l4_boot(&kernel, 1) == L4_OK);
    EXPECT(l4_checkpoint_write(&kernel, 0, SIZE_MAX, out, 8).refusal == L4_K6 && l4_checkpoint_write(&kernel, L4_MAX_FRAMES + 1, 0, out, 8).refusal == L4_K6);
    EXPECT(l4_checkpoint_write(&kernel, 1, ((size_t)1 << 63) + 1, out, 8).refusal == L4_B7 && out[0] == 0);
    EXPECT(l4_checkpoint_write(&kernel, L4_MAX_FRAMES, (size_t)1 << 63, out, 8).refusal == L4_OK && memcmp(out, "LCP4", 4) == 0);
    l4_free(&kernel);
}

int main(void) {
    of_page_size(L4_PAGE_BYTES);
    of_page_size(L4_SMALL_PAGE_BYTES);
    numbers();
    EXPECT(blocks == 0);
    return failures == 0 ? 0 : 1;
}
