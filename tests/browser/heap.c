// Random allocations by web/heap.c, in a memory that grows as that of a WebAssembly module does: some growths fail, and the host takes pages
// in between. After each call, blocks that were given out must hold what was written to them. Then small blocks fill the memory to its limit,
// in few growths. Prints the number of calls, or aborts.
#define _GNU_SOURCE
#include <stdio.h>
#include <stdlib.h>
#include <string.h>
#include <sys/mman.h>

// where the memory lies, and its size, in pages of 64 KiB
static const unsigned long base = 1 << 16;
static unsigned long page_count = 16;
static int fails_now;
static int growths;

static unsigned long memory_size(int memory) {
    (void)memory;
    return page_count;
}

static unsigned long memory_grow(int memory, unsigned long pages) {
    (void)memory;
    if (fails_now || page_count + pages > 1 << 14) return -1;
    page_count += pages;
    growths += 1;
    return base + page_count - pages;
}

#define __builtin_wasm_memory_size memory_size
#define __builtin_wasm_memory_grow memory_grow
#include "../../web/heap.c"

enum { BLOCKS = 400, CALLS = 300000 };
static struct { unsigned char *at; unsigned long bytes; unsigned char fill; } blocks[BLOCKS];
static unsigned long seed = 1;

static unsigned long draw(unsigned long below) {
    seed = seed * 6364136223846793005ul + 1442695040888963407ul;
    return (seed >> 33) % below;
}

static unsigned long some_bytes(void) {
    unsigned long kind = draw(100);
    return kind < 5 ? 0 : kind < 80 ? draw(300) : kind < 98 ? draw(20000) : draw(3000000);
}

static void test(int holds, const char *what) {
    if (holds) return;
    fprintf(stderr, "web/heap.c: %s\n", what);
    abort();
}

static void look(int k, unsigned long bytes) {
    for (unsigned long i = 0; i < bytes; i += bytes < 4096 ? 1 : 509) test(blocks[k].at[i] == blocks[k].fill, "a byte of a block has changed");
}

static void take(int k, struct tried it, unsigned long bytes) {
    test(it.at != 0, "a null pointer");
    if (!it.ok) return;
    test((unsigned long)it.at % 16 == 0, "a block is not aligned");
    test((unsigned long)it.at >= base * PAGE && (unsigned long)it.at + bytes <= (base + page_count) * PAGE, "a block lies outside the memory");
    blocks[k].at = it.at;
    blocks[k].bytes = bytes;
    blocks[k].fill = draw(256);
    memset(it.at, blocks[k].fill, bytes);
}

static void call(void) {
    int k = draw(BLOCKS);
    unsigned long bytes = some_bytes(), kept_bytes = blocks[k].bytes < bytes ? blocks[k].bytes : bytes;
    fails_now = draw(10) == 0;
    if (draw(1000) == 0) memory_grow(0, 1 + draw(3));
    if (!blocks[k].at) {
        take(k, rattle_alloc(bytes, 1ul << draw(5)), bytes);
        return;
    }
    look(k, blocks[k].bytes);
    if (draw(3) == 0) {
        rattle_dealloc(blocks[k].at);
        blocks[k].at = 0;
        return;
    }
    struct tried it = rattle_realloc(blocks[k].at, kept_bytes, bytes, 1);
    if (!it.ok) {
        look(k, blocks[k].bytes);
        return;
    }
    blocks[k].at = it.at;
    look(k, kept_bytes);
    take(k, it, bytes);
}

// A growth may cost as much as the memory has bytes, so there may be few: with a quarter more each time, fewer than 40 from 1 MiB to 1 GiB.
static void fill(void) {
    fails_now = growths = 0;
    while (rattle_alloc(100000, 1).ok) {}
    test(page_count == MOST_PAGES, "memory below the limit that is never used");
    test(growths < 40, "the memory grows in small steps");
}

int main(void) {
    void *memory = mmap((void *)(base * PAGE), (1ul << 14) * PAGE, PROT_READ | PROT_WRITE, MAP_PRIVATE | MAP_ANONYMOUS | MAP_NORESERVE | MAP_FIXED_NOREPLACE, -1, 0);
    test(memory == (void *)(base * PAGE), "no memory for the test");
    for (int i = 0; i < CALLS; i += 1) call();
    fill();
    test(!rattle_alloc(1ul << 50, 1).ok && !rattle_alloc(-1ul, 1).ok, "a block that no memory has");
    printf("%d calls\n", CALLS);
    return 0;
}
