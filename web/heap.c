// The three functions that allocate and free memory for the proved code, for WebAssembly with a 64-bit memory. No proof covers this file.
//
// A block has 2^k bytes, and its first 16 bytes hold k. A freed block is kept for the next request of its size. All memory comes from
// memory.grow. The host gets its memory in the same way, so the two never overlap.
typedef unsigned long size;
typedef unsigned char byte;

// The result of an allocation, as the proved code expects it: whether there is memory, and a pointer, which is never null.
struct tried { size ok; void *at; };

enum { HEAD = 16, LEAST = 5, MOST = 40, PAGE = 1 << 16, STEP = 16, MOST_PAGES = 1 << 14 };
static const size NONE = -1;  // what memory.grow returns if there is no memory

static void *kept[MOST + 1];  // the freed blocks of 2^k bytes: each holds the address of the next one behind its head
static byte *next, *end;      // memory that has not been given out yet
static byte nothing[16];

static size *head(void *at) { return (size *)((byte *)at - HEAD); }
static void **link(void *at) { return (void **)at; }

// Returns the k of a block with room for this number of bytes, or more than MOST.
static size class_of(size bytes) {
    if (bytes > (1ul << MOST) - HEAD) return MOST + 1;
    size k = 64 - __builtin_clzl(bytes + HEAD - 1);
    return k < LEAST ? LEAST : k;
}

// Grows the memory, up to 1 GiB: a script that needs more is refused before the browser runs out of memory.
static size grow(size pages) {
    if (__builtin_wasm_memory_size(0) + pages > MOST_PAGES) return NONE;
    return __builtin_wasm_memory_grow(0, pages);
}

static size larger(size one, size other) { return one > other ? one : other; }

// Grows the memory by at least this number of pages, and by a quarter of its size if it can: Firefox copies all of it each time.
static size grown(size *pages) {
    size asked = *pages, there = __builtin_wasm_memory_size(0), before;
    *pages = larger(larger(asked, STEP), there / 4);
    if (there + *pages > MOST_PAGES) *pages = larger(asked, MOST_PAGES - there);
    before = grow(*pages);
    if (before != NONE) return before;
    *pages = asked;
    return grow(asked);
}

// Makes room for this number of bytes between `next` and `end`. If the host has grown the memory meanwhile, the rest before it stays unused.
static int has_room(size bytes) {
    while ((size)(end - next) < bytes) {
        size pages = (bytes - (size)(end - next) + PAGE - 1) / PAGE, before = grown(&pages);
        if (before == NONE) return 0;
        byte *start = (byte *)(before * PAGE);
        if (start != end) next = start;
        end = start + pages * PAGE;
    }
    return 1;
}

static struct tried found(void *at) {
    struct tried it = {at != 0, at ? at : nothing};
    return it;
}

static void *block(size bytes) {
    size k = class_of(bytes);
    if (k > MOST) return 0;
    void *at = kept[k];
    if (at) {
        kept[k] = *link(at);
        return at;
    }
    if (!has_room(1ul << k)) return 0;
    at = next + HEAD;
    *head(at) = k;
    next += 1ul << k;
    return at;
}

static int is_last(void *at, size k) { return (byte *)at - HEAD + (1ul << k) == next; }

// Each alignment divides 16, and no block has 2^63 bytes.
struct tried rattle_alloc(size bytes, size align) {
    return found(block(bytes ? bytes : align));
}

void rattle_dealloc(void *at) {
    size k = *head(at);
    *link(at) = kept[k];
    kept[k] = at;
}

struct tried rattle_realloc(void *at, size used, size bytes, size align) {
    size room = bytes ? bytes : align, old = *head(at), k = class_of(room);
    if (k <= old) return found(at);
    // the last block grows in place
    size more = k > MOST ? 0 : (1ul << k) - (1ul << old);
    if (more && is_last(at, old) && has_room(more) && is_last(at, old)) {
        next += more;
        *head(at) = k;
        return found(at);
    }
    void *to = block(room);
    if (!to) return found(0);
    __builtin_memcpy(to, at, used);
    rattle_dealloc(at);
    return found(to);
}
