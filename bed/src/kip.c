/* The kernel interface page. All spaces share its frame, and each has it at an address of its own. */
#include "bed.h"
#include <string.h>

/* Offsets of words in the page; include/l4/kip.h has them for programs. */
enum {
    MAGIC = 0x00,
    API_VERSION = 0x04,
    API_FLAGS = 0x08,
    KERNEL_DESCRIPTION = 0x0c,
    MEMORY_INFO = 0x54,
    UTCB_INFO = 0xa8,
    AREA_INFO = 0xac,
    BOOT_INFO = 0xb8,
    PROCESSOR_DESCRIPTION = 0xbc,
    CLOCK_INFO = 0xc0,
    THREAD_INFO = 0xc4,
    PAGE_INFO = 0xc8,
    PROCESSOR_INFO = 0xcc
};

/* The kernel's description, its id with a version string, and two memory descriptors: all frames are conventional memory, but those from root's
 * program to the boot info belong to what the bed has loaded. */
enum { DESCRIPTION = 0x100, MEMORY = 0x140, PROCESSORS = 0x150 };
enum { MEMORY_BYTES = 8, MEMORY_COUNT = 2 };
#define CONVENTIONAL 1u
#define BOOT_LOADER_SPECIFIC 14u
#define LAST_BYTES 0x400u
#define ID_BITS 18u

static const unsigned char magic[4] = {'L', '4', 0xe6, 'K'};

/* The word that has the offset of each system call's stub. */
static const uint32_t entries[SYSTEM_CALLS] = {
    [SYSTEM_SPACE_CONTROL] = 0xd0, [SYSTEM_THREAD_CONTROL] = 0xd4, [SYSTEM_PROCESSOR_CONTROL] = 0xd8, [SYSTEM_MEMORY_CONTROL] = 0xdc,
    [SYSTEM_IPC] = 0xe0, [SYSTEM_LIPC] = 0xe4, [SYSTEM_UNMAP] = 0xe8, [SYSTEM_EXCHANGE_REGISTERS] = 0xec, [SYSTEM_CLOCK] = 0xf0,
    [SYSTEM_THREAD_SWITCH] = 0xf4, [SYSTEM_SCHEDULE] = 0xf8, [SYSTEM_KDB] = 0xfc};

static void set_word(unsigned char *page, uint32_t place, uint32_t word) {
    memcpy(page + place, &word, sizeof word);
}

/* A stub is an invalid instruction, at which the engine stops, and a return. */
static const unsigned char stub[3] = {0x0f, 0x0b, 0xc3}; /* ud2; ret */

static void write_descriptions(const struct bed *bed, unsigned char *page) {
    static const char version[] = "Lycheeyard bed";
    set_word(page, KERNEL_DESCRIPTION, DESCRIPTION);
    set_word(page, DESCRIPTION, KIP_KERNEL_ID);
    memcpy(page + DESCRIPTION + 16, version, sizeof version);
    set_word(page, MEMORY_INFO, MEMORY << 16 | MEMORY_COUNT);
    set_word(page, MEMORY, CONVENTIONAL);
    set_word(page, MEMORY + 4, bed->frames * PAGE_BYTES - LAST_BYTES);
    set_word(page, PROCESSOR_DESCRIPTION, PROCESSORS);
    set_word(page, PROCESSOR_INFO, 0);
}

void kip_write(struct bed *bed) {
    unsigned char *page = bed_frame(bed, bed->frames);
    uint32_t call;
    memcpy(page + MAGIC, magic, sizeof magic);
    set_word(page, API_VERSION, KIP_API_VERSION);
    set_word(page, API_FLAGS, KIP_API_FLAGS);
    set_word(page, UTCB_INFO, 1u | UTCB_LOG << 10 | L4_PAGE_LOG << 16);
    set_word(page, AREA_INFO, L4_PAGE_LOG);
    set_word(page, CLOCK_INFO, 0);
    set_word(page, THREAD_INFO, ID_BITS | SIGMA0 << 8 | SIGMA0 << 20);
    set_word(page, PAGE_INFO, L4_PAGE_BYTES | 7);
    write_descriptions(bed, page);
    for (call = 0; call < SYSTEM_CALLS; call++) {
        uint32_t place = KIP_STUBS + (call << KIP_STUB_LOG);
        set_word(page, entries[call], place);
        memcpy(page + place, stub, sizeof stub);
    }
}

void kip_set_boot_info(struct bed *bed, uint32_t first, uint32_t address) {
    unsigned char *page = bed_frame(bed, bed->frames);
    set_word(page, BOOT_INFO, address);
    set_word(page, MEMORY + MEMORY_BYTES, first | BOOT_LOADER_SPECIFIC);
    set_word(page, MEMORY + MEMORY_BYTES + 4, address + PAGE_BYTES - LAST_BYTES);
}
