/* Loads programs: static ELF files of 32-bit x86. */
#include "bed.h"
#include "check.h"
#include <elf.h>
#include <errno.h>
#include <stdio.h>
#include <stdlib.h>
#include <string.h>

#define READ_BYTES ((size_t)1 << 16)
#define MAX_FILE_BYTES ((size_t)256 << 20)

struct file {
    const char *name;
    unsigned char *bytes;
    size_t length;
    Elf32_Ehdr header;
};

static void read_file(struct file *file) {
    FILE *stream = fopen(file->name, "rb");
    size_t got;
    if (stream == NULL)
        fail(STATUS_INPUT, "%s: %s", file->name, strerror(errno));
    do {
        file->bytes = realloc(file->bytes, file->length + READ_BYTES);
        check_holds(file->bytes != NULL, "there is not enough memory to read a program");
        got = fread(file->bytes + file->length, 1, READ_BYTES, stream);
        file->length += got;
    } while (got > 0 && file->length < MAX_FILE_BYTES);
    if (ferror(stream))
        fail(STATUS_INPUT, "%s: cannot be read: %s", file->name, strerror(errno));
    fclose(stream);
}

static void check_file(const struct file *file, int holds, const char *what) {
    if (!holds)
        fail(STATUS_INPUT, "%s: %s", file->name, what);
}

static Elf32_Phdr part_of(const struct file *file, uint32_t number) {
    Elf32_Phdr part;
    uint64_t place = (uint64_t)file->header.e_phoff + (uint64_t)number * sizeof part;
    check_file(file, place + sizeof part <= file->length, "the file is shorter than its program headers say");
    memcpy(&part, file->bytes + place, sizeof part);
    return part;
}

static int is_loaded(const Elf32_Phdr *part) {
    return part->p_type == PT_LOAD && part->p_memsz > 0;
}

static uint64_t first_page(const Elf32_Phdr *part) {
    return part->p_vaddr / PAGE_BYTES;
}

static uint64_t end_page(const Elf32_Phdr *part) {
    return ((uint64_t)part->p_vaddr + part->p_memsz + PAGE_BYTES - 1) / PAGE_BYTES;
}

static void check_part(const struct file *file, const Elf32_Phdr *part) {
    check_file(file, (uint64_t)part->p_offset + part->p_filesz <= file->length, "the file is shorter than its segments say");
    check_file(file, part->p_filesz <= part->p_memsz, "a segment has more bytes in the file than in memory");
    check_file(file, end_page(part) <= L4_SPACE_PAGES, "a segment ends beyond 4 GiB");
}

/* Two segments may not share a page, since each has its own frames. */
static void check_overlap(const struct file *file, const Elf32_Phdr *part, uint32_t number) {
    uint32_t k;
    for (k = 0; k < number; k++) {
        Elf32_Phdr other = part_of(file, k);
        check_file(file, !is_loaded(&other) || first_page(part) >= end_page(&other) || first_page(&other) >= end_page(part),
                   "two segments overlap, or share a page (link with -z max-page-size=4096 -z noseparate-code)");
    }
}

static void check_parts(const struct file *file) {
    int has_entry = 0;
    uint32_t k;
    for (k = 0; k < file->header.e_phnum; k++) {
        Elf32_Phdr part = part_of(file, k);
        check_file(file, part.p_type != PT_INTERP && part.p_type != PT_DYNAMIC, "it is dynamically linked; link it with -static");
        if (!is_loaded(&part))
            continue;
        check_part(file, &part);
        check_overlap(file, &part, k);
        if (part.p_flags & PF_X && file->header.e_entry - part.p_vaddr < part.p_memsz)
            has_entry = 1;
    }
    check_file(file, has_entry, "it has no entry: the entry address is in no executable segment");
}

static struct file open_program(const char *name) {
    struct file file = {name, NULL, 0, {{0}, 0, 0, 0, 0, 0, 0, 0, 0, 0, 0, 0, 0, 0}};
    read_file(&file);
    check_file(&file, file.length >= EI_NIDENT && memcmp(file.bytes, ELFMAG, SELFMAG) == 0, "it is not an ELF file");
    check_file(&file, file.bytes[EI_CLASS] == ELFCLASS32, "it is not a 32-bit program; compile it with -m32");
    check_file(&file, file.length >= sizeof file.header, "the file ends within its ELF header");
    memcpy(&file.header, file.bytes, sizeof file.header);
    check_file(&file, file.header.e_machine == EM_386, "it is not a program for 32-bit x86");
    check_file(&file, file.header.e_type == ET_EXEC, "it is not a static program with fixed addresses; link it with -static -no-pie");
    check_file(&file, file.header.e_phentsize == sizeof(Elf32_Phdr), "its program headers have an unknown size");
    check_parts(&file);
    return file;
}

static void put(struct bed *bed, const struct file *file, const Elf32_Phdr *part, uint64_t address) {
    if (address + part->p_memsz > (uint64_t)bed->frames * PAGE_BYTES)
        fail(STATUS_INPUT, "%s: it needs memory up to 0x%llx, but %u frames end at 0x%x (--frames sets their number, up to %u)", file->name,
             (unsigned long long)(address + part->p_memsz), bed->frames, bed->frames * PAGE_BYTES, L4_MAX_FRAMES);
    memcpy(bed->memory.bytes + address, file->bytes + part->p_offset, part->p_filesz);
}

uint32_t elf_load_root(struct bed *bed, const char *name) {
    struct file file = open_program(name);
    uint32_t k, first = L4_SPACE_PAGES, end = 0;
    symbols_add_program(name, file.bytes, file.length);
    for (k = 0; k < file.header.e_phnum; k++) {
        Elf32_Phdr part = part_of(&file, k);
        if (!is_loaded(&part))
            continue;
        put(bed, &file, &part, part.p_vaddr);
        symbols_add_part(part.p_vaddr, part.p_vaddr, part.p_memsz);
        if (first_page(&part) < first)
            first = (uint32_t)first_page(&part);
        if (end_page(&part) > end)
            end = (uint32_t)end_page(&part);
    }
    bed->first_loaded_frame = first;
    bed->next_free_frame = end;
    free(file.bytes);
    return file.header.e_entry;
}

/* The words of the boot info, as include/l4/bootinfo.h describes them. */
enum { HEADER_WORDS = 5, RECORD_WORDS = 16, SIMPLE_EXEC = 2, TEXT = 3, DATA = 6, BSS = 9, ENTRY = 12 };
#define BOOT_MAGIC UINT32_C(0x14b0021d)

static void describe(const struct file *file, uint32_t *words, uint32_t address, uint32_t start, uint32_t bytes) {
    check_file(file, words[2] == 0 || bytes == 0, "it has more than one segment for its text, or for its data");
    if (bytes == 0)
        return;
    words[0] = address;
    words[1] = start;
    words[2] = bytes;
}

static void load_other(struct bed *bed, const char *name, uint32_t *words) {
    struct file file = open_program(name);
    uint32_t k;
    symbols_add_program(name, file.bytes, file.length);
    words[0] = SIMPLE_EXEC;
    words[1] = 1;
    words[2] = RECORD_WORDS * sizeof *words;
    words[ENTRY] = file.header.e_entry;
    for (k = 0; k < file.header.e_phnum; k++) {
        Elf32_Phdr part = part_of(&file, k);
        uint64_t address = (uint64_t)bed->next_free_frame * PAGE_BYTES + part.p_vaddr % PAGE_BYTES;
        if (!is_loaded(&part))
            continue;
        put(bed, &file, &part, address);
        symbols_add_part((uint32_t)address, part.p_vaddr, part.p_memsz);
        if (part.p_flags & PF_W) {
            describe(&file, words + DATA, (uint32_t)address, part.p_vaddr, part.p_filesz);
            describe(&file, words + BSS, (uint32_t)address + part.p_filesz, part.p_vaddr + part.p_filesz, part.p_memsz - part.p_filesz);
        } else {
            describe(&file, words + TEXT, (uint32_t)address, part.p_vaddr, part.p_memsz);
        }
        bed->next_free_frame += (uint32_t)(end_page(&part) - first_page(&part));
    }
    free(file.bytes);
}

void elf_load_others(struct bed *bed, char **names, int count) {
    uint32_t words[PAGE_BYTES / sizeof(uint32_t)];
    size_t used = HEADER_WORDS + (size_t)count * RECORD_WORDS;
    int k;
    if (used > sizeof words / sizeof *words)
        fail(STATUS_INPUT, "there are %d programs beside root, but at most %zu fit in the boot info", count,
             (sizeof words / sizeof *words - HEADER_WORDS) / RECORD_WORDS);
    memset(words, 0, sizeof words);
    for (k = 0; k < count; k++)
        load_other(bed, names[k], words + HEADER_WORDS + k * RECORD_WORDS);
    words[0] = BOOT_MAGIC;
    words[1] = 1;
    words[2] = (uint32_t)(used * sizeof *words);
    words[3] = HEADER_WORDS * sizeof *words;
    words[4] = (uint32_t)count;
    if (bed->next_free_frame >= bed->frames)
        fail(STATUS_INPUT, "no frame is left for the boot info (--frames sets their number, up to %u)", L4_MAX_FRAMES);
    memcpy(bed_frame(bed, bed->next_free_frame), words, sizeof words);
    kip_set_boot_info(bed, bed->first_loaded_frame * PAGE_BYTES, bed->next_free_frame * PAGE_BYTES);
    bed->next_free_frame++;
}
