/* Names of addresses: the functions and labels in the symbol tables of the loaded programs, with their source lines. */
#include "bed.h"
#include "check.h"
#include "lines.h"
#include <elf.h>
#include <stdio.h>
#include <stdlib.h>
#include <string.h>

struct symbol {
    uint32_t address;
    const char *name;
};

/* A part of a program that is loaded at a place of the memory. */
struct part {
    uint32_t place, start, bytes;
};

#define MAX_PARTS 4
struct names {
    const char *file;
    struct part parts[MAX_PARTS];
    uint32_t part_count, count;
    struct symbol *symbols;
    char *texts;
    struct lines *lines;
};

/* Of a name, and of a file's name, this many bytes are printed. */
#define LONGEST_NAME 60
#define LONGEST_FILE 40

/* Root, and the programs beside it. */
static struct names programs[L4_MAX_THREADS];
static uint32_t program_count;

static int compare(const void *left, const void *right) {
    uint32_t one = ((const struct symbol *)left)->address, other = ((const struct symbol *)right)->address;
    return one < other ? -1 : one > other;
}

/* Returns a section's bytes, if the file has them all. */
static const unsigned char *section(const unsigned char *bytes, size_t length, const Elf32_Ehdr *header, uint32_t number, Elf32_Shdr *found) {
    uint64_t place = (uint64_t)header->e_shoff + (uint64_t)number * sizeof *found;
    if (header->e_shentsize != sizeof *found || number >= header->e_shnum || place + sizeof *found > length)
        return NULL;
    memcpy(found, bytes + place, sizeof *found);
    return (uint64_t)found->sh_offset + found->sh_size <= length ? bytes + found->sh_offset : NULL;
}

static int is_code(const unsigned char *bytes, size_t length, const Elf32_Ehdr *header, const Elf32_Sym *symbol) {
    Elf32_Shdr of;
    int type = ELF32_ST_TYPE(symbol->st_info);
    return (type == STT_FUNC || type == STT_NOTYPE) && section(bytes, length, header, symbol->st_shndx, &of) != NULL && (of.sh_flags & SHF_EXECINSTR) != 0;
}

/* A name with a control character could change the terminal. Each of its bytes that is not ASCII or is one becomes a question mark. */
static void make_printable(char *name) {
    char escaped[4 * LONGEST_NAME + 1];
    size_t length = strlen(name), k;
    if (length > LONGEST_NAME)
        length = LONGEST_NAME;
    name[length] = 0;
    text_escape(name, length, escaped, sizeof escaped);
    if (strcmp(name, escaped) == 0)
        return;
    for (k = 0; k < length; k++)
        name[k] = name[k] < ' ' || name[k] > '~' ? '?' : name[k];
}

/* The names of the table of symbols; a table or a name that is invalid has none. */
static void read_table(struct names *names, const unsigned char *bytes, size_t length, const Elf32_Ehdr *header, const Elf32_Shdr *table,
                       const unsigned char *entries) {
    Elf32_Shdr strings;
    const unsigned char *texts = section(bytes, length, header, table->sh_link, &strings);
    uint32_t k, count = table->sh_size / (uint32_t)sizeof(Elf32_Sym);
    if (texts == NULL || strings.sh_size == 0 || names->symbols != NULL)
        return;
    names->symbols = calloc(count + 1u, sizeof *names->symbols);
    names->texts = malloc(strings.sh_size);
    check_holds(names->symbols != NULL && names->texts != NULL, "there is not enough memory for the names of a program");
    memcpy(names->texts, texts, strings.sh_size);
    names->texts[strings.sh_size - 1] = 0;
    for (k = 0; k < count; k++) {
        Elf32_Sym symbol;
        memcpy(&symbol, entries + k * sizeof symbol, sizeof symbol);
        if (symbol.st_name == 0 || symbol.st_name >= strings.sh_size || !is_code(bytes, length, header, &symbol))
            continue;
        names->symbols[names->count].address = symbol.st_value;
        names->symbols[names->count++].name = names->texts + symbol.st_name;
    }
    qsort(names->symbols, names->count, sizeof *names->symbols, compare);
}

void symbols_add_program(const char *file, const unsigned char *bytes, size_t length) {
    struct names *names = &programs[program_count++];
    const char *slash = strrchr(file, '/');
    Elf32_Ehdr header;
    uint32_t k;
    names->file = slash == NULL ? file : slash + 1;
    names->lines = lines_new(bytes, length);
    memcpy(&header, bytes, sizeof header);
    for (k = 0; k < header.e_shnum; k++) {
        Elf32_Shdr table;
        const unsigned char *entries = section(bytes, length, &header, k, &table);
        if (entries != NULL && table.sh_type == SHT_SYMTAB)
            read_table(names, bytes, length, &header, &table, entries);
    }
}

void symbols_add_part(uint32_t place, uint32_t start, uint32_t bytes) {
    struct names *names = &programs[program_count - 1];
    const struct part part = {place, start, bytes};
    if (names->part_count < MAX_PARTS)
        names->parts[names->part_count++] = part;
}

void symbols_free(void) {
    while (program_count > 0) {
        program_count--;
        free(programs[program_count].symbols);
        free(programs[program_count].texts);
        lines_free(programs[program_count].lines);
    }
}

static void write_symbol(const struct names *names, const struct symbol *symbol, uint32_t address, char *text, size_t room) {
    char name[LONGEST_NAME + 1], line[LINE_ROOM], offset[12] = "";
    snprintf(name, sizeof name, "%s", symbol->name);
    make_printable(name);
    lines_write(names->lines, address, line, sizeof line);
    make_printable(line);
    if (symbol->address != address)
        snprintf(offset, sizeof offset, "+%u", address - symbol->address);
    snprintf(text, room, " (%s%s in %.*s%s)", name, offset, LONGEST_FILE, names->file, line);
}

static void write_name(const struct names *names, uint32_t address, char *text, size_t room) {
    uint32_t low = 0, high = names->count;
    while (low < high) {
        uint32_t middle = low + (high - low) / 2;
        if (names->symbols[middle].address <= address)
            low = middle + 1;
        else
            high = middle;
    }
    if (low > 0)
        write_symbol(names, &names->symbols[low - 1], address, text, room);
}

void symbols_write(struct bed *bed, const struct thread *thread, uint32_t address, char *text, size_t room) {
    const unsigned char *byte = space_byte(bed, thread->space, address);
    uint32_t k, j, place = byte == NULL ? 0 : (uint32_t)(byte - bed->memory.bytes);
    text[0] = 0;
    for (k = 0; byte != NULL && k < program_count; k++) {
        const struct names *names = &programs[k];
        for (j = 0; j < names->part_count; j++) {
            if (place - names->parts[j].place < names->parts[j].bytes)
                write_name(names, place - names->parts[j].place + names->parts[j].start, text, room);
        }
    }
}
