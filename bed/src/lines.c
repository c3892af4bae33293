/* Source lines of addresses, from a program's debugging information (DWARF), which libdw reads. */
#include "lines.h"
#include <stddef.h>

#ifdef HAVE_LIBDW
#include "check.h"
#include <dwarf.h>
#include <elfutils/libdw.h>
#include <stdio.h>
#include <stdlib.h>
#include <string.h>

/* The bytes of the program, which libdw reads when it is asked for a line. */
struct lines {
    char *bytes;
    Elf *elf;
    Dwarf *dwarf;
};

struct lines *lines_new(const unsigned char *bytes, size_t length) {
    struct lines *lines = calloc(1, sizeof *lines);
    check_holds(lines != NULL, "there is not enough memory for the lines of a program");
    lines->bytes = malloc(length);
    check_holds(lines->bytes != NULL, "there is not enough memory for the lines of a program");
    memcpy(lines->bytes, bytes, length);
    elf_version(EV_CURRENT);
    lines->elf = elf_memory(lines->bytes, length);
    lines->dwarf = lines->elf == NULL ? NULL : dwarf_begin_elf(lines->elf, DWARF_C_READ, NULL);
    if (lines->dwarf != NULL)
        return lines;
    lines_free(lines);
    return NULL;
}

void lines_free(struct lines *lines) {
    if (lines == NULL)
        return;
    dwarf_end(lines->dwarf);
    elf_end(lines->elf);
    free(lines->bytes);
    free(lines);
}

/* Returns the line of the compilation unit at this place, if the unit has code at the address. */
static Dwarf_Line *line_in(const struct lines *lines, Dwarf_Off place, uint32_t address) {
    Dwarf_Die unit;
    if (dwarf_offdie(lines->dwarf, place, &unit) == NULL || dwarf_haspc(&unit, address) <= 0)
        return NULL;
    return dwarf_getsrc_die(&unit, address);
}

static Dwarf_Line *line_at(const struct lines *lines, uint32_t address) {
    Dwarf_Off place = 0, next;
    Dwarf_Line *found = NULL;
    size_t header;
    while (found == NULL && dwarf_nextcu(lines->dwarf, place, &next, &header, NULL, NULL, NULL) == 0) {
        found = line_in(lines, place + header, address);
        place = next;
    }
    return found;
}

void lines_write(const struct lines *lines, uint32_t address, char *text, size_t room) {
    Dwarf_Line *line = lines == NULL ? NULL : line_at(lines, address);
    const char *file = line == NULL ? NULL : dwarf_linesrc(line, NULL, NULL), *slash;
    int number = 0;
    text[0] = 0;
    if (file == NULL || dwarf_lineno(line, &number) != 0 || number <= 0)
        return;
    slash = strrchr(file, '/');
    snprintf(text, room, ", %.40s:%d", slash == NULL ? file : slash + 1, number);
}

#else

struct lines *lines_new(const unsigned char *bytes, size_t length) {
    (void)bytes;
    (void)length;
    return NULL;
}

void lines_free(struct lines *lines) {
    (void)lines;
}

void lines_write(const struct lines *lines, uint32_t address, char *text, size_t room) {
    (void)lines;
    (void)address;
    (void)room;
    text[0] = 0;
}

#endif
