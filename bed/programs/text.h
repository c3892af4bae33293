/* Prints texts and numbers through the kernel debugger. */
#ifndef TEXT_H
#define TEXT_H

#include <l4/kdebug.h>
#include <l4/types.h>

static inline void print(const char *text) {
    L4_KDB_PrintString(text);
}

static inline void print_decimal(L4_Word_t number) {
    char digits[11];
    int place = 10;
    digits[place] = 0;
    do {
        digits[--place] = (char)('0' + number % 10);
        number /= 10;
    } while (number != 0);
    L4_KDB_PrintString(digits + place);
}

static inline void print_hex(L4_Word_t word) {
    char digits[9];
    int place;
    for (place = 7; place >= 0; place--, word >>= 4)
        digits[place] = "0123456789abcdef"[word & 15];
    digits[8] = 0;
    L4_KDB_PrintString(digits);
}

static inline void print_number(const char *before, L4_Word_t number, const char *after) {
    print(before);
    print_decimal(number);
    print(after);
}

static inline void print_word(const char *before, L4_Word_t word, const char *after) {
    print(before);
    print_hex(word);
    print(after);
}

#endif
