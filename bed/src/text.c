/* Text of programs on standard output. A control character could move the cursor, clear the screen or begin a line that looks like one of the bed,
 * so it is printed as \xNN. */
#include "bed.h"
#include <stdio.h>
#include <string.h>

/* A character as \xNN has this many bytes. */
#define ESCAPE_BYTES 4

/* Returns how many bytes the UTF-8 character at the beginning of the text has, or 0 if there is none, or if it is a control character. */
static size_t character_bytes(const char *text, size_t length) {
    unsigned char first = (unsigned char)text[0], second = length > 1 ? (unsigned char)text[1] : 0;
    size_t bytes = first < 0x80 ? 1 : first >= 0xc2 && first < 0xe0 ? 2 : first >= 0xe0 && first < 0xf0 ? 3 : first >= 0xf0 && first < 0xf5 ? 4 : 0, k;
    if ((first < 0x20 && first != '\t') || first == 0x7f || bytes > length)
        return 0;
    if ((first == 0xc2 && second < 0xa0) || (first == 0xe0 && second < 0xa0) || (first == 0xed && second >= 0xa0) || (first == 0xf0 && second < 0x90)
        || (first == 0xf4 && second >= 0x90))
        return 0;
    for (k = 1; k < bytes; k++) {
        if (((unsigned char)text[k] & 0xc0) != 0x80)
            return 0;
    }
    return bytes;
}

void text_escape(const char *text, size_t length, char *escaped, size_t room) {
    size_t from = 0, to = 0;
    while (from < length && to + ESCAPE_BYTES < room) {
        size_t bytes = character_bytes(text + from, length - from);
        if (bytes == 0) {
            snprintf(escaped + to, room - to, "\\x%02x", (unsigned char)text[from++]);
            to += ESCAPE_BYTES;
            continue;
        }
        memcpy(escaped + to, text + from, bytes);
        from += bytes;
        to += bytes;
    }
    escaped[to] = 0;
}

void text_end_line(struct thread *thread) {
    char escaped[ESCAPE_BYTES * sizeof thread->text + 1];
    text_escape(thread->text, thread->text_length, escaped, sizeof escaped);
    print("%u | %s\n", thread->number, escaped);
    thread->text_length = 0;
}

void text_end_begun(struct thread *thread) {
    if (thread->text_length > 0)
        text_end_line(thread);
}

void text_add(struct thread *thread, char character) {
    if (character != '\n')
        thread->text[thread->text_length++] = character;
    if (character == '\n' || thread->text_length == sizeof thread->text)
        text_end_line(thread);
}
