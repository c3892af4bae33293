#include "check.h"
#include <errno.h>
#include <l4.h>
#include <stdarg.h>
#include <stdio.h>
#include <stdlib.h>
#include <string.h>

/* The texts of the library are shorter than this. */
#define TEXT_ROOM 160

static void (*before_message)(void);

void check_before_message(void (*function)(void)) {
    before_message = function;
}

static void print_message(const char *kind, const char *format, va_list arguments) {
    if (before_message != NULL)
        before_message();
    fflush(stdout);
    fputs(kind, stderr);
    vfprintf(stderr, format, arguments);
    fputc('\n', stderr);
    fflush(stderr);
}

void fail(int status, const char *format, ...) {
    va_list arguments;
    va_start(arguments, format);
    print_message("l4_bed: ", format, arguments);
    va_end(arguments);
    exit(status);
}

void note(const char *format, ...) {
    va_list arguments;
    va_start(arguments, format);
    print_message("l4_bed: note: ", format, arguments);
    va_end(arguments);
}

void check_library(uint32_t refusal, const char *what) {
    char code[TEXT_ROOM], text[TEXT_ROOM];
    if (refusal == L4_OK)
        return;
    l4_refusal_code(refusal, code, sizeof code);
    l4_refusal_text(refusal, text, sizeof text);
    fail(STATUS_HOST, "%s: refused %s: %s", what, code, text);
}

void check_holds(int holds, const char *what) {
    if (!holds)
        fail(STATUS_HOST, "%s", what);
}

void check_system(long result, const char *what) {
    if (result < 0)
        fail(STATUS_HOST, "%s: %s", what, strerror(errno));
}

void check_output(void) {
    if (fflush(stdout) != 0 || ferror(stdout))
        fail(STATUS_OUTPUT, "standard output cannot be written");
}
