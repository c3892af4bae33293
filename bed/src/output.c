#define _GNU_SOURCE
#include "output.h"
#include "check.h"
#include <errno.h>
#include <fcntl.h>
#include <stdarg.h>
#include <stddef.h>
#include <stdio.h>
#include <string.h>
#include <unistd.h>

#define ROOM ((size_t)1 << 16)

/* No line is longer. */
#define LONGEST_LINE ((size_t)1 << 13)

/* The first `whole` bytes of the text are whole lines. */
struct stream {
    const char *option, *name;
    int is_open, file, is_terminal;
    int error; /* the reason why it cannot be written, or 0 */
    size_t length, whole;
    char text[ROOM + LONGEST_LINE];
};

static struct stream streams[OUTPUTS];

static struct {
    void (*take)(void *user, const char *line);
    void *user;
} taker;

void output_take_lines(void (*take)(void *user, const char *line), void *user) {
    taker.take = take;
    taker.user = user;
}

void output_begin(void) {
    struct stream *standard = &streams[OUTPUT_STANDARD];
    standard->is_open = 1;
    standard->file = STDOUT_FILENO;
    standard->is_terminal = isatty(STDOUT_FILENO);
}

void output_open(enum output output, const char *option, const char *name) {
    struct stream *stream = &streams[output];
    if (name == NULL)
        return;
    stream->option = option;
    stream->name = name;
    stream->file = open(name, O_WRONLY | O_CREAT | O_TRUNC | O_CLOEXEC, 0666);
    if (stream->file < 0)
        fail(STATUS_OUTPUT, "%s: %s: %s", option, name, strerror(errno));
    stream->is_open = 1;
}

int output_is_open(enum output output) {
    return streams[output].is_open;
}

/* Part of a line has been written before the error: the file ends before that line, if it is no pipe and no device. */
static void cut(const struct stream *stream, size_t written) {
    size_t line = written;
    off_t place = lseek(stream->file, 0, SEEK_CUR);
    while (line > 0 && stream->text[line - 1] != '\n')
        line--;
    /* a pipe has no place, and a device no length: both are as they are */
    if (place >= 0 && line < written && ftruncate(stream->file, place - (off_t)(written - line)) < 0)
        return;
}

/* Writes the first bytes of the text. */
static void write_bytes(struct stream *stream, size_t count) {
    size_t written = 0;
    while (written < count && stream->error == 0) {
        ssize_t now = write(stream->file, stream->text + written, count - written);
        if (now >= 0)
            written += (size_t)now;
        else if (errno != EINTR)
            stream->error = errno;
    }
    if (stream->error != 0)
        cut(stream, written);
}

static void write_whole(struct stream *stream) {
    size_t whole = stream->whole;
    if (!stream->is_open || whole == 0 || stream->error != 0)
        return;
    write_bytes(stream, whole);
    stream->whole = 0;
    memmove(stream->text, stream->text + whole, stream->length - whole);
    stream->length -= whole;
}

/* A terminal gets each line at once. */
static void end_line(struct stream *stream) {
    if (taker.take != NULL && stream == &streams[OUTPUT_STANDARD]) {
        stream->length = stream->whole;
        *strchr(stream->text + stream->whole, '\n') = 0;
        taker.take(taker.user, stream->text + stream->whole);
        return;
    }
    stream->whole = stream->length;
    if (stream->is_terminal || stream->length > ROOM)
        write_whole(stream);
}

static void print_by(struct stream *stream, const char *format, va_list arguments) {
    size_t room = sizeof stream->text - stream->length;
    int length;
    if (!stream->is_open || stream->error != 0)
        return;
    length = vsnprintf(stream->text + stream->length, room, format, arguments);
    check_holds(length >= 0 && (size_t)length < room, "a line of output is too long");
    stream->length += (size_t)length;
    if (length > 0 && stream->text[stream->length - 1] == '\n')
        end_line(stream);
}

void output_print(enum output output, const char *format, ...) {
    va_list arguments;
    va_start(arguments, format);
    print_by(&streams[output], format, arguments);
    va_end(arguments);
}

void print(const char *format, ...) {
    va_list arguments;
    va_start(arguments, format);
    print_by(&streams[OUTPUT_STANDARD], format, arguments);
    va_end(arguments);
}

void output_write(void) {
    size_t k;
    for (k = 0; k < OUTPUTS; k++)
        write_whole(&streams[k]);
}

int output_has_failed(void) {
    size_t k;
    for (k = 0; k < OUTPUTS; k++) {
        if (streams[k].error != 0)
            return 1;
    }
    return 0;
}

static void check_stream(const struct stream *stream) {
    if (stream->error != 0 && stream->name == NULL)
        fail(STATUS_OUTPUT, "standard output cannot be written: %s", strerror(stream->error));
    if (stream->error != 0)
        fail(STATUS_OUTPUT, "%s: the file cannot be written: %s: %s", stream->option, stream->name, strerror(stream->error));
}

void output_end(void) {
    size_t k;
    output_write();
    for (k = 0; k < OUTPUTS; k++) {
        struct stream *stream = &streams[k];
        if (stream->name != NULL && stream->is_open && close(stream->file) < 0 && stream->error == 0)
            stream->error = errno;
        stream->is_open = 0;
    }
    for (k = 0; k < OUTPUTS; k++)
        check_stream(&streams[k]);
}
