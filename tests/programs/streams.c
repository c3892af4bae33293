/* Intercepts a program's standard input, standard output, files and memory, by LD_PRELOAD, as the environment says:
 *   READ_BYTES=N    a read returns at most N bytes
 *   READ_FAILS=K    read K, counted from 1, and all after it fail
 *   READ_ENDLESS=C  every read returns this character, without an end
 *   WRITE_BYTES=N, WRITE_FAILS=K    the same for writes to standard output
 *   WRITE_NONE=K    write K and all after it write 0 bytes
 *   FILE_READ_BYTES=N, FILE_WRITE_BYTES=N    the same for files that the program opened
 *   FILE_READ_FAILS=K, FILE_WRITE_FAILS=K    read or write K of these files fails, and no other
 *   FILE_WRITE_NONE=K    write K to these files writes 0 bytes, and no other
 *   FILE_SYNC_FAILS=K    synchronization K of these files fails, and no other
 *   MEMORY_FAILS=K  allocation K fails, and no other
 *   MEMORY_MORE=N   and the N allocations after it fail too
 *   MEMORY_ENDS=K   from read K on every allocation fails
 */
#define _GNU_SOURCE
#include <errno.h>
#include <stdlib.h>
#include <sys/syscall.h>
#include <unistd.h>

static long setting(const char *name) {
    const char *text = getenv(name);
    return text ? atol(text) : 0;
}

static int memory_ended;

static size_t at_most(size_t count, long most) {
    return most > 0 && (size_t)most < count ? (size_t)most : count;
}

ssize_t read(int file, void *bytes, size_t count) {
    static long calls, file_calls;
    const char *endless = getenv("READ_ENDLESS");
    if (file > STDERR_FILENO) {
        if (++file_calls == setting("FILE_READ_FAILS")) {
            errno = EIO;
            return -1;
        }
        count = at_most(count, setting("FILE_READ_BYTES"));
    }
    if (file == STDIN_FILENO) {
        long fails = setting("READ_FAILS"), ends = setting("MEMORY_ENDS");
        calls++;
        if (ends && calls >= ends)
            memory_ended = 1;
        if (fails && calls >= fails) {
            errno = EIO;
            return -1;
        }
        count = at_most(count, setting("READ_BYTES"));
        if (endless && count) {
            *(char *)bytes = *endless;
            return 1;
        }
    }
    return syscall(SYS_read, file, bytes, count);
}

ssize_t write(int file, const void *bytes, size_t count) {
    static long calls, file_calls;
    if (file > STDERR_FILENO) {
        if (++file_calls == setting("FILE_WRITE_FAILS")) {
            errno = EIO;
            return -1;
        }
        if (file_calls == setting("FILE_WRITE_NONE"))
            return 0;
        count = at_most(count, setting("FILE_WRITE_BYTES"));
    }
    if (file == STDOUT_FILENO) {
        long fails = setting("WRITE_FAILS"), none = setting("WRITE_NONE");
        calls++;
        if (fails && calls >= fails) {
            errno = EIO;
            return -1;
        }
        if (none && calls >= none)
            return 0;
        count = at_most(count, setting("WRITE_BYTES"));
    }
    return syscall(SYS_write, file, bytes, count);
}

int fsync(int file) {
    static long calls;
    if (++calls == setting("FILE_SYNC_FAILS")) {
        errno = EIO;
        return -1;
    }
    return syscall(SYS_fsync, file);
}

extern void *__libc_malloc(size_t);
extern void *__libc_realloc(void *, size_t);

static int growth_fails(void) {
    static long growths;
    long fails = setting("MEMORY_FAILS");
    growths++;
    return memory_ended || (fails && growths >= fails && growths <= fails + setting("MEMORY_MORE"));
}

void *malloc(size_t size) {
    return growth_fails() ? NULL : __libc_malloc(size);
}

void *realloc(void *old, size_t size) {
    return growth_fails() ? NULL : __libc_realloc(old, size);
}
