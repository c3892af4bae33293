/* The four functions that compilers call by themselves, for example to copy a struct. A program may define its own. */
#define WEAK __attribute__((weak))

typedef unsigned int size;

void *memcpy(void *to, const void *from, size bytes);
void *memmove(void *to, const void *from, size bytes);
void *memset(void *to, int value, size bytes);
int memcmp(const void *left, const void *right, size bytes);

WEAK void *memcpy(void *to, const void *from, size bytes) {
    void *place = to;
    __asm__ __volatile__("rep movsb" : "+D"(place), "+S"(from), "+c"(bytes) : : "memory");
    return to;
}

WEAK void *memmove(void *to, const void *from, size bytes) {
    char *last = (char *)to + bytes - 1;
    const char *last_from = (const char *)from + bytes - 1;
    if ((size)to - (size)from >= bytes)
        return memcpy(to, from, bytes);
    __asm__ __volatile__("std\n\trep movsb\n\tcld" : "+D"(last), "+S"(last_from), "+c"(bytes) : : "memory", "cc");
    return to;
}

WEAK void *memset(void *to, int value, size bytes) {
    void *place = to;
    __asm__ __volatile__("rep stosb" : "+D"(place), "+c"(bytes) : "a"(value) : "memory");
    return to;
}

WEAK int memcmp(const void *left, const void *right, size bytes) {
    const unsigned char *one = left, *two = right;
    size k;
    for (k = 0; k < bytes; k++) {
        if (one[k] != two[k])
            return one[k] < two[k] ? -1 : 1;
    }
    return 0;
}
