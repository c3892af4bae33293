/* Divides 64-bit numbers, and copies, fills and compares memory with the functions that compilers call. */
#include "text.h"

typedef L4_Word64_t number;
typedef long long integer;

struct large {
    L4_Word_t words[600];
};

extern int memcmp(const void *left, const void *right, L4_Word_t bytes);
extern void *memmove(void *to, const void *from, L4_Word_t bytes);

static struct large first, second;
static volatile number numbers[4][2] = {{1000000000000ull, 7}, {0xffffffffffffffffull, 0x100000001ull}, {1ull << 63, 3ull << 40}, {5, 1ull << 60}};
static volatile integer integers[3][2] = {{-1000000000000ll, 7}, {1000000000000ll, -7}, {-7, 1000000000000ll}};

static void print_both(number quotient, number rest) {
    print_word("division: ", (L4_Word_t)(quotient >> 32), "");
    print_word(" ", (L4_Word_t)quotient, ", rest");
    print_word(" ", (L4_Word_t)(rest >> 32), "");
    print_word(" ", (L4_Word_t)rest, "\n");
}

int main(void) {
    L4_Word_t k;
    for (k = 0; k < 4; k++)
        print_both(numbers[k][0] / numbers[k][1], numbers[k][0] % numbers[k][1]);
    for (k = 0; k < 3; k++)
        print_both((number)(integers[k][0] / integers[k][1]), (number)(integers[k][0] % integers[k][1]));
    for (k = 0; k < 600; k++)
        first.words[k] = k;
    second = first;
    memmove(second.words + 1, second.words, 599 * sizeof(L4_Word_t));
    print_number("division: words ", second.words[599], ", ");
    print_number("", second.words[1], ", ");
    print_number("", memcmp(&first, &second, sizeof first) != 0, "\n");
    L4_KDB_Enter("done");
    return 0;
}
