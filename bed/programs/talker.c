/* Prints numbered lines for ever. */
#include "text.h"
#include <l4/schedule.h>

int main(void) {
    L4_Word_t line = 0;
    for (;;) {
        print_number("talker: line ", line++, "\n");
        L4_Yield();
    }
}
