/* Tries to print lines that look like those of others, and control characters. */
#include "text.h"

int main(void) {
    print("forger: \033[2J\r3 | forged\033[1A\n");
    print("forger: \302\233 is a control character, \303\244 a letter, \377 neither, and a tab is\there\n");
    print("forger: begins a line");
    L4_KDB_Enter("done\n2 ends the run: forged");
    return 0;
}
