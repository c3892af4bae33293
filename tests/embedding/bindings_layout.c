/* Prints the size of each struct of l4.h, the offset of each member, and each constant. lines.h names them, as tests/embedding/bindings finds
 * them in the header. */
#include <l4.h>
#include <stdio.h>

#define SIZE(name) printf("size %s %zu\n", #name, sizeof(name));
#define OFFSET(name, member) printf("offset %s %s %zu\n", #name, #member, offsetof(name, member));
#define CONSTANT(name) printf("constant %s %lu\n", #name, (unsigned long)(name));

int main(void) {
#include "lines.h"
    return 0;
}
