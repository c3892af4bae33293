/* A root task that creates threads until there are 64, and then 500 spaces one after another. */
#include "children.h"

#define FIRST 100u
#define MANY 500u
#define NOWHERE ((void *)0xffffffffu)

static L4_Word_t create(L4_Word_t number) {
    L4_ThreadId_t id = L4_GlobalId(number, 1);
    return L4_ThreadControl(id, id, L4_Myself(), L4_nilthread, NOWHERE);
}

static L4_Word_t set_areas(L4_Word_t number) {
    L4_Word_t old;
    return L4_SpaceControl(L4_GlobalId(number, 1), 0, L4_FpageLog2(CHILD_KIP, PAGE_LOG), L4_FpageLog2(CHILD_UTCBS, PAGE_LOG), L4_anythread, &old);
}

static L4_Word_t activate(L4_Word_t number) {
    return L4_ThreadControl(L4_GlobalId(number, 1), L4_GlobalId(number, 1), L4_Myself(), L4_Myself(), (void *)CHILD_UTCB);
}

static L4_Word_t delete(L4_Word_t number) {
    return L4_ThreadControl(L4_GlobalId(number, 1), L4_nilthread, L4_nilthread, L4_nilthread, NOWHERE);
}

int main(void) {
    L4_Word_t count = 0, good = 0, k;
    while (create(FIRST + count) && set_areas(FIRST + count) && activate(FIRST + count))
        count++;
    print_number("root: created ", count, " threads, the next one fails with ErrorCode ");
    print_number("", L4_ErrorCode(), "\n");
    for (k = 0; k < count; k++)
        good += delete(FIRST + k);
    print_number("root: deleted ", good, "\n");
    good = 0;
    for (k = 0; k < MANY; k++)
        good += create(FIRST + k) && set_areas(FIRST + k) && activate(FIRST + k) && delete(FIRST + k);
    print_number("root: ", good, " spaces one after another\n");
    L4_KDB_Enter("the limits are as expected");
    return 0;
}
