/* Corners of the interface: odd timeouts, ids and fpages, sends to itself, code that it changes, and copies that the compiler makes by itself. */
#include "children.h"
#include <l4/schedule.h>

struct large {
    L4_Word_t words[200];
};

static struct large large;
static unsigned char code[PAGE] __attribute__((aligned(PAGE)));

static void show(const char *what, L4_MsgTag_t tag) {
    print_word(what, tag.raw, "");
    print_number(", ErrorCode ", L4_ErrorCode(), "\n");
}

static L4_Word_t create(L4_Word_t number, L4_Word_t version) {
    L4_ThreadId_t id = L4_GlobalId(number, version);
    return L4_ThreadControl(id, id, L4_Myself(), L4_nilthread, (void *)0xffffffffu);
}

static void use_messages(void) {
    L4_ThreadId_t from;
    show("corners: a wait of 3,200 microseconds: tag ", L4_Wait_Timeout(L4_TimeOfWord(5 << 10 | 100), &from));
    L4_Set_MsgTag(L4_Niltag);
    show("corners: a send to itself: tag ", L4_Send(L4_Myself()));
    show("corners: a receive from nobody: tag ", L4_Receive_Timeout(L4_GlobalId(77, 1), L4_ZeroTime));
    show("corners: no phase: tag ", L4_Ipc(L4_nilthread, L4_nilthread, L4_Timeouts(L4_Never, L4_Never), &from));
    L4_Set_MsgTag(L4_MsgTagOfWord(0x3f | 0x3f << 6));
    show("corners: more words than there are: tag ", L4_Send(L4_GlobalId(1, 1)));
}

static void use_words(void) {
    print_number("corners: version 64 is no global id: ", L4_IsLocalId(L4_GlobalId(9, 64)) && !create(9, 64), "\n");
    print_number("corners: version 3 is one: ", L4_IsGlobalId(L4_GlobalId(9, 3)) && create(9, 3), "\n");
    print_word("corners: a page at 0x12345: ", L4_Fpage(0x12345, PAGE).raw, "\n");
}

static L4_Word_t run_code(unsigned char number) {
    static const unsigned char text[] = {0xb8, 0, 0, 0, 0, 0xc3}; /* mov eax, NUMBER; ret */
    L4_Word_t k;
    for (k = 0; k < sizeof text; k++)
        *(volatile unsigned char *)(code + k) = text[k];
    *(volatile unsigned char *)(code + 1) = number;
    return ((L4_Word_t(*)(void))(L4_Word_t)code)();
}

int main(void) {
    struct large copy = {{0}};
    L4_Clock_t before = L4_SystemClock();
    L4_Word_t first;
    use_messages();
    use_words();
    first = run_code(1);
    print_number("corners: code that it has changed returns ", first, "");
    print_number(" and ", run_code(2), "\n");
    copy.words[199] = 5;
    large = copy;
    print_number("corners: a copy ends with ", large.words[199], "\n");
    L4_Set_UserDefinedHandle(7);
    print_number("corners: handle ", L4_UserDefinedHandle(), "");
    print_number(", the clock does not go back: ", !L4_IsClockLater(before, L4_SystemClock()), "\n");
    L4_KDB_Enter("failed: this is not the right end");
    return 0;
}
