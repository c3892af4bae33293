/* Threads that keep numbers in x87 and SSE registers while others run: two threads of root's space, and a child in another space. */
#include "children.h"
#include "keeper.h"

#define SECOND L4_GlobalId(7, 1)

static L4_Word_t stack[1024];

static void second(void) {
    print_number("second: keeps ", keep_numbers(200, L4_GlobalId(2, 1)), "\n");
    L4_Set_MsgTag(L4_Niltag);
    L4_Send(L4_GlobalId(2, 1));
    for (;;)
        L4_Receive(L4_Myself());
}

static void begin_second(void) {
    demand(L4_ThreadControl(SECOND, L4_Myself(), L4_Myself(), L4_Myself(), L4_Utcb() + 128), "root: the second thread cannot be created");
    L4_Set_MsgTag(L4_MsgTagOfWord(2));
    L4_LoadMR(1, (L4_Word_t)second);
    L4_LoadMR(2, (L4_Word_t)(stack + 1024));
    L4_Send(SECOND);
    demand(L4_ThreadControl(SECOND, SECOND, L4_nilthread, L4_Pager(), (void *)0xffffffffu), "root: the second thread gets no pager");
}

static L4_Word_t address_of_fault(void) {
    L4_Word_t address;
    L4_StoreMR(1, &address);
    return address;
}

/* Answers page faults and messages until two threads have kept their numbers. */
int main(void) {
    L4_ThreadId_t from;
    L4_Word_t done = 0;
    L4_MsgTag_t tag;
    start_child(0);
    begin_second();
    set_numbers(300);
    tag = L4_Wait(&from);
    for (;;) {
        if (is_fault(tag))
            answer_fault(0, address_of_fault());
        else if (L4_Label(tag) == KEEPING)
            L4_Set_MsgTag(L4_Niltag);
        else if (++done == 2)
            break;
        tag = is_fault(tag) || L4_Label(tag) == KEEPING ? L4_ReplyWait(from, &from) : L4_Wait(&from);
    }
    print_number("root: keeps ", get_numbers(), "\n");
    L4_KDB_Enter("all threads have kept their numbers");
    return 0;
}
