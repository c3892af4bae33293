/* A root task that handles its child's exceptions: it skips the instruction, and puts the exception's number into a register. It also tries to
 * let the child disable interrupts, which no handler may. */
#include "children.h"

#define EXCEPTION_LABEL 0xffb0u
#define WORDS 12
enum { EIP = 0, EFLAGS = 1, NUMBER = 2, EAX = 11 };

/* The I/O privilege level 3, in EFLAGS. */
#define IO_PRIVILEGE 0x3000u

/* The child's instructions that raise exceptions have two bytes. */
static void answer_exception(void) {
    L4_Word_t words[WORDS];
    L4_StoreMRs(1, WORDS, words);
    print_number("handler: exception ", words[NUMBER], "\n");
    words[EIP] += 2;
    words[EFLAGS] |= IO_PRIVILEGE;
    words[EAX] = 100 + words[NUMBER];
    L4_LoadMRs(1, WORDS, words);
    L4_Set_MsgTag(L4_MsgTagOfWord(WORDS));
}

int main(void) {
    L4_ThreadId_t from;
    L4_Word_t address;
    L4_MsgTag_t tag;
    start_child(0);
    tag = L4_Wait(&from);
    while (is_fault(tag) || L4_Label(tag) == EXCEPTION_LABEL) {
        L4_StoreMR(1, &address);
        if (is_fault(tag))
            answer_fault(0, address);
        else
            answer_exception();
        tag = L4_ReplyWait(from, &from);
    }
    L4_KDB_Enter("the handler has ended");
    return 0;
}
