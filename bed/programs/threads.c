/* A root task with a second thread in its own space, and the ErrorCodes of calls that fail. */
#include "children.h"

#define SECOND L4_GlobalId(7, 1)

static L4_Word_t stack[1024];
static volatile L4_Word_t shared;

/* The second thread adds up the words that it receives, until a message with a label arrives. Then it writes the sum to memory. */
static void second(void) {
    L4_ThreadId_t from;
    L4_Word_t sum = 0, word;
    L4_MsgTag_t tag = L4_Wait(&from);
    while (L4_Label(tag) == 0) {
        L4_StoreMR(1, &word);
        sum += word;
        L4_LoadMR(1, sum);
        L4_Set_MsgTag(L4_MsgTagOfWord(1));
        tag = L4_ReplyWait(from, &from);
    }
    shared = L4_ThreadNo(L4_Myself()) * 1000 + sum;
    print_number("second: I am thread ", L4_ThreadNo(L4_Myself()), "\n");
    L4_Set_MsgTag(L4_Niltag);
    L4_Send(from);
    for (;;)
        L4_Receive(L4_Myself());
}

static void say(const char *what, L4_MsgTag_t tag) {
    print(what);
    print_number(L4_IpcFailed(tag) ? " fails, ErrorCode " : " succeeds, ", L4_ErrorCode(), "\n");
}

static void begin_second(void) {
    demand(L4_ThreadControl(SECOND, L4_Myself(), L4_Myself(), L4_Myself(), L4_Utcb() + 128), "root: the second thread cannot be created");
    /* it waits for the message of root, its pager so far, that starts it; but root will wait for it, and so cannot answer its page faults */
    demand(L4_ThreadControl(SECOND, SECOND, L4_nilthread, L4_Pager(), (void *)0xffffffffu), "root: the second thread gets no pager");
    L4_Set_MsgTag(L4_MsgTagOfWord(2));
    L4_LoadMR(1, (L4_Word_t)second);
    L4_LoadMR(2, (L4_Word_t)(stack + 1024));
    L4_Send(SECOND);
}

int main(void) {
    L4_Word_t k, word = 0;
    print_number("root: I am thread ", L4_ThreadNo(L4_Myself()), "\n");
    begin_second();
    for (k = 1; k <= 10; k++) {
        L4_Set_MsgTag(L4_MsgTagOfWord(1));
        L4_LoadMR(1, k);
        L4_Call(SECOND);
        L4_StoreMR(1, &word);
    }
    print_number("root: the sum is ", word, "\n");
    L4_Set_MsgTag(L4_MsgTagOfWord(0x10000));
    L4_Call(SECOND);
    print_number("root: in the shared word is ", shared, "\n");

    L4_Set_MsgTag(L4_Niltag);
    say("root: a send to a thread that does not exist", L4_Send(L4_GlobalId(9, 1)));
    L4_Set_MsgTag(L4_Niltag);
    say("root: a send to a thread that does not receive", L4_Send_Timeout(SECOND, L4_ZeroTime));
    say("root: a receive with no time", L4_Receive_Timeout(SECOND, L4_ZeroTime));
    L4_Set_MsgTag(L4_MsgTagOfWord(0x41)); /* one typed word, though an item has two */
    say("root: a send of half an item", L4_Send(SECOND));
    k = L4_ThreadControl(L4_GlobalId(8, 1), L4_Myself(), L4_Myself(), L4_Myself(), (void *)0x1000);
    print_number("root: a thread whose UTCB is outside the area: ", k, ", ");
    print_number("ErrorCode ", L4_ErrorCode(), "\n");
    k = L4_ThreadControl(SECOND, L4_nilthread, L4_nilthread, L4_nilthread, (void *)0xffffffffu);
    print_number("root: the second thread is deleted: ", k, "\n");
    L4_Set_MsgTag(L4_Niltag);
    say("root: a send to it", L4_Send(SECOND));
    L4_KDB_Enter("the threads have ended");
    return 0;
}
