/* Sends messages of 0 to 63 words to thread 4, and checks the answers: each word is one more than before. */
#include "children.h"

#ifndef ROUNDS
#define ROUNDS 0
#endif
#ifndef WORDS
#define WORDS 0
#endif

static L4_Word_t words_back, sum, wrong;

static void exchange(L4_ThreadId_t pong, L4_Word_t count) {
    L4_Msg_t message;
    L4_MsgTag_t tag;
    L4_Word_t k;
    L4_MsgClear(&message);
    for (k = 1; k <= count; k++)
        L4_MsgAppendWord(&message, 1000 * count + k);
    L4_MsgLoad(&message);
    tag = L4_Call(pong);
    if (L4_IpcFailed(tag) || L4_UntypedWords(tag) != count || L4_TypedWords(tag) != 0)
        wrong++;
    L4_MsgStore(tag, &message);
    for (k = 1; k <= L4_UntypedWords(tag); k++) {
        words_back++;
        sum += L4_MsgWord(&message, k - 1);
        wrong += L4_MsgWord(&message, k - 1) != 1000 * count + k + 1;
    }
}

static void exchange_all(L4_ThreadId_t pong) {
    L4_Word_t count;
    print("ping: messages of 0 to 63 words\n");
    for (count = 0; count <= 63; count++)
        exchange(pong, count);
    print_number("ping: ", words_back, " words came back, ");
    print_number("their sum is ", sum, ", ");
    print_number("wrong are ", wrong, "\n");
}

/* Measures this many round trips. */
static void exchange_often(L4_ThreadId_t pong, L4_Word_t rounds) {
    L4_Clock_t begin = L4_SystemClock();
    L4_Word_t round;
    for (round = 0; round < rounds; round++) {
        L4_Set_MsgTag(L4_MsgTagOfWord(WORDS));
        L4_Call(pong);
    }
    print_number("ping: ", rounds, " round trips of ");
    print_number("", WORDS, " words took ");
    print_number("", (L4_Word_t)(L4_SystemClock().raw - begin.raw), " microseconds\n");
}

int main(void) {
    L4_ThreadId_t pong = L4_GlobalId(FIRST_CHILD + 1, 1);
    exchange_all(pong);
    if (ROUNDS > 0)
        exchange_often(pong, ROUNDS);
    L4_Set_MsgTag(L4_MsgTagOfWord(0x10000)); /* lets pong end */
    L4_Send(pong);
    L4_Set_MsgTag(L4_Niltag);
    L4_Send(L4_Pager());
    return 0;
}
