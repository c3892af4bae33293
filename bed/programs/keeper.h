/* Numbers in registers: one on the x87 stack, and one in an SSE register. */
#ifndef KEEPER_H
#define KEEPER_H

#include "children.h"

#define KEEPING 1
#define KEEPER_ROUNDS 5

static inline void set_numbers(L4_Word_t number) {
    L4_Word_t next = number + 1;
    __asm__ volatile("fildl %0\n\tmovd %1, %%xmm5" : : "m"(number), "r"(next));
}

/* Returns the sum of both. */
static inline L4_Word_t get_numbers(void) {
    L4_Word_t first, second;
    __asm__ volatile("fistpl %0\n\tmovd %%xmm5, %1" : "=m"(first), "=r"(second));
    return first + second;
}

/* Keeps numbers in registers while messages let other threads run, and returns their sum. */
static inline L4_Word_t keep_numbers(L4_Word_t number, L4_ThreadId_t partner) {
    int k;
    set_numbers(number);
    for (k = 0; k < KEEPER_ROUNDS; k++) {
        L4_Set_MsgTag(L4_MsgTagOfWord(KEEPING << 16));
        L4_Call(partner);
        L4_Yield();
    }
    return get_numbers();
}

#endif
