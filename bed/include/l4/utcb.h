/* The thread's registers of the interface. Message register 0 is at the UTCB's address; the thread control registers are below it. Programs
 * use the functions of the other headers. */
#ifndef L4_UTCB_H
#define L4_UTCB_H

#include <l4/types.h>

enum {
    L4_TCR_THREAD_WORD_1 = -4,
    L4_TCR_THREAD_WORD_0 = -5,
    L4_TCR_ERROR_CODE = -9,
    L4_TCR_EXCEPTION_HANDLER = -11,
    L4_TCR_PAGER = -12,
    L4_TCR_USER_DEFINED_HANDLE = -13,
    L4_TCR_PROCESSOR_NO = -14,
    L4_TCR_MY_GLOBAL_ID = -15,
    L4_TCR_BUFFER_0 = -16 /* the other buffer registers are below it */
};

/* Returns the calling thread's UTCB: the kernel keeps its address in the word at gs:[0]. */
L4_INLINE L4_Word_t *L4_Utcb(void) {
    L4_Word_t *utcb;
    __asm__ __volatile__("movl %%gs:0, %0" : "=r"(utcb));
    return utcb;
}

L4_INLINE L4_Word_t L4_Tcr(int place) {
    return ((volatile L4_Word_t *)L4_Utcb())[place];
}

L4_INLINE void L4_Set_Tcr(int place, L4_Word_t word) {
    ((volatile L4_Word_t *)L4_Utcb())[place] = word;
}

#endif
