/* The kernel debugger, which is l4_bed: it prints, and ends the run. */
#ifndef L4_KDEBUG_H
#define L4_KDEBUG_H

#include <l4/kip.h>

enum { L4_KDB_CHAR = 0, L4_KDB_STRING = 1, L4_KDB_ENTER = 2, L4_KDB_ASSERT = 3 };

L4_BEGIN_C

L4_INLINE void L4_KDB_Call(L4_Word_t what, L4_Word_t word) {
    __asm__ __volatile__("call *%[entry]" : "+a"(what), "+c"(word) : [entry] "r"(L4_KipEntry(L4_KIP_KDB)) : "memory", "cc");
}

/* Prints a character. The bed prints a line when it is complete, behind the thread's number. */
L4_INLINE void L4_KDB_PrintChar(int c) {
    L4_KDB_Call(L4_KDB_CHAR, (L4_Word_t)c);
}

L4_INLINE void L4_KDB_PrintString(const char *s) {
    L4_KDB_Call(L4_KDB_STRING, (L4_Word_t)s);
}

/* Ends the run. The bed prints the text as the reason. It exits with status 1 if the text begins with `failed` or `panic`, and otherwise with
 * status 0, or 6 if the bed has stopped a thread. */
L4_INLINE void L4_KDB_Enter(const char *s) {
    L4_KDB_Call(L4_KDB_ENTER, (L4_Word_t)s);
}

/* Ends the run with status 7 unless the condition holds. The bed prints the file, the line and the condition. (This macro is not in the
 * manual.) */
#define L4_KDB_TEXT_OF(number) #number
#define L4_KDB_TEXT(number) L4_KDB_TEXT_OF(number)
#define L4_KDB_Assert(condition) \
    ((condition) ? (void)0 : L4_KDB_Call(L4_KDB_ASSERT, (L4_Word_t) "`" #condition "` of " __FILE__ ":" L4_KDB_TEXT(__LINE__)))

L4_ABSENT("l4_bed has no keyboard input")
int L4_KDB_ReadChar(void);
L4_ABSENT("l4_bed has no keyboard input")
int L4_KDB_ReadChar_Blocked(void);

L4_END_C

#endif
