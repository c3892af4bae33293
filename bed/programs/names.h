/* The protocol of the name server, which is thread 3. A request has the words name, and for REGISTER the thread id. */
#ifndef NAMES_H
#define NAMES_H

#include "children.h"

#define NAME_SERVER child_id(0)
enum { REGISTER = 1, LOOK_UP = 2, CLOSE = 3 };
/* Labels of answers. The answer to LOOK_UP has the thread id. */
enum { DONE = 0, UNKNOWN = 1, TAKEN = 2, FULL = 3 };

/* A name of up to four letters. */
static inline L4_Word_t name_word(const char *text) {
    L4_Word_t word = 0;
    while (*text != 0)
        word = word << 8 | (L4_Word_t)*text++;
    return word;
}

/* Returns the label of the answer, and the word behind it if there is one. */
static inline L4_Word_t ask(L4_Word_t request, const char *name, L4_Word_t word, L4_Word_t *answer) {
    L4_MsgTag_t tag;
    L4_Set_MsgTag(L4_MsgTagOfWord(request << 16 | 2));
    L4_LoadMR(1, name_word(name));
    L4_LoadMR(2, word);
    tag = L4_Call(NAME_SERVER);
    if (L4_UntypedWords(tag) > 0)
        L4_StoreMR(1, answer);
    return L4_Label(tag);
}

#endif
