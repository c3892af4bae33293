/* Messages: registers, tags, and messages in memory. */
#ifndef L4_MESSAGE_H
#define L4_MESSAGE_H

#include <l4/space.h>
#include <l4/types.h>
#include <l4/utcb.h>

typedef union {
    L4_Word_t raw;
    struct {
        L4_Word_t u : 6;
        L4_Word_t t : 6;
        L4_Word_t flags : 4;
        L4_Word_t label : 16;
    } X;
} L4_MsgTag_t;

typedef union {
    L4_Word_t raw[64];
    L4_Word_t msg[64];
    L4_MsgTag_t tag;
} L4_Msg_t;

typedef union {
    L4_Word_t raw;
} L4_Acceptor_t;

L4_BEGIN_C

/* REGISTERS */

L4_INLINE void L4_StoreMR(int i, L4_Word_t *word) {
    *word = L4_Tcr(i);
}

L4_INLINE void L4_LoadMR(int i, L4_Word_t word) {
    L4_Set_Tcr(i, word);
}

L4_INLINE void L4_StoreMRs(int i, int k, L4_Word_t *words) {
    int j;
    for (j = 0; j < k; j++)
        L4_StoreMR(i + j, &words[j]);
}

L4_INLINE void L4_LoadMRs(int i, int k, const L4_Word_t *words) {
    int j;
    for (j = 0; j < k; j++)
        L4_LoadMR(i + j, words[j]);
}

L4_INLINE void L4_StoreBR(int i, L4_Word_t *word) {
    *word = L4_Tcr(L4_TCR_BUFFER_0 - i);
}

L4_INLINE void L4_LoadBR(int i, L4_Word_t word) {
    L4_Set_Tcr(L4_TCR_BUFFER_0 - i, word);
}

L4_INLINE void L4_StoreBRs(int i, int k, L4_Word_t *words) {
    int j;
    for (j = 0; j < k; j++)
        L4_StoreBR(i + j, &words[j]);
}

L4_INLINE void L4_LoadBRs(int i, int k, const L4_Word_t *words) {
    int j;
    for (j = 0; j < k; j++)
        L4_LoadBR(i + j, words[j]);
}

/* TAGS */

L4_INLINE L4_MsgTag_t L4_MsgTagOfWord(L4_Word_t raw) {
    L4_MsgTag_t t;
    t.raw = raw;
    return t;
}

#define L4_Niltag L4_MsgTagOfWord(0)

L4_INLINE L4_MsgTag_t L4_MsgTag(void) {
    return L4_MsgTagOfWord(L4_Tcr(0));
}

L4_INLINE void L4_Set_MsgTag(L4_MsgTag_t t) {
    L4_Set_Tcr(0, t.raw);
}

L4_INLINE L4_Bool_t L4_IsMsgTagEqual(L4_MsgTag_t l, L4_MsgTag_t r) {
    return l.raw == r.raw;
}

L4_INLINE L4_Bool_t L4_IsMsgTagNotEqual(L4_MsgTag_t l, L4_MsgTag_t r) {
    return l.raw != r.raw;
}

L4_INLINE L4_Word_t L4_Label(L4_MsgTag_t t) {
    return t.raw >> 16;
}

L4_INLINE L4_Word_t L4_UntypedWords(L4_MsgTag_t t) {
    return t.raw & 0x3f;
}

L4_INLINE L4_Word_t L4_TypedWords(L4_MsgTag_t t) {
    return t.raw >> 6 & 0x3f;
}

L4_INLINE L4_MsgTag_t L4_MsgTagAddLabel(L4_MsgTag_t t, L4_Word_t label) {
    return L4_MsgTagOfWord((t.raw & 0xffff) | label << 16);
}

L4_INLINE L4_MsgTag_t L4_MsgTagAddLabelTo(L4_MsgTag_t *t, L4_Word_t label) {
    *t = L4_MsgTagAddLabel(*t, label);
    return *t;
}

/* MESSAGES IN MEMORY */

L4_INLINE void L4_MsgClear(L4_Msg_t *msg) {
    msg->raw[0] = 0;
}

/* Writes a whole message: u untyped words, and t words of items. */
L4_INLINE void L4_MsgPut(L4_Msg_t *msg, L4_Word_t label, int u, const L4_Word_t *untyped, int t, const void *items) {
    int k;
    msg->raw[0] = label << 16 | (L4_Word_t)t << 6 | (L4_Word_t)u;
    for (k = 0; k < u; k++)
        msg->raw[1 + k] = untyped[k];
    for (k = 0; k < t; k++)
        msg->raw[1 + u + k] = ((const L4_Word_t *)items)[k];
}

/* Reads a whole message. */
L4_INLINE void L4_MsgGet(const L4_Msg_t *msg, L4_Word_t *untyped, void *items) {
    L4_Word_t u = msg->raw[0] & 0x3f, t = msg->raw[0] >> 6 & 0x3f, k;
    for (k = 0; k < u; k++)
        untyped[k] = msg->raw[1 + k];
    for (k = 0; k < t; k++)
        ((L4_Word_t *)items)[k] = msg->raw[1 + u + k];
}

L4_INLINE L4_MsgTag_t L4_MsgMsgTag(const L4_Msg_t *msg) {
    return L4_MsgTagOfWord(msg->raw[0]);
}

L4_INLINE void L4_Set_MsgMsgTag(L4_Msg_t *msg, L4_MsgTag_t t) {
    msg->raw[0] = t.raw;
}

L4_INLINE L4_Word_t L4_MsgLabel(const L4_Msg_t *msg) {
    return msg->raw[0] >> 16;
}

L4_INLINE void L4_Set_MsgLabel(L4_Msg_t *msg, L4_Word_t label) {
    msg->raw[0] = (msg->raw[0] & 0xffff) | label << 16;
}

/* Copies a message to the message registers. */
L4_INLINE void L4_MsgLoad(const L4_Msg_t *msg) {
    L4_LoadMRs(0, 1 + (int)(msg->raw[0] & 0x3f) + (int)(msg->raw[0] >> 6 & 0x3f), msg->raw);
}

/* Copies a received message from the message registers. */
L4_INLINE void L4_MsgStore(L4_MsgTag_t t, L4_Msg_t *msg) {
    msg->raw[0] = t.raw;
    L4_StoreMRs(1, (int)L4_UntypedWords(t) + (int)L4_TypedWords(t), &msg->raw[1]);
}

/* Appends an untyped word. Items that are already there move up. */
L4_INLINE void L4_MsgAppendWord(L4_Msg_t *msg, L4_Word_t w) {
    L4_Word_t u = msg->raw[0] & 0x3f, t = msg->raw[0] >> 6 & 0x3f, k;
    for (k = u + t; k > u; k--)
        msg->raw[1 + k] = msg->raw[k];
    msg->raw[1 + u] = w;
    msg->raw[0] += 1;
}

/* Appends an item. The lowest bit of the item before it says that another follows. */
L4_INLINE void L4_MsgAppendItem(L4_Msg_t *msg, const L4_Word_t *item) {
    L4_Word_t u = msg->raw[0] & 0x3f, t = msg->raw[0] >> 6 & 0x3f;
    if (t != 0)
        msg->raw[u + t - 1] |= 1;
    msg->raw[1 + u + t] = item[0];
    msg->raw[2 + u + t] = item[1];
    msg->raw[0] += 2u << 6;
}

L4_INLINE void L4_MsgAppendMapItem(L4_Msg_t *msg, L4_MapItem_t m) {
    L4_MsgAppendItem(msg, m.raw);
}

L4_INLINE void L4_MsgAppendGrantItem(L4_Msg_t *msg, L4_GrantItem_t g) {
    L4_MsgAppendItem(msg, g.raw);
}

/* Writes untyped word u, counted from 0, of a message that has it. */
L4_INLINE void L4_MsgPutWord(L4_Msg_t *msg, L4_Word_t u, L4_Word_t w) {
    msg->raw[1 + u] = w;
}

L4_INLINE L4_Word_t L4_MsgWord(const L4_Msg_t *msg, L4_Word_t u) {
    return msg->raw[1 + u];
}

L4_INLINE void L4_MsgGetWord(const L4_Msg_t *msg, L4_Word_t u, L4_Word_t *w) {
    *w = msg->raw[1 + u];
}

/* Writes or reads the item that begins at typed word t, counted from 0. Reading returns the item's number of words. */
L4_INLINE void L4_MsgPutMapItem(L4_Msg_t *msg, L4_Word_t t, L4_MapItem_t m) {
    L4_Word_t place = 1 + (msg->raw[0] & 0x3f) + t;
    msg->raw[place] = m.raw[0];
    msg->raw[place + 1] = m.raw[1];
}

L4_INLINE L4_Word_t L4_MsgGetMapItem(const L4_Msg_t *msg, L4_Word_t t, L4_MapItem_t *m) {
    L4_Word_t place = 1 + (msg->raw[0] & 0x3f) + t;
    m->raw[0] = msg->raw[place];
    m->raw[1] = msg->raw[place + 1];
    return 2;
}

L4_INLINE void L4_MsgPutGrantItem(L4_Msg_t *msg, L4_Word_t t, L4_GrantItem_t g) {
    L4_Word_t place = 1 + (msg->raw[0] & 0x3f) + t;
    msg->raw[place] = g.raw[0];
    msg->raw[place + 1] = g.raw[1];
}

L4_INLINE L4_Word_t L4_MsgGetGrantItem(const L4_Msg_t *msg, L4_Word_t t, L4_GrantItem_t *g) {
    L4_Word_t place = 1 + (msg->raw[0] & 0x3f) + t;
    g->raw[0] = msg->raw[place];
    g->raw[1] = msg->raw[place + 1];
    return 2;
}

/* ACCEPTORS */

L4_INLINE L4_Acceptor_t L4_AcceptorOfWord(L4_Word_t raw) {
    L4_Acceptor_t a;
    a.raw = raw;
    return a;
}

#define L4_UntypedWordsAcceptor L4_AcceptorOfWord(0)

L4_INLINE L4_Acceptor_t L4_MapGrantItems(L4_Fpage_t RcvWindow) {
    return L4_AcceptorOfWord(RcvWindow.raw & ~0xfu);
}

L4_INLINE L4_Acceptor_t L4_AddAcceptor(L4_Acceptor_t l, L4_Acceptor_t r) {
    return L4_AcceptorOfWord((r.raw & ~0xfu) != 0 ? r.raw | (l.raw & 1) : l.raw | r.raw);
}

L4_INLINE L4_Acceptor_t L4_AddAcceptorTo(L4_Acceptor_t *l, L4_Acceptor_t r) {
    *l = L4_AddAcceptor(*l, r);
    return *l;
}

L4_INLINE L4_Acceptor_t L4_RemoveAcceptor(L4_Acceptor_t l, L4_Acceptor_t r) {
    return L4_AcceptorOfWord((r.raw & ~0xfu) != 0 ? l.raw & 0xfu & ~r.raw : l.raw & ~(r.raw & 0xfu));
}

L4_INLINE L4_Acceptor_t L4_RemoveAcceptorFrom(L4_Acceptor_t *l, L4_Acceptor_t r) {
    *l = L4_RemoveAcceptor(*l, r);
    return *l;
}

L4_INLINE L4_Bool_t L4_HasMapGrantItems(L4_Acceptor_t a) {
    return (a.raw & ~0xfu) != 0;
}

L4_INLINE L4_Bool_t L4_HasStringItems(L4_Acceptor_t a) {
    return a.raw & 1;
}

L4_INLINE L4_Fpage_t L4_RcvWindow(L4_Acceptor_t a) {
    return L4_FpageOfWord(a.raw & ~0xfu);
}

L4_INLINE void L4_Accept(L4_Acceptor_t acceptor) {
    L4_LoadBR(0, acceptor.raw);
}

L4_INLINE L4_Acceptor_t L4_Accepted(void) {
    return L4_AcceptorOfWord(L4_Tcr(L4_TCR_BUFFER_0));
}

/* STRINGS */

typedef union {
    L4_Word_t raw[2];
} L4_StringItem_t;

typedef union {
    L4_Word_t raw[32];
} L4_MsgBuffer_t;

#define L4_STRINGS_REASON "this kernel has no string items: share a page instead, or send words"
L4_ABSENT(L4_STRINGS_REASON)
L4_StringItem_t L4_StringItem(int size, void *address);
L4_ABSENT(L4_STRINGS_REASON)
L4_Bool_t L4_IsStringItem(L4_StringItem_t *s);
L4_ABSENT(L4_STRINGS_REASON)
L4_Bool_t L4_CompoundString(L4_StringItem_t *s);
L4_ABSENT(L4_STRINGS_REASON)
L4_Word_t L4_Substrings(L4_StringItem_t *s);
L4_ABSENT(L4_STRINGS_REASON)
void *L4_Substring(L4_StringItem_t *s, L4_Word_t n);
L4_ABSENT(L4_STRINGS_REASON)
L4_StringItem_t *L4_AddSubstringTo(L4_StringItem_t *dest, L4_StringItem_t *s);
L4_ABSENT(L4_STRINGS_REASON)
L4_StringItem_t *L4_AddSubstringAddressTo(L4_StringItem_t *dest, void *address);
L4_ABSENT(L4_STRINGS_REASON)
void L4_MsgAppendSimpleStringItem(L4_Msg_t *msg, L4_StringItem_t s);
L4_ABSENT(L4_STRINGS_REASON)
void L4_MsgAppendStringItem(L4_Msg_t *msg, L4_StringItem_t *s);
L4_ABSENT(L4_STRINGS_REASON)
void L4_MsgPutSimpleStringItem(L4_Msg_t *msg, L4_Word_t t, L4_StringItem_t s);
L4_ABSENT(L4_STRINGS_REASON)
void L4_MsgPutStringItem(L4_Msg_t *msg, L4_Word_t t, L4_StringItem_t *s);
L4_ABSENT(L4_STRINGS_REASON)
L4_Word_t L4_MsgGetStringItem(const L4_Msg_t *msg, L4_Word_t t, L4_StringItem_t *s);
L4_ABSENT(L4_STRINGS_REASON)
L4_Acceptor_t L4_StringItemsAcceptor(void);
L4_ABSENT(L4_STRINGS_REASON)
void L4_AcceptStrings(L4_Acceptor_t acceptor, L4_MsgBuffer_t *b);
L4_ABSENT(L4_STRINGS_REASON)
void L4_MsgBufferClear(L4_MsgBuffer_t *b);
L4_ABSENT(L4_STRINGS_REASON)
void L4_MsgBufferAppendSimpleRcvString(L4_MsgBuffer_t *b, L4_StringItem_t s);
L4_ABSENT(L4_STRINGS_REASON)
void L4_MsgBufferAppendRcvString(L4_MsgBuffer_t *b, L4_StringItem_t *s);

L4_END_C

#ifdef __cplusplus
#include <l4/cxx/message.h>
#endif

#endif
