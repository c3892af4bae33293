/* C++ forms of <l4/message.h>. */
#ifndef L4_CXX_MESSAGE_H
#define L4_CXX_MESSAGE_H

L4_INLINE bool operator==(const L4_MsgTag_t &l, const L4_MsgTag_t &r) {
    return L4_IsMsgTagEqual(l, r);
}

L4_INLINE bool operator!=(const L4_MsgTag_t &l, const L4_MsgTag_t &r) {
    return L4_IsMsgTagNotEqual(l, r);
}

L4_INLINE L4_MsgTag_t operator+(const L4_MsgTag_t &t, L4_Word_t label) {
    return L4_MsgTagAddLabel(t, label);
}

L4_INLINE L4_MsgTag_t operator+=(L4_MsgTag_t &t, L4_Word_t label) {
    return L4_MsgTagAddLabelTo(&t, label);
}

L4_INLINE void L4_Clear(L4_Msg_t *msg) {
    L4_MsgClear(msg);
}

L4_INLINE void L4_Put(L4_Msg_t *msg, L4_Word_t label, int u, const L4_Word_t *untyped, int t, const void *items) {
    L4_MsgPut(msg, label, u, untyped, t, items);
}

L4_INLINE void L4_Get(const L4_Msg_t *msg, L4_Word_t *untyped, void *items) {
    L4_MsgGet(msg, untyped, items);
}

L4_INLINE L4_MsgTag_t L4_MsgTag(const L4_Msg_t *msg) {
    return L4_MsgMsgTag(msg);
}

L4_INLINE void L4_Set_MsgTag(L4_Msg_t *msg, L4_MsgTag_t t) {
    L4_Set_MsgMsgTag(msg, t);
}

L4_INLINE L4_Word_t L4_Label(const L4_Msg_t *msg) {
    return L4_MsgLabel(msg);
}

L4_INLINE void L4_Set_Label(L4_Msg_t *msg, L4_Word_t label) {
    L4_Set_MsgLabel(msg, label);
}

L4_INLINE void L4_Load(const L4_Msg_t *msg) {
    L4_MsgLoad(msg);
}

L4_INLINE void L4_Store(L4_MsgTag_t t, L4_Msg_t *msg) {
    L4_MsgStore(t, msg);
}

L4_INLINE void L4_Append(L4_Msg_t *msg, L4_Word_t w) {
    L4_MsgAppendWord(msg, w);
}

L4_INLINE void L4_Append(L4_Msg_t *msg, int w) {
    L4_MsgAppendWord(msg, (L4_Word_t)w);
}

L4_INLINE void L4_Append(L4_Msg_t *msg, L4_MapItem_t m) {
    L4_MsgAppendMapItem(msg, m);
}

L4_INLINE void L4_Append(L4_Msg_t *msg, L4_GrantItem_t g) {
    L4_MsgAppendGrantItem(msg, g);
}

L4_INLINE void L4_Put(L4_Msg_t *msg, L4_Word_t u, L4_Word_t w) {
    L4_MsgPutWord(msg, u, w);
}

L4_INLINE void L4_Put(L4_Msg_t *msg, L4_Word_t t, L4_MapItem_t m) {
    L4_MsgPutMapItem(msg, t, m);
}

L4_INLINE void L4_Put(L4_Msg_t *msg, L4_Word_t t, L4_GrantItem_t g) {
    L4_MsgPutGrantItem(msg, t, g);
}

L4_INLINE L4_Word_t L4_Get(const L4_Msg_t *msg, L4_Word_t u) {
    return L4_MsgWord(msg, u);
}

L4_INLINE void L4_Get(const L4_Msg_t *msg, L4_Word_t u, L4_Word_t *w) {
    L4_MsgGetWord(msg, u, w);
}

L4_INLINE L4_Word_t L4_Get(const L4_Msg_t *msg, L4_Word_t t, L4_MapItem_t *m) {
    return L4_MsgGetMapItem(msg, t, m);
}

L4_INLINE L4_Word_t L4_Get(const L4_Msg_t *msg, L4_Word_t t, L4_GrantItem_t *g) {
    return L4_MsgGetGrantItem(msg, t, g);
}

L4_INLINE L4_Acceptor_t operator+(const L4_Acceptor_t &l, const L4_Acceptor_t &r) {
    return L4_AddAcceptor(l, r);
}

L4_INLINE L4_Acceptor_t operator+=(L4_Acceptor_t &l, const L4_Acceptor_t &r) {
    return L4_AddAcceptorTo(&l, r);
}

L4_INLINE L4_Acceptor_t operator-(const L4_Acceptor_t &l, const L4_Acceptor_t &r) {
    return L4_RemoveAcceptor(l, r);
}

L4_INLINE L4_Acceptor_t operator-=(L4_Acceptor_t &l, const L4_Acceptor_t &r) {
    return L4_RemoveAcceptorFrom(&l, r);
}

L4_ABSENT(L4_STRINGS_REASON)
void L4_Append(L4_Msg_t *msg, L4_StringItem_t s);
L4_ABSENT(L4_STRINGS_REASON)
void L4_Append(L4_Msg_t *msg, L4_StringItem_t *s);
L4_ABSENT(L4_STRINGS_REASON)
void L4_Accept(L4_Acceptor_t acceptor, L4_MsgBuffer_t *b);
L4_ABSENT(L4_STRINGS_REASON)
void L4_Clear(L4_MsgBuffer_t *b);
L4_ABSENT(L4_STRINGS_REASON)
void L4_Append(L4_MsgBuffer_t *b, L4_StringItem_t s);

#endif
