/* A name server: answers each request and waits for the next in one call, until it is closed. */
#include "names.h"

#define ROOM 2u

static struct {
    L4_Word_t name, thread;
} table[ROOM];
static L4_Word_t count;

static L4_Word_t place_of(L4_Word_t name) {
    L4_Word_t k = 0;
    while (k < count && table[k].name != name)
        k++;
    return k;
}

static L4_Word_t register_name(L4_Word_t name, L4_Word_t thread) {
    if (place_of(name) < count)
        return TAKEN;
    if (count == ROOM)
        return FULL;
    table[count].name = name;
    table[count++].thread = thread;
    return DONE;
}

static void answer(L4_MsgTag_t tag) {
    L4_Word_t name, thread, place;
    L4_StoreMR(1, &name);
    L4_StoreMR(2, &thread);
    if (L4_Label(tag) == REGISTER) {
        L4_Set_MsgTag(L4_MsgTagOfWord(register_name(name, thread) << 16));
        return;
    }
    place = place_of(name);
    L4_Set_MsgTag(L4_MsgTagOfWord(place == count ? UNKNOWN << 16 : 1));
    if (place < count)
        L4_LoadMR(1, table[place].thread);
}

int main(void) {
    L4_ThreadId_t from;
    L4_Word_t requests = 0;
    L4_MsgTag_t tag = L4_Wait(&from);
    while (L4_Label(tag) != CLOSE) {
        requests++;
        answer(tag);
        tag = L4_ReplyWait(from, &from);
    }
    print_number("server: answered ", requests, " requests\n");
    L4_Set_MsgTag(L4_Niltag);
    L4_Reply(from);
    L4_Set_MsgTag(L4_Niltag);
    L4_Send(L4_Pager());
    return 0;
}
