#include "shared.h"

static void receive_from_3(L4_Word_t line) {
    print_reply(line, L4_Receive(thread(3)), thread(3));
}

int main(void) {
    wait_for_go();
    accept_pages();
    receive_from_3(0);
    wait_for_go();
    receive_from_3(13);
    return 0;
}
