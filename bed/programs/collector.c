/* Asks its pager for pages again and again, and looks at the first of each message. */
#include "text.h"
#include <l4/ipc.h>
#include <l4/message.h>
#include <l4/thread.h>

#define TARGET 0x10000000u

int main(void) {
    L4_Word_t count, sum = 0;
    L4_Accept(L4_MapGrantItems(L4_CompleteAddressSpace));
    for (count = 0;; count++) {
        L4_Set_MsgTag(L4_Niltag);
        L4_Call(L4_Pager());
        sum += *(volatile L4_Word_t *)(TARGET + (count << 22));
        if (sum != 0)
            print("collector: a page is not empty\n");
    }
}
