/* Makes calls for ever, none of which waits. */
#include "children.h"

int main(void) {
    for (;;) {
        L4_Set_MsgTag(L4_Niltag);
        L4_Reply(L4_GlobalId(100, 1));
    }
}
