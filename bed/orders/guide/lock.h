#include <l4/ipc.h>
#include <l4/kdebug.h>
#include <l4/message.h>
#include <l4/thread.h>

enum { ACQUIRE = 1, RELEASE = 2, GRANTED = 3, BUSY = 4 };
