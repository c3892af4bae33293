/* The region that root delegates, page by page from even to odd pages, and the messages of the space that receives it. */
#ifndef REGION_PROGRAMS_H
#define REGION_PROGRAMS_H

#define REGION_PAGES 40u
#define REGION_SOURCE 0xa0000u
#define REGION_TARGET 0x901000u

/* Labels: of messages to root, and of root's last message. */
enum { READY_TO_RECEIVE = 1, REGION_RECEIVED = 2, WORKER_DONE = 3, REGION_ENDS = 4 };

#endif
