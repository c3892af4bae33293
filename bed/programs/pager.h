/* The address and the labels that the pager and its client share. */
#ifndef PAGER_H
#define PAGER_H

/* The page of the client that the pager maps from one of its own. */
#define SHARED 0x800000u

/* Labels of messages from the client. */
enum { WRITTEN = 1, WRITTEN_AGAIN = 2, READ_AGAIN = 3 };

#endif
