/* Addresses and labels that root, the pager in the middle and its client share. */
#ifndef CHAIN_H
#define CHAIN_H

/* The client's program in the middle's space; the shared page in the spaces of root, the middle and the client; and the page that replaces it. */
#define TEXT_PLACE 0x1000000u
#define DATA_PLACE 0x1100000u
#define ROOT_PLACE 0xb0000u
#define ROOT_SECOND_PLACE 0xb1000u
#define MIDDLE_PLACE 0x1200000u
#define CLIENT_PLACE 0x800000u

/* Labels of messages from the middle to root, and from the client to the middle. */
enum { GIVE_PROGRAM = 1, TAKE_BACK = 2, REPLACE = 3, ALL_DONE = 4 };
enum { WRITTEN = 1, READ = 2, READ_AGAIN = 3 };

#endif
