/* What the test server and an agent share: the agent's slot, and where an agent's memory lies in its space. */
#ifndef SLOT_H
#define SLOT_H

#include <l4/types.h>

#define PAGE_BYTES 4096u

/* Every space with an agent has these addresses. The lists use none of them. */
#define AGENT_TEXT 0xb0000000u  /* the program of all agents; the Makefile links it there */
#define AGENT_SLOTS 0xb8000000u /* a page for each agent: its slot, and its stack at the end of the page */
#define AGENT_KIP 0xbfff0000u
#define AGENT_UTCBS 0xbfff8000u
#define AGENT_UTCBS_LOG 15
#define UTCB_BYTES 512u

enum call { NO_CALL, IPC, UNMAP, FAULT };
enum state { IDLE, CALLING, RETURNED };

/* The server writes what a call needs, and last which call it is. The agent writes its state, and how an Ipc has ended. */
struct slot {
    volatile L4_Word_t call, state;
    L4_Word_t to, from, timeouts, acceptor;
    L4_Word_t control;
    L4_Word_t address, access;
    L4_Word_t count, words[64];
    L4_Word_t tag, error, sender;
};

/* The label of the message by which an agent says that it runs. */
#define READY 1u

#endif
