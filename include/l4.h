/*
 * An L4 X.2 kernel core in user space, for C99 and C++. Link with the archive libl4.a:
 *
 *     cc program.c $(pkg-config --cflags --libs l4)
 *
 * or with the shared library libl4.so:
 *
 *     cc program.c $(pkg-config --cflags --libs l4-shared) -Wl,-rpath,$(pkg-config --variable=libdir l4-shared)
 *
 * Without pkg-config, name the folder PREFIX that `make install-library PREFIX=..` installed into:
 *
 *     cc program.c -IPREFIX/include PREFIX/lib/libl4.a
 *     cc program.c -IPREFIX/include -LPREFIX/lib -ll4 -Wl,-rpath,PREFIX/lib
 *
 * KERNELS AND LOCKED KERNELS
 *
 * An l4_kernel is a kernel. An l4_lock is a locked kernel: a kernel that also keeps the history of its steps, and gives a seat to each thread
 * that makes calls. An l4_lock is not a mutex: no call on it waits, and it protects nothing against other threads of the program. Threads that
 * share one need a mutex of their own around each call (examples/threads.c).
 *
 * HANDLES
 *
 * A handle (l4_kernel, l4_lock, l4_segment, l4_sigma0, l4_pager, l4_orders) is a struct with one private pointer, which owns an object of
 * the library or is empty. Initialize it with L4_EMPTY, and let only the library write to it. A function that makes an object needs an
 * empty handle. The function that frees the object leaves the handle empty. Every object that is made must be freed once, or its memory
 * leaks.
 *
 * Any other call on an empty handle, which holds no object yet or whose object was freed, returns B1. Freeing an empty handle is allowed
 * and has no effect. You may move a handle in memory between calls. A copy of a handle becomes invalid as soon as the original is used
 * again.
 *
 * Every call may write to its handle, including a query such as l4_mapping_of. So no handle parameter is const, and a handle must be in
 * writable memory.
 *
 * POINTERS
 *
 * Every pointer argument must be aligned, must not be NULL, and must point to live objects of its type for the whole call. The exception is
 * an array whose length (count or room) is 0: the call does not read or write through its pointer, which may then be NULL. Memory that a
 * call writes (a handle, and every argument without const) must not overlap any other argument of that call.
 *
 * THREADS OF THE PROGRAM
 *
 * Make one call at a time on a handle; this includes queries. The library has no global state, so calls on two different handles are
 * independent, and two threads may make them at the same time. You may pass a handle from thread to thread with a lock, a join or another
 * means of synchronization. Do not call the library from a signal handler, or between fork and exec in a process that has several threads.
 *
 * MEMORY
 *
 * The library uses the program's malloc, realloc and free. These must belong to one allocator, and must align each block to every power of
 * two up to 16 that divides its size. Running out of memory is an ordinary error (NoMemory): the handle stays valid.
 *
 * RESULTS
 *
 * Results are returned by value. The first member of each, refusal, is L4_OK or a number that says why the call was refused. A function
 * that makes an object (except l4_orders_search and l4_checkpoint_read), l4_pager_add and l4_lock_give return this number itself. When a
 * step is refused, nothing has changed, and every other member is 0, except detail: the number that some refusals carry. The comment at
 * each function lists its refusals in the order in which they are tested.
 *
 * RESERVED MEMBERS
 *
 * Structs that may get further members have spare ones, named reserved, so that their layout need not change. The library writes them as 0.
 * In a struct that you pass (l4_call, l4_link) they must be 0: initialize the whole struct to 0 before you fill it in. A function to which you
 * pass one that is not 0 refuses it (B3).
 *
 * THREAD NUMBERS, THREAD IDS, PAGES AND RIGHTS
 *
 * A caller is named by its thread number (uint32_t thread), and a partner by its thread id, as in the kernel's own words. A thread id has
 * the thread number, 1 to 262,143, in bits 31 to 14, and the version, 1 to 16,383, in bits 13 to 0. The low six bits of a version are not
 * all zero. sigma0 and root have version 1.
 *
 * A page has L4_PAGE_BYTES bytes. The pages of a space are numbered from 0 to L4_SPACE_PAGES - 1. A parameter that is a page number accepts
 * every number from 0 to 4,294,967,295; a page beyond the space is never present. Rights are the sum of L4_READ, L4_WRITE and L4_EXECUTE;
 * other bits are ignored.
 *
 * PAGE SIZES
 *
 * A function whose name ends in _sized does the same as the function without that ending, for pages of page_bytes bytes. This is
 * L4_PAGE_BYTES, the size that the function without the ending uses, or L4_SMALL_PAGE_BYTES. Any other number returns B4, before every
 * other refusal. The small pages of a space are numbered from 0 to L4_SMALL_SPACE_PAGES - 1.
 *
 * A kernel and a table keep the page size with which they were made. Use tables, plans and checks of the same size as their kernel;
 * l4_page_size_of returns that size. Frames have the size of pages. In either size a machine has at most 4,096 frames.
 *
 * Message words, fpages and addresses are in bytes, so their form does not depend on the page size: an fpage of 2^s bytes has 2^(s - 12)
 * pages, or 2^(s - 10) small pages. An fpage of 1 or 2 KiB therefore has no page, or 1 or 2 small pages. To name the same bytes, regions,
 * faults and plans use other page numbers in the other size.
 */
#ifndef L4_H
#define L4_H

#include <stddef.h>
#include <stdint.h>

#ifdef __cplusplus
extern "C" {
#endif

/* The version of this header. L4_VERSION is one number, which is larger for a later version. */
#define L4_VERSION_MAJOR UINT32_C(0)
#define L4_VERSION_MINOR UINT32_C(1)
#define L4_VERSION_PATCH UINT32_C(0)
#define L4_VERSION (L4_VERSION_MAJOR * 1000000 + L4_VERSION_MINOR * 1000 + L4_VERSION_PATCH)

/* Returns the version of the library: the L4_VERSION of the header with which it was built. A program that loads the shared library can
 * compare the two. Versions fit together if their first numbers are equal and, where these are 0, their second numbers are equal too; the
 * library must not be older than the header. */
uint32_t l4_version(void);

/* The size of a page: 2^L4_PAGE_LOG bytes. */
#define L4_PAGE_LOG 12
#define L4_PAGE_BYTES (UINT32_C(1) << L4_PAGE_LOG)

/* The size of a small page: 2^L4_SMALL_PAGE_LOG bytes. */
#define L4_SMALL_PAGE_LOG 10
#define L4_SMALL_PAGE_BYTES (UINT32_C(1) << L4_SMALL_PAGE_LOG)

/* Limits, in this order: threads; words of a message; map and grant items of a message; items of a plan; messages of a plan; pages that
 * prove a region to need a longer plan (L4_TOO_MANY); frames; pages of a space; small pages of a space; regions of a pager's table. */
#define L4_MAX_THREADS 64
#define L4_MAX_WORDS 64
#define L4_MAX_ITEMS 31
#define L4_MAX_PLAN_ITEMS 1984
#define L4_MAX_PLAN_MESSAGES 64
#define L4_TOO_MANY 1985
#define L4_MAX_FRAMES UINT32_C(4096)
#define L4_SPACE_PAGES UINT32_C(1048576)
#define L4_SMALL_SPACE_PAGES UINT32_C(4194304)
#define L4_MAX_REGIONS 64

/* The thread ids nilthread (no thread) and anythread (any thread), and the timeout of zero. A timeout of 0 means never. The timeouts member
 * of a call has the send timeout in bits 31 to 16 and the receive timeout in bits 15 to 0. */
#define L4_NILTHREAD UINT32_C(0)
#define L4_ANYTHREAD UINT32_C(0xFFFFFFFF)
#define L4_ZERO_TIMEOUT UINT32_C(0x400)

/* Rights. */
#define L4_READ UINT32_C(4)
#define L4_WRITE UINT32_C(2)
#define L4_EXECUTE UINT32_C(1)

/* REFUSALS
 *
 * The value of each constant is the first two bytes of the code that the programs print: 0x4B31 is "K1". The number that some refusals
 * carry is in the member detail. */
#define L4_OK UINT32_C(0)
#define L4_B1 UINT32_C(0x4231) /* the handle is empty: it was never created, or it was freed */
#define L4_B2 UINT32_C(0x4232) /* the handle is not empty: free it before you use it again */
#define L4_B3 UINT32_C(0x4233) /* the kind of call is unknown, or a reserved member is not 0 */
#define L4_B4 UINT32_C(0x4234) /* the page size must be 4,096 or 1,024 bytes */
#define L4_B5 UINT32_C(0x4235) /* the line is not a step or query of a step list */
#define L4_B6 UINT32_C(0x4236) /* the bytes cannot be read as a checkpoint */
#define L4_B7 UINT32_C(0x4237) /* a number of entries exceeds 2^63 */
#define L4_K1 UINT32_C(0x4B31) /* the step is not enabled: this transfer or expiry cannot happen now, or the thread does not wait */
#define L4_K2 UINT32_C(0x4B32) /* there is no thread with this number */
#define L4_K3 UINT32_C(0x4B33) /* the thread's previous call has not ended yet */
#define L4_K4 UINT32_C(0x4B34) /* a timeout is neither never (0) nor zero (0x400) */
#define L4_K6 UINT32_C(0x4B36) /* the number of frames must be from 1 to 4,096 */
#define L4_M1 UINT32_C(0x4D31) /* the tag counts more than 63 words, untyped and typed together */
#define L4_M2 UINT32_C(0x4D32) /* the tag counts an odd number of typed words, but every item has two */
#define L4_M3 UINT32_C(0x4D33) /* the item (detail, from 0) has an unknown kind, or its fpage is invalid */
#define L4_M4 UINT32_C(0x4D34) /* the item (detail, from 0) is a string or CtrlXfer item, which the kernel does not support */
#define L4_M5 UINT32_C(0x4D35) /* a flag is set in the tag, but the kernel supports no flags */
#define L4_M6 UINT32_C(0x4D36) /* the receive window is not a valid fpage */
#define L4_M7 UINT32_C(0x4D37) /* the tag is missing, or fewer words follow it than it counts */
#define L4_H1 UINT32_C(0x4831) /* the caller is not in root's address space */
#define L4_H2 UINT32_C(0x4832) /* the id is not a valid thread id */
#define L4_H3 UINT32_C(0x4833) /* a thread with this number already exists */
#define L4_H4 UINT32_C(0x4834) /* there is no thread with this id */
#define L4_H5 UINT32_C(0x4835) /* there are already 64 threads, or all space numbers are used up */
#define L4_H6 UINT32_C(0x4836) /* sigma0, root and the caller itself cannot be deleted */
#define L4_U1 UINT32_C(0x5531) /* a word (detail, from 0) passed to Unmap is not a valid fpage */
#define L4_U2 UINT32_C(0x5532) /* Unmap got fewer words than its control word requires */
#define L4_N1 UINT32_C(0x4E31) /* the region has no pages */
#define L4_N2 UINT32_C(0x4E32) /* the source or target pages go beyond the end of a space */
#define L4_N3 UINT32_C(0x4E33) /* the region has no rights: request at least one of r, w and x */
#define L4_N4 UINT32_C(0x4E34) /* the region needs more than 1,984 map items, the most that 64 messages can hold */
#define L4_N5 UINT32_C(0x4E35) /* the plan has more than one message */
#define L4_N6 UINT32_C(0x4E36) /* the plan has no message with this number */
#define L4_C1 UINT32_C(0x4331) /* the item (detail, from 0) does not fit the region */
#define L4_C2 UINT32_C(0x4332) /* no item of the plan moves the page (detail) */
#define L4_C3 UINT32_C(0x4333) /* the page at this position (detail, from 0) in the list is not in the region */
#define L4_C4 UINT32_C(0x4334) /* one map item could move the page at this position (detail, from 0) and an earlier one */
#define L4_C5 UINT32_C(0x4335) /* the plan has more than 1,984 items, or not one page per item; or a too-long claim does not list 1,985 pages */
#define L4_C6 UINT32_C(0x4336) /* the region itself is refused with N1, N2 or N3 */
#define L4_P1 UINT32_C(0x5031) /* the region overlaps another region in the table */
#define L4_P2 UINT32_C(0x5032) /* no region in the table covers this page with the requested access */
#define L4_P3 UINT32_C(0x5033) /* the table is full: it has 64 regions */
#define L4_P4 UINT32_C(0x5034) /* the region has no pages or no rights, or one of its pages or source pages is beyond the end of the space */
#define L4_L1 UINT32_C(0x4C31) /* the history is full: no call can start once it has more than 999,871 steps */
#define L4_L3 UINT32_C(0x4C33) /* the reply to an earlier call of this seat has not been taken yet */
#define L4_L4 UINT32_C(0x4C34) /* the seat of this number was already given out */
#define L4_L6 UINT32_C(0x4C36) /* a transfer (entry detail, from 0) that ran out of memory in the history succeeded when the history was replayed */
#define L4_L7 UINT32_C(0x4C37) /* the given links do not match the way the page got there */
#define L4_L8 UINT32_C(0x4C38) /* the entries or receipts that this needs were handed out */
#define L4_X1 UINT32_C(0x5831) /* the seat of this number (detail) was given out, but was not returned */
#define L4_X2 UINT32_C(0x5832) /* the seat of this number (detail) was never given out, or was returned twice */
#define L4_X3 UINT32_C(0x5833) /* the seat of this number (detail) does not match the lock's records */
#define L4_S1 UINT32_C(0x5331) /* the command is unknown */
#define L4_S2 UINT32_C(0x5332) /* the line has too few tokens, too many, or an invalid one */
#define L4_S3 UINT32_C(0x5333) /* the line is longer than 4,096 bytes */
#define L4_S4 UINT32_C(0x5334) /* the line does not end with a newline */
#define L4_S5 UINT32_C(0x5335) /* the script already has 64 names */
#define L4_O1 UINT32_C(0x4F31) /* a litmus test has one unordered line, and after it at most one finally line */
#define L4_O2 UINT32_C(0x4F32) /* a query or a rule is allowed only after the finally line, and a name only before the unordered line */
#define L4_O3 UINT32_C(0x4F33) /* after the finally line, only show, parent, reply, never and always are allowed */
#define L4_O4 UINT32_C(0x4F34) /* steps is not allowed, because its answer depends on the whole order */
#define L4_O5 UINT32_C(0x4F35) /* no line creates the thread (detail) whose call this is */
#define L4_O6 UINT32_C(0x4F36) /* the litmus test has no unordered line */
#define L4_O7 UINT32_C(0x4F37) /* no outcome can have the line that the rule names */
#define L4_O8 UINT32_C(0x4F38) /* an expectation is not allowed in a litmus test: state a rule instead */
#define L4_NO_MEMORY UINT32_C(0x4E6F) /* there was not enough memory */

/* The same refusals by name. */
#define L4_HANDLE_IN_USE L4_B2
#define L4_UNKNOWN_CALL L4_B3
#define L4_BAD_PAGE_SIZE L4_B4
#define L4_EMPTY_HANDLE L4_B1
#define L4_NOT_A_STEP L4_B5
#define L4_NOT_A_CHECKPOINT L4_B6
#define L4_TOO_MANY_ENTRIES L4_B7
#define L4_STEP_NOT_ENABLED L4_K1
#define L4_NO_SUCH_THREAD L4_K2
#define L4_STILL_WAITING L4_K3
#define L4_BAD_TIMEOUT L4_K4
#define L4_BAD_FRAME_COUNT L4_K6
#define L4_TOO_MANY_WORDS L4_M1
#define L4_ODD_ITEM_WORDS L4_M2
#define L4_BAD_ITEM L4_M3
#define L4_UNSUPPORTED_ITEM L4_M4
#define L4_TAG_HAS_FLAGS L4_M5
#define L4_BAD_WINDOW L4_M6
#define L4_TOO_FEW_WORDS L4_M7
#define L4_NOT_ROOT L4_H1
#define L4_BAD_THREAD_ID L4_H2
#define L4_THREAD_EXISTS L4_H3
#define L4_NO_SUCH_ID L4_H4
#define L4_TOO_MANY_THREADS L4_H5
#define L4_UNDELETABLE L4_H6
#define L4_BAD_UNMAP_WORD L4_U1
#define L4_TOO_FEW_UNMAP_WORDS L4_U2
#define L4_EMPTY_REGION L4_N1
#define L4_REGION_BEYOND_SPACE L4_N2
#define L4_REGION_WITHOUT_RIGHTS L4_N3
#define L4_PLAN_TOO_LONG L4_N4
#define L4_SEVERAL_MESSAGES L4_N5
#define L4_NO_SUCH_MESSAGE L4_N6
#define L4_FOREIGN_ITEM L4_C1
#define L4_PAGE_NOT_MOVED L4_C2
#define L4_FOREIGN_PAGE L4_C3
#define L4_PAGE_NOT_APART L4_C4
#define L4_BAD_PAGE_COUNT L4_C5
#define L4_REFUSED_REGION L4_C6
#define L4_REGIONS_OVERLAP L4_P1
#define L4_NOT_SERVED L4_P2
#define L4_FULL_TABLE L4_P3
#define L4_BAD_REGION L4_P4
#define L4_HISTORY_FULL L4_L1
#define L4_REPLY_WAITING L4_L3
#define L4_SEAT_TAKEN L4_L4
#define L4_MEMORY_FOUND_SINCE L4_L6
#define L4_OTHER_PROVENANCE L4_L7
#define L4_HANDED_OUT L4_L8
#define L4_SEAT_MISSING L4_X1
#define L4_SEAT_FOREIGN L4_X2
#define L4_SEAT_WRONG L4_X3
#define L4_UNKNOWN_COMMAND L4_S1
#define L4_BAD_LINE L4_S2
#define L4_LONG_LINE L4_S3
#define L4_CUT_LINE L4_S4
#define L4_NAMES_FULL L4_S5
#define L4_PART_REPEATED L4_O1
#define L4_LINE_OF_NO_THREAD L4_O2
#define L4_NOT_A_QUERY L4_O3
#define L4_STEPS_IN_PLAN L4_O4
#define L4_NEVER_CREATED L4_O5
#define L4_NO_UNORDERED L4_O6
#define L4_NO_SUCH_ANSWER L4_O7
#define L4_EXPECTATION L4_O8

/* Write the printed code of a refusal ("K1", "NoMemory"), or a line of text that explains it, to out. At most the first `room` - 1 bytes
 * are written, and a 0 after them; nothing is written if room is 0. Both functions return the length of the whole text without the 0. It is
 * below 160, and 0 for a number that is not a refusal. */
size_t l4_refusal_code(uint32_t refusal, char *out, size_t room);
size_t l4_refusal_text(uint32_t refusal, char *out, size_t room);

/* KERNELS */

typedef struct l4_kernel {
    void *hidden;
} l4_kernel;

/* Initializes an empty handle. */
#define L4_EMPTY {NULL}

/* Boots a kernel with 1 to 4,096 frames. sigma0 is thread 1 in space 0, where frame i is mapped at page i with all rights. root is thread 2
 * in space 1, which is empty. The handle must be empty; it then owns the kernel, and you free it with l4_free. After a refusal the handle
 * is unchanged. Refusals in this order: B2, K6, NoMemory. */
uint32_t l4_boot(l4_kernel *kernel, uint32_t frames);

/* Boots a kernel as l4_boot does, with pages and frames of page_bytes bytes for the kernel's whole life. Refusals in this order: B4, B2,
 * K6, NoMemory. */
uint32_t l4_boot_sized(l4_kernel *kernel, uint32_t frames, uint32_t page_bytes);

/* Copies a kernel into a second, empty handle. The copy has the same threads with what each is doing and its message registers, the same
 * queue of senders, the same spaces and the same mappings, in memory of its own. Changes to one kernel are not visible in the other. You
 * free the copy with l4_free. After a refusal the second handle is unchanged; the first is unchanged in either case. The memory that a copy
 * takes depends on the largest number of pages that were ever present at once. Refusals in this order: B1 for the kernel, B2 for the copy,
 * NoMemory. */
uint32_t l4_copy(l4_kernel *kernel, l4_kernel *copy);

/* Frees a kernel and all its memory, and leaves the handle empty. */
void l4_free(l4_kernel *kernel);

/* Kinds of calls. */
#define L4_IPC UINT32_C(1)
#define L4_FAULT UINT32_C(2)
#define L4_UNMAP UINT32_C(3)
#define L4_CREATE UINT32_C(4)
#define L4_SET_PAGER UINT32_C(5)
#define L4_DELETE UINT32_C(6)

/* A call of a thread. Set every member to 0 first, then kind and the members of that kind: the library reads only those. */
typedef struct l4_call {
    uint32_t kind;
    /* L4_IPC: a send phase to the thread id `to`, unless that is L4_NILTHREAD, and then a receive phase from the thread id `from`, unless
     * that is L4_NILTHREAD. The acceptor word names the receive window. The words of the call are the message registers, the tag first. */
    uint32_t to;
    uint32_t from;
    uint32_t timeouts;
    uint32_t acceptor;
    /* L4_FAULT: a page fault at this address by the instruction at ip, both in bytes, and the rights that the access needs. */
    uint32_t address;
    uint32_t ip;
    uint32_t access;
    /* L4_UNMAP: bit 6 set means that the caller's own pages lose the rights too. Bits 5 to 0 are k: the words 0 to k of the call are fpages
     * with the rights to take. */
    uint32_t control;
    /* L4_CREATE: creates a thread with this id and this pager (or L4_NILTHREAD), in the space of the thread id `space`, or in a new space
     * if `space` is the same id. L4_SET_PAGER: sets the pager of the thread `id`. L4_DELETE: deletes the thread `id`. */
    uint32_t id;
    uint32_t space;
    uint32_t pager;
    uint32_t reserved[4]; /* must be 0 */
} l4_call;

/* Outcomes of a step. */
#define L4_STARTED UINT32_C(1)    /* a call was started */
#define L4_DELIVERED UINT32_C(2)  /* a transfer: the message was delivered, and its map and grant items were executed */
#define L4_NO_WINDOW UINT32_C(3)  /* a transfer: the message has items and the receiver's window is nil; both calls failed */
#define L4_ENTANGLED UINT32_C(4)  /* a transfer: the message's items conflict; both calls failed */
#define L4_WANTS_MEMORY UINT32_C(5) /* a transfer: an allocation failed; both calls failed, and no page moved */
#define L4_EXPIRED UINT32_C(6)    /* a wait with a timeout of zero expired */
#define L4_WAIT_ENDED UINT32_C(7) /* l4_timeout or l4_cancel ended a wait */

/* The outcome of a step, and the numbers of the threads whose calls ended in it. After a transfer these are the sender and then the
 * receiver; after a Delete, the caller and then the others by rising number. */
typedef struct l4_answer {
    uint32_t refusal;
    uint32_t detail;
    uint32_t outcome;
    uint32_t ended_count;
    uint32_t ended[L4_MAX_THREADS];
    uint32_t reserved[2];
} l4_answer;

/* Starts a call of a thread. The call ends at once if it needs no partner or can have none; otherwise the thread waits. An Ipc and an Unmap
 * read `count` words at words, of which those beyond the first 64 are ignored; other calls read none. Refusals in this order: B1, B3, K2,
 * K3, K4; then those of the message (M7, M1, M5, M2, M4 or M3) and of the window (M6), of an Unmap (U2, U1), or of a Create, SetPager or
 * Delete (H1 to H6; NoMemory for a Create in a new space). */
l4_answer l4_start(l4_kernel *kernel, uint32_t thread, const l4_call *call, const uint32_t *words, size_t count);

/* Delivers the sender's message to the receiver. Refusals in this order: B1, K1. */
l4_answer l4_transfer(l4_kernel *kernel, uint32_t sender, uint32_t receiver);

/* Ends the thread's wait that has a timeout of zero. Refusals in this order: B1, K1. */
l4_answer l4_expire(l4_kernel *kernel, uint32_t thread);

/* Ends the thread's wait, whatever its timeouts are, also if a transfer of it is enabled. You call it when a timeout has passed by a clock of
 * your own. The Ipc ends with ErrorCode 2 if the thread was sending, and 3 if it was receiving; a fault ends as L4_REPLY_FAILED with the
 * same codes. A receive phase that would have followed a send phase does not begin. Refusals in this order: B1, K1 (the thread does not
 * wait, or does not exist). */
l4_answer l4_timeout(l4_kernel *kernel, uint32_t thread);

/* Ends the thread's wait as l4_timeout does, but with ErrorCode 6 if the thread was sending, and 7 if it was receiving. ExchangeRegisters
 * cancels an Ipc in this way. Refusals in this order: B1, K1. */
l4_answer l4_cancel(l4_kernel *kernel, uint32_t thread);

/* Kinds of enabled steps. */
#define L4_NONE UINT32_C(0)
#define L4_TRANSFER UINT32_C(1) /* from thread to receiver */
#define L4_EXPIRE UINT32_C(2)   /* of thread */

/* An enabled step. Once the step has been executed, outcome says what it did, and ended has the threads whose calls ended in it; before
 * that, outcome and ended_count are 0. */
typedef struct l4_step {
    uint32_t refusal;
    uint32_t kind;
    uint32_t thread;
    uint32_t receiver;
    uint32_t outcome;
    uint32_t ended_count;
    uint32_t ended[2];
    uint32_t reserved[2];
} l4_step;

/* Returns the step that is executed next if no call is started: the enabled transfer whose sender has waited longest, or, if no transfer is
 * enabled, the enabled expiry of the lowest thread number. The kind is L4_NONE if no step is enabled. Refusals: B1. */
l4_step l4_enabled(l4_kernel *kernel);

/* Executes the step that l4_enabled returns. Refusals: B1. */
l4_step l4_next(l4_kernel *kernel);

/* A call that was started, and the number of steps that followed it. */
typedef struct l4_entered {
    l4_answer start;
    uint32_t step_count;
} l4_entered;

/* Starts a call as l4_start does, and then executes the next step until no step is enabled. The first `room` steps are written to steps;
 * there are at most 64. After a refusal nothing is written. Refusals: those of l4_start. */
l4_entered l4_enter(l4_kernel *kernel, uint32_t thread, const l4_call *call, const uint32_t *words, size_t count, l4_step *steps, size_t room);

/* Kinds of replies. */
#define L4_REPLY_IPC UINT32_C(1)
#define L4_REPLY_HIT UINT32_C(2)       /* a fault: the page is present with the rights that the access needs */
#define L4_REPLY_ANSWERED UINT32_C(3)  /* a fault that the pager answered */
#define L4_REPLY_FAILED UINT32_C(4)    /* a fault that failed: error has the ErrorCode */
#define L4_REPLY_UNMAPPED UINT32_C(5)
#define L4_REPLY_CONTROLLED UINT32_C(6)
#define L4_REPLY_GONE UINT32_C(7)

/* How a call ended. The kind is L4_NONE if there is no reply. For an Ipc: the tag of the received message (0x8000 if the call failed), the
 * ErrorCode or 0, the sender's thread id or L4_NILTHREAD, the number of words after the tag (at most 63), and these words. */
typedef struct l4_reply {
    uint32_t refusal;
    uint32_t kind;
    uint32_t tag;
    uint32_t error;
    uint32_t from;
    uint32_t word_count;
    uint32_t words[L4_MAX_WORDS];
    uint32_t reserved[2];
} l4_reply;

/* Returns the reply of the thread's last call, which has ended. The kind is L4_NONE if the thread waits, does not exist, or has made no
 * call yet. Refusals: B1. */
l4_reply l4_reply_of(l4_kernel *kernel, uint32_t thread);

/* Write the line of text that `l4 run` prints for a reply of a thread, such as "3 ipc 00000080 0 1 00020008 000100c7", or for a step, such
 * as "transfer 1 3 done", to out. The text is empty if the kind is L4_NONE. At most the first `room` - 1 bytes are written, and a 0 after
 * them; nothing is written if room is 0. Both functions return the length of the whole text without the 0. A line has no newline, and at
 * most 656 bytes, or 160 for a step. */
size_t l4_reply_text(uint32_t thread, const l4_reply *reply, char *out, size_t room);
size_t l4_step_text(const l4_step *step, char *out, size_t room);

/* A number of pages, of entries or of bytes. */
typedef struct l4_count {
    uint32_t refusal;
    uint64_t count;
} l4_count;

/* Executes a line of a step list, without its newline, such as "transfer 4 2" or "reply 3": a step or a query. Writes the lines that l4_steps
 * prints for it, such as "done\n4 ipc 00000000 0 00000000\n", to out. At most the first `room` - 1 bytes are written, and a 0 after them;
 * nothing is written if room is 0. The count is the length of the whole text without the 0. A line has at most 656 bytes, and there is at most
 * one for each thread whose call ended, after the first.
 *
 * Refusals in this order: B1, B5, NoMemory. After B5 nothing has changed. After NoMemory the step has been executed. Nothing is written after a
 * refusal. If the kernel refuses the step, that is its answer, such as "refused K1\n". */
l4_count l4_execute(l4_kernel *kernel, const char *step, size_t step_length, char *out, size_t room);

/* Verdicts on another kernel's answer to a step. */
#define L4_AGREES UINT32_C(1)
#define L4_DIFFERS UINT32_C(2)
#define L4_NOT_ENABLED UINT32_C(3) /* it differs because this kernel refuses the step with K1: another step is enabled, or none */

/* What l4_judge found. place is the number of the first line of the answer that differs, from 0, and length is the length of this kernel's
 * line at that place. If length is 0, this kernel's answer has no further line. Both are 0 if the answers agree. enabled is the step that
 * is enabled now, as l4_enabled returns it. */
typedef struct l4_judgement {
    uint32_t refusal;
    uint32_t verdict;
    uint64_t place;
    uint64_t length;
    l4_step enabled;
    uint32_t reserved[2];
} l4_judgement;

/* Watches another kernel: executes a step that the other kernel executed, and compares the other kernel's answer with this kernel's, as
 * `l4 judge` does. The step is a line of a step list without its newline, such as "transfer 4 2" or "reply 3": a step or a query. The
 * answer has the lines that l4_steps prints for it, such as "done\n4 ipc 00000000 0 00000000\n", of which the last need not end with a
 * newline. A line "?" matches any one line. An answer without lines differs at place 0.
 *
 * Of this kernel's line at the place of the difference, at most the first `room` - 1 bytes are written to expected, and a 0 after them. A
 * line has at most 656 bytes. If the answers agree, the text is empty. Nothing is written if room is 0, or after a refusal.
 *
 * This kernel executes the step even if the answers differ, so its state follows the definition. Refusals in this order: B1, B5,
 * NoMemory. After B5 nothing has changed. After NoMemory the step has been executed, but its answer was not compared. */
l4_judgement l4_judge(l4_kernel *kernel, const char *step, size_t step_length, const char *found, size_t found_length, char *expected, size_t room);

/* The number of a space; `there` is 0 if there is none. */
typedef struct l4_space {
    uint32_t refusal;
    uint32_t there;
    uint64_t space;
} l4_space;

/* Returns the space of a thread; `there` is 0 if no thread has this number. Refusals: B1. */
l4_space l4_space_of(l4_kernel *kernel, uint32_t thread);

/* Returns the lowest number of a space that is not below `space`; `there` is 0 if there is none. To list all spaces, start at 0, and
 * continue at the number found plus 1. Refusals: B1. */
l4_space l4_next_space(l4_kernel *kernel, uint64_t space);

/* The number of a thread; `there` is 0 if there is none. */
typedef struct l4_thread {
    uint32_t refusal;
    uint32_t there;
    uint32_t thread;
} l4_thread;

/* Returns the lowest number of a thread that is not below `thread`. To list all threads, start at 0, and continue at the number found plus
 * 1. Refusals: B1. */
l4_thread l4_next_thread(l4_kernel *kernel, uint32_t thread);

/* States of a thread. */
#define L4_STATE_ABSENT UINT32_C(0)    /* no thread has this number */
#define L4_STATE_NEW UINT32_C(1)       /* the thread runs, and has made no call yet */
#define L4_STATE_RUNNING UINT32_C(2)   /* the thread runs, and its last call has ended: l4_reply_of returns the reply */
#define L4_STATE_SENDING UINT32_C(3)   /* the thread waits until its partner receives its message */
#define L4_STATE_RECEIVING UINT32_C(4) /* the thread waits for a message from its partner */

/* What a thread is doing. id is its thread id, which has its version. pager is the thread id of its pager, or L4_NILTHREAD.
 *
 * partner is the thread id of the partner for which the thread waits, or L4_ANYTHREAD if it accepts a message from any thread. It is
 * L4_NILTHREAD if the thread does not wait. expires is 1 if the wait has a timeout of zero, and 0 if it has none. fault is 1 if the wait
 * belongs to a page fault, and otherwise 0. All members but refusal are 0 if the state is L4_STATE_ABSENT. */
typedef struct l4_state {
    uint32_t refusal;
    uint32_t state;
    uint64_t space;
    uint32_t id;
    uint32_t pager;
    uint32_t partner;
    uint32_t expires;
    uint32_t fault;
    uint32_t reserved[3];
} l4_state;

/* Returns what the thread with this number is doing. Refusals: B1. */
l4_state l4_state_of(l4_kernel *kernel, uint32_t thread);

/* The size of a kernel's pages in bytes: L4_PAGE_BYTES or L4_SMALL_PAGE_BYTES. */
typedef struct l4_page_size {
    uint32_t refusal;
    uint32_t page_bytes;
} l4_page_size;

/* Returns the size of the pages and frames with which the kernel was booted. Refusals: B1. */
l4_page_size l4_page_size_of(l4_kernel *kernel);

/* A mapping: the frame and the rights of a page, and its parent. `there` is 0 if the page is not present. The parent is the page from which
 * this page was mapped; a granted page keeps the parent that it had before the grant. has_parent is 0 for sigma0's boot pages, also after a
 * grant of them. */
typedef struct l4_mapping {
    uint32_t refusal;
    uint32_t there;
    uint32_t frame;
    uint32_t rights;
    uint32_t has_parent;
    uint32_t parent_page;
    uint64_t parent_space;
    uint32_t reserved[2];
} l4_mapping;

/* Returns the mapping of a page of a space; `there` is 0 if the page is not present, which includes a space or page that does not exist.
 * Refusals: B1. */
l4_mapping l4_mapping_of(l4_kernel *kernel, uint64_t space, uint32_t page);

/* The number of a page; `there` is 0 if there is none. */
typedef struct l4_page {
    uint32_t refusal;
    uint32_t there;
    uint32_t page;
} l4_page;

/* Returns the lowest present page of a space that is not below `page`. Refusals: B1. */
l4_page l4_next_page(l4_kernel *kernel, uint64_t space, uint32_t page);

/* A present page of a space, with its mapping: the members of l4_mapping. */
typedef struct l4_mapped {
    uint32_t page;
    uint32_t frame;
    uint32_t rights;
    uint32_t has_parent;
    uint64_t parent_space;
    uint32_t parent_page;
    uint32_t reserved;
} l4_mapped;

/* Lists the present pages of a space from `page` on, with their mappings, by rising page number. The first `room` of them are written to
 * pages, and the array elements after them stay as they are; the count is that of all. To list a space in pieces, continue with the page
 * after the last one that was written. Refusals: B1, and then nothing is written. */
l4_count l4_mappings(l4_kernel *kernel, uint64_t space, uint32_t page, l4_mapped *pages, size_t room);

/* A page of a space. */
typedef struct l4_place {
    uint64_t space;
    uint32_t page;
    uint32_t reserved;
} l4_place;

/* Lists the pages that descend from a page of a space: those that were mapped from it, those that were mapped from these, and so on. Each
 * page is listed once, in no fixed order. The first `room` of them are written to places, and the array elements after them stay as they
 * are; the count is that of all. It is 0 if the page is not present. The cost of a call depends on the count, and not on how many pages are
 * present.
 *
 * With this list you keep your own tables of pages equal to the kernel's. A page's mapping can change only in these steps:
 *
 * - A transfer whose message is delivered changes the pages that its items fill, the source pages of its grant items, and what descends
 *   from these pages before the step.
 * - An Unmap changes the pages that it names, and what descends from them.
 * - A Delete that ends a space changes the pages of the space, and what descends from them.
 *
 * So before such a step, list what descends from the pages that it names. After the step, compare these pages with l4_mapping_of.
 * Refusals: B1; NoMemory, and then nothing is written. */
l4_count l4_descendants(l4_kernel *kernel, uint64_t space, uint32_t page, l4_place *places, size_t room);

/* A region: `count` pages that start at page `source`. They move to the pages that start at page `target`, with these rights. */
typedef struct l4_region {
    uint32_t source;
    uint32_t target;
    uint32_t count;
    uint32_t rights;
} l4_region;

/* MESSAGES TO A PAGER AND TO SIGMA0. These functions need no handle. */

/* A page fault: its address and the address of the instruction that tried the access, both in bytes, and the rights that the access needs.
 * `there` is 0 if the message is not a page fault. */
typedef struct l4_fault {
    uint32_t refusal;
    uint32_t detail;
    uint32_t there;
    uint32_t address;
    uint32_t ip;
    uint32_t access;
} l4_fault;

/* Reads a message of `count` words, the tag first, as a page fault. A page fault has a label of 0xFFE0 to 0xFFE7, two untyped words and no
 * item. Words after the message are ignored. Refusals: those of the message (M7, M1, M5, M2, M4 or M3). */
l4_fault l4_read_fault(const uint32_t *words, size_t count);

/* A request for frames: the word, without rights, of the fpage whose pages' frames are requested, and the memory attributes. Attributes of
 * 0 request the machine's default attributes. `there` is 0 if the message is not a request. */
typedef struct l4_request {
    uint32_t refusal;
    uint32_t detail;
    uint32_t there;
    uint32_t fpage;
    uint32_t attributes;
} l4_request;

/* Reads a message of `count` words, the tag first, as a request for frames. A request has the label 0xFFA0, two untyped words, of which the
 * first is an fpage, and no item. Words after the message are ignored. Refusals: those of the message (M7, M1, M5, M2, M4 or M3). */
l4_request l4_read_request(const uint32_t *words, size_t count);

/* PAGERS' TABLES */

/* A pager's table. For the pages of the threads that the pager serves, it says which of its own pages the pager maps there. It has at most
 * 64 regions, whose target pages do not overlap. Source pages may be shared. */
typedef struct l4_pager {
    void *hidden;
} l4_pager;

/* Makes a table without regions. The handle must be empty; it then owns the table, and you free it with l4_pager_free. After a refusal the
 * handle is unchanged. Refusals in this order: B2, NoMemory. */
uint32_t l4_pager_new(l4_pager *pager);

/* Makes a table as l4_pager_new does, for pages of page_bytes bytes: those of the kernel whose faults the table answers. Refusals in this
 * order: B4, B2, NoMemory. */
uint32_t l4_pager_new_sized(l4_pager *pager, uint32_t page_bytes);

/* Frees a table, and leaves the handle empty. */
void l4_pager_free(l4_pager *pager);

/* Adds a region at the end of the table. After a refusal nothing has changed. Refusals in this order: B1, P4, P1, P3. */
uint32_t l4_pager_add(l4_pager *pager, const l4_region *region);

/* Finds the source page of a target page whose region has all the rights that the access needs. An access that needs no right finds the
 * page in any region. Refusals in this order: B1, P2. */
l4_page l4_pager_find(l4_pager *pager, uint32_t page, uint32_t access);

/* The words of an answer message, the tag first. */
typedef struct l4_message {
    uint32_t refusal;
    uint32_t detail;
    uint32_t word_count;
    uint32_t words[L4_MAX_WORDS];
} l4_message;

/* Computes the pager's answer to a message of `count` words, the tag first. The answer to a page fault is one map item, in the two words
 * after the tag: the source page, with its region's rights, for the page of the fault. It is a nil map item if l4_pager_find refuses the
 * page; so is the answer to any other message. Words after the message are ignored. Refusals in this order: B1, then those of the message
 * (M7, M1, M5, M2, M4 or M3). */
l4_message l4_pager_answer(l4_pager *pager, const uint32_t *words, size_t count);

/* SIGMA0'S TABLE */

/* sigma0's table: which space owns which frame. Once a space has been given a frame, the frame belongs to that space for good. */
typedef struct l4_sigma0 {
    void *hidden;
} l4_sigma0;

/* Makes a table of 1 to 4,096 frames, none of which has an owner. The handle must be empty; it then owns the table, and you free it with
 * l4_sigma0_free. After a refusal the handle is unchanged. Refusals in this order: B2, K6, NoMemory. */
uint32_t l4_sigma0_new(l4_sigma0 *sigma0, uint32_t frames);

/* Makes a table as l4_sigma0_new does, for pages and frames of page_bytes bytes, as the kernel has. Refusals in this order: B4, B2, K6,
 * NoMemory. */
uint32_t l4_sigma0_new_sized(l4_sigma0 *sigma0, uint32_t frames, uint32_t page_bytes);

/* Frees a table, and leaves the handle empty. */
void l4_sigma0_free(l4_sigma0 *sigma0);

/* Computes sigma0's answer to a message of `count` words, the tag first, from a thread in this space. A request with attributes of 0
 * requests the frames of its fpage's pages, and a page fault requests the frame of its page. The frame of a page has the page's number. If
 * all of these frames exist, and each has no owner or is owned by this space, then the space owns them from then on. The answer is then one
 * map item of all of them, with all rights, to the pages of the same numbers. The answer to anything else is a nil map item, and nothing
 * changes.
 *
 * Words after the message are ignored. After a refusal nothing has changed. Refusals in this order: B1, then those of the message (M7, M1,
 * M5, M2, M4 or M3). */
l4_message l4_sigma0_answer(l4_sigma0 *sigma0, uint64_t space, const uint32_t *words, size_t count);

/* PLANS. These functions need no handle. */

/* The size of a plan: the number of its items, and of the messages that send them. Every message but the last has 31 items. */
typedef struct l4_plan {
    uint32_t refusal;
    uint32_t items;
    uint32_t messages;
} l4_plan;

/* One message of a plan: its words, the tag first; one page for each item; and the number of messages of the whole plan. */
typedef struct l4_part {
    uint32_t refusal;
    uint32_t messages;
    uint32_t word_count;
    uint32_t page_count;
    uint32_t words[L4_MAX_WORDS];
    uint32_t pages[L4_MAX_ITEMS];
} l4_part;

/* Plans a region: the shortest list of map items that moves exactly the region. No list has fewer items, and none needs fewer messages.
 * Refusals in this order: N1, N2, N3, N4. */
l4_plan l4_plan_region(const l4_region *region);

/* Plans a region of pages of page_bytes bytes. Refusals in this order: B4, N1, N2, N3, N4. */
l4_plan l4_plan_region_sized(const l4_region *region, uint32_t page_bytes);

/* Returns the message of that plan with this number, from 0. Refusals in this order: N1, N2, N3, N4, N6. After N6, the member messages has
 * the number of messages. */
l4_part l4_plan_message(const l4_region *region, uint32_t number);

/* Does the same as l4_plan_message for pages of page_bytes bytes. B4 comes before every other refusal. */
l4_part l4_plan_message_sized(const l4_region *region, uint32_t number, uint32_t page_bytes);

/* Writes one page for each item of that plan; together these pages prove that no list is shorter. After N4 it writes the 1,985 pages that
 * prove that every list has more than 1,984 items. It writes at most `room` pages, and returns how many there are: 0 after N1, N2 or N3. */
uint32_t l4_plan_pages(const l4_region *region, uint32_t *pages, size_t room);

/* Does the same as l4_plan_pages for pages of page_bytes bytes. It returns 0 after B4 too. */
uint32_t l4_plan_pages_sized(const l4_region *region, uint32_t *pages, size_t room, uint32_t page_bytes);

/* The result of a check: L4_OK if the claim about the region is proved, or why it does not hold. */
typedef struct l4_verdict {
    uint32_t refusal;
    uint32_t detail;
} l4_verdict;

/* Checks a plan from any source: that its items move exactly the region, and that its pages, one for each item, prove that no list of map
 * items that does so is shorter. The words are those of the items, two for each, message after message without the tags. Refusals in this
 * order: M1 (more than 3,968 words), M2 (an odd number of words), M4 or M3; C6, C1, C2, C5, C3, C4. */
l4_verdict l4_check_plan(const l4_region *region, const uint32_t *words, size_t count, const uint32_t *pages, size_t page_count);

/* Does the same as l4_check_plan for pages of page_bytes bytes. B4 comes before every other refusal. */
l4_verdict l4_check_plan_sized(const l4_region *region, const uint32_t *words, size_t count, const uint32_t *pages, size_t page_count, uint32_t page_bytes);

/* Checks that 1,985 pages prove the following: every list of map items that moves exactly the region has more than 1,984 items. Refusals in
 * this order: C6, C5, C3, C4. */
l4_verdict l4_check_too_long(const l4_region *region, const uint32_t *pages, size_t page_count);

/* Does the same as l4_check_too_long for pages of page_bytes bytes. B4 comes before every other refusal. */
l4_verdict l4_check_too_long_sized(const l4_region *region, const uint32_t *pages, size_t page_count, uint32_t page_bytes);

/* LOCKED KERNELS */

/* A locked kernel: a kernel that keeps the history of its steps, and has seats. A seat is the right to make the calls of one thread number;
 * it keeps a receipt of every call that has ended. Use it to share one kernel among the threads of a program.
 *
 * There is no lock inside. Protect the handle with a lock of your own: one call at a time, as for every handle. If l4_lock_enter leaves a
 * call waiting, a later call of another seat may end it. Let the waiting thread sleep, for instance on a condition variable of its seat,
 * and then fetch the reply with l4_lock_take.
 *
 * After l4_lock_enter, wake the seats whose calls ended. l4_lock_ended lists them, from the length that l4_lock_length returned before the
 * call. examples/threads.c does this. If you wake every waiting thread instead, each call costs a wake-up of all of them.
 *
 * The lock keeps at most 1,000,000 entries of the history. Once it keeps more than 999,871, l4_lock_enter refuses every call with L1, and
 * every other function still works. To run longer, hand out the entries from time to time with l4_lock_hand_out, or drop them with
 * l4_lock_forget. Entries and receipts are numbered from 0 since boot, and the numbers continue after a hand-out. */
typedef struct l4_lock {
    void *hidden;
} l4_lock;

/* Boots a locked kernel as l4_boot does, with an empty history and no seats. The handle must be empty; it then owns the kernel, and you
 * free it with l4_lock_free or l4_lock_close. After a refusal the handle is unchanged. Refusals in this order: B2, K6, NoMemory. */
uint32_t l4_lock_new(l4_lock *lock, uint32_t frames);

/* Does the same as l4_lock_new for pages and frames of page_bytes bytes. Refusals in this order: B4, B2, K6, NoMemory. */
uint32_t l4_lock_new_sized(l4_lock *lock, uint32_t frames, uint32_t page_bytes);

/* Frees a locked kernel with its history and all receipts, even if calls still wait. The handle is empty then. */
void l4_lock_free(l4_lock *lock);

/* Gives out the seat of a thread number. Each seat is given once, and the thread need not exist yet. After a refusal nothing has changed.
 * Refusals in this order: B1, L4, NoMemory. */
uint32_t l4_lock_give(l4_lock *lock, uint32_t seat);

/* The result of entering a call: its reply if the call has ended. The reply's kind is L4_NONE if the call waits. */
typedef struct l4_seated {
    uint32_t refusal;
    uint32_t detail;
    l4_reply reply;
} l4_seated;

/* Enters a call of the seat's thread as l4_enter does. The start of the call, and the steps that are executed until no step is enabled, are
 * appended to the history. After a refusal nothing has changed. Refusals in this order: B1, B3, X2 if the seat was not given, L3, L1,
 * NoMemory, and then those of l4_start from K2 on. */
l4_seated l4_lock_enter(l4_lock *lock, uint32_t seat, const l4_call *call, const uint32_t *words, size_t count);

/* End the thread's wait as l4_timeout and l4_cancel do, and append this step to the history. The seat of the thread takes the reply by
 * l4_lock_take. Return 0 or a refusal, in this order: B1, L1, NoMemory, K1. */
uint32_t l4_lock_timeout(l4_lock *lock, uint32_t thread);
uint32_t l4_lock_cancel(l4_lock *lock, uint32_t thread);

/* Takes the reply of a call of the seat that was left waiting and has since ended. Each reply can be taken once; the kind is L4_NONE if
 * there is none. This call allocates no memory. Refusals: B1. */
l4_reply l4_lock_take(l4_lock *lock, uint32_t seat);

/* Returns the number of entries since boot. Entries that were handed out are counted. Refusals: B1. */
l4_count l4_lock_length(l4_lock *lock);

/* Returns the number of the first entry that the lock keeps. All entries with lower numbers were handed out. Refusals: B1. */
l4_count l4_lock_kept_from(l4_lock *lock);

/* One more kind of step: a call was started. */
#define L4_START UINT32_C(3)
#define L4_TIMEOUT UINT32_C(4) /* l4_lock_timeout ended a wait of thread; the entry has seat 0 */
#define L4_CANCEL UINT32_C(5)  /* l4_lock_cancel ended a wait of thread; the entry has seat 0 */

/* An entry of the history: a step with its outcome, the threads whose calls ended in it, and the seat whose call this step starts or
 * follows. The kind is L4_START (of thread), L4_TRANSFER (from thread to receiver), L4_EXPIRE, L4_TIMEOUT or L4_CANCEL (of thread), or
 * L4_NONE beyond the end of the history. For a start, call and words have the call as it can be entered again; for other kinds both are 0. */
typedef struct l4_entry {
    uint32_t refusal;
    uint32_t seat;
    uint32_t kind;
    uint32_t thread;
    uint32_t receiver;
    uint32_t outcome;
    uint32_t ended_count;
    uint32_t word_count;
    uint32_t ended[L4_MAX_THREADS];
    uint32_t words[L4_MAX_WORDS];
    l4_call call;
} l4_entry;

/* Returns the entry with this number since boot, from 0. Refusals in this order: B1; L8 if the entry was handed out. */
l4_entry l4_lock_entry(l4_lock *lock, size_t number);

/* Lists the threads whose calls ended in the entries from this number on: entry by entry, and in each entry in its order. To learn which
 * calls an l4_lock_enter ended, pass the length that l4_lock_length returned before it. Each thread is then listed at most once, so a room of
 * L4_MAX_THREADS is enough. The first `room` numbers are written to threads, and the array elements after them stay as they are; the count is
 * that of all. Refusals in this order: B1; L8 if the entry was handed out. After a refusal nothing is written. */
l4_count l4_lock_ended(l4_lock *lock, size_t number, uint32_t *threads, size_t room);

/* Returns the number of frames with which the locked kernel was booted. Pass it to l4_checkpoint_write for a copy. Refusals: B1. */
l4_count l4_lock_frames_of(l4_lock *lock);

/* A segment of a history: entries that a locked kernel handed out. All segments of a locked kernel in their order, followed by the entries
 * that it keeps, are its history since boot. */
typedef struct l4_segment {
    void *hidden;
} l4_segment;

/* Hands out the entries that the locked kernel keeps, and forgets the receipts of all seats. From then on, the locked kernel keeps the
 * entries and receipts of later calls only, and their numbers continue. So it runs in memory that does not grow, if you call this function
 * from time to time. Calls that wait are not affected.
 *
 * The segment's handle must be empty; it then owns the entries, and you free it with l4_segment_free. After a refusal nothing has changed.
 * Refusals in this order: B1; B2 if the segment's handle is not empty; NoMemory; B7 after more than 2^63 entries. */
uint32_t l4_lock_hand_out(l4_lock *lock, l4_segment *segment);

/* Frees a segment, and leaves the handle empty. */
void l4_segment_free(l4_segment *segment);

/* Return the number of the segment's first entry since boot, and the number of its entries. Refusals: B1. */
l4_count l4_segment_first(l4_segment *segment);
l4_count l4_segment_length(l4_segment *segment);

/* Returns the segment's entry with this number since boot. The kind is L4_NONE if the segment has no such entry. Refusals: B1. */
l4_entry l4_segment_entry(l4_segment *segment, size_t number);

/* Writes the file of the segment to the array, up to its length, and returns how many bytes the file has. Its heading names the frames at boot
 * and the page size of the locked kernel. `l4 history --from` reads such files, several of them one after another too, and the README of the
 * crate l4_segments describes each byte. With a room of 0, the call only counts the bytes. Refusals in this order: B1; NoMemory. Nothing is
 * written then. */
l4_count l4_segment_bytes(l4_segment *segment, uint8_t *out, size_t room);

/* The counts of a seat: the number of calls that it has started, each of which is in the history once; the number of receipts that it got;
 * and kept_from, the number of the first receipt that is kept. All of them count since boot.
 * `there` is 0 if the seat was not given. */
typedef struct l4_seat {
    uint32_t refusal;
    uint32_t there;
    uint64_t starts;
    uint64_t receipts;
    uint64_t kept_from;
} l4_seat;

/* Returns the counts of a seat. Refusals: B1. */
l4_seat l4_lock_seat_of(l4_lock *lock, uint32_t seat);

/* A receipt of a seat, for a call that has ended: the numbers of the entries that started and ended it, the call with its words, and its
 * reply. `there` is 0 if there is none. */
typedef struct l4_receipt {
    uint32_t refusal;
    uint32_t there;
    uint64_t start;
    uint64_t end;
    uint32_t word_count;
    uint32_t words[L4_MAX_WORDS];
    l4_call call;
    l4_reply reply;
} l4_receipt;

/* Returns the receipt of a seat with this number, from 0. Receipts are numbered in the order in which the seat got them. Refusals in this
 * order: B1; L8 if the receipt was forgotten, because l4_lock_hand_out was called after the seat got it. */
l4_receipt l4_lock_receipt(l4_lock *lock, uint32_t seat, size_t number);

/* A link of a page's provenance: one transfer that moved the page. It has the place of the transfer's entry in the history, from 0; the
 * sender's page and the receiver's page, with the numbers of their spaces; grant, which is 1 if the item granted the page and 0 if it
 * mapped it; the rights of the sender's page just before the transfer; and the rights that the item named. */
typedef struct l4_link {
    uint64_t entry;
    uint64_t source_space;
    uint64_t target_space;
    uint32_t source_page;
    uint32_t target_page;
    uint32_t grant;
    uint32_t source_rights;
    uint32_t item_rights;
    uint32_t reserved; /* must be 0 */
} l4_link;

/* The number of links of a page's provenance; `there` is 0 if the page is not present. */
typedef struct l4_chain {
    uint32_t refusal;
    uint32_t detail;
    uint32_t there;
    uint64_t count;
} l4_chain;

/* Finds the provenance of a page of a space: the transfers that brought it there, one after another, from a page that sigma0 had at boot.
 * Each link starts at the page at which the link before it ended. A page that sigma0 has had since boot has no links.
 *
 * The first `room` links are written to links. count is the number of links, so you can call again with that much room to get them all.
 * Nothing is written if the page is not present, or after a refusal. The locked kernel is unchanged in every case. The call replays the
 * whole history once, and the part before each link once more, on a second kernel: it takes that time, and the memory of a second kernel.
 * Refusals in this order: B1; L8 if entries were handed out; NoMemory, or L6 with an entry. */
l4_chain l4_lock_provenance(l4_lock *lock, uint64_t space, uint32_t page, l4_link *links, size_t room);

/* Checks that exactly these links are the provenance of a page of a space. If the page is not present, the check refuses every list of
 * links. Any value of grant other than 0 means a grant. The check shares no code with l4_lock_provenance, replays the whole history once on
 * a second kernel, even if the links are wrong, and changes nothing. Refusals in this order: B1; B3, if a reserved member of a link is not 0;
 * NoMemory, if there is no memory for the links; L8 if entries were handed out; NoMemory, if there is no memory for a second kernel; then the refusal at the first entry whose
 * replay fails: NoMemory if memory runs out, and L6 with the entry if the replay gets any other answer; L7, if every entry was replayed and
 * the links are not the provenance. */
l4_verdict l4_lock_check_provenance(l4_lock *lock, uint64_t space, uint32_t page, const l4_link *links, size_t count);

/* Query the kernel of a locked kernel, as the functions without lock_ in their names query a kernel. No step of it is enabled between two
 * calls. These functions change nothing. Their refusals are the same: B1, and NoMemory for l4_lock_descendants. */
l4_space l4_lock_space_of(l4_lock *lock, uint32_t thread);
l4_space l4_lock_next_space(l4_lock *lock, uint64_t space);
l4_thread l4_lock_next_thread(l4_lock *lock, uint32_t thread);
l4_state l4_lock_state_of(l4_lock *lock, uint32_t thread);
l4_reply l4_lock_reply_of(l4_lock *lock, uint32_t thread);
l4_page_size l4_lock_page_size_of(l4_lock *lock);
l4_mapping l4_lock_mapping_of(l4_lock *lock, uint64_t space, uint32_t page);
l4_page l4_lock_next_page(l4_lock *lock, uint64_t space, uint32_t page);
l4_count l4_lock_mappings(l4_lock *lock, uint64_t space, uint32_t page, l4_mapped *pages, size_t room);
l4_count l4_lock_descendants(l4_lock *lock, uint64_t space, uint32_t page, l4_place *places, size_t room);

/* Copies the kernel of a locked kernel into an empty handle, as l4_copy does. So you can let the copy continue in another way than the locked
 * kernel, or query one state while calls go on. The copy has no history and no seats, and the locked kernel is unchanged. Refusals in this
 * order: B1 for the locked kernel, B2 for the copy, NoMemory. */
uint32_t l4_lock_copy(l4_lock *lock, l4_kernel *copy);

/* Takes back the seats of these numbers, and frees the locked kernel with its history if exactly the seats that were given come back, each
 * once. The handle is empty then. Success confirms that the history has as many starts of each seat's thread as the seat counted, and that
 * every receipt that is kept was right about the history. Otherwise nothing has changed. Refusals in this order: B1; X1 with the lowest
 * number of a missing seat; X2 with the lowest number of a seat that was not given or comes back twice. X3 is never returned, because seats
 * never leave the library. */
l4_verdict l4_lock_close(l4_lock *lock, const uint32_t *seats, size_t count);

/* ORDERS OF CALLS
 *
 * A script in the language of `l4 run` with a line `unordered` is a litmus test: the lines after it may be executed in any order, except
 * that the lines of one thread keep theirs. The queries after a line `finally` are the outcome of an order. The user guide describes litmus
 * tests, and the program `l4 orders` prints what these functions return. */

/* The search of a litmus test: the test, and the outcomes that its orders have. */
typedef struct l4_orders {
    void *hidden;
} l4_orders;

/* The result of l4_orders_search. `line` is the number of the line, from 1, that is refused with S1 to S5, O1 to O5, O7 or O8, and otherwise
 * 0. `detail` is the thread of O5. */
typedef struct l4_searched {
    uint32_t refusal;
    uint32_t detail;
    uint64_t line;
} l4_searched;

/* Reads a litmus test of `length` bytes, and executes it in all its orders on a new kernel with 1 to 4,096 frames. It visits at most `most`
 * states. If several orders lead to one state, it is visited once as a rule. Fewer frames make a search faster. A search cannot be stopped
 * before that. To show progress or to be able to stop, begin with a small `most`, and search again with ten times as much until the search
 * ends by itself: all these searches together visit few more states than the last one.
 *
 * The handle must be empty; it then owns the search, and you free it with l4_orders_free. Each outcome that was found is that of an order,
 * and none was found twice. Every order's outcome was found if l4_orders_found says so. After a refusal the handle is unchanged. Refusals
 * in this order: B2; K6; S1 to S5, O1 to O4 or O8 for the first line that cannot be part of a litmus test; O6; O5 for the first line of a
 * thread that is neither there at boot nor created; O7 for the first rule that names a line that no outcome can have; NoMemory, or L1 if the
 * script of an order fills the history. NoMemory may come before any of those of the test. */
l4_searched l4_orders_search(l4_orders *orders, uint32_t frames, const char *plan, size_t length, uint64_t most);

/* Does the same as l4_orders_search for pages and frames of page_bytes bytes. B4 comes before every other refusal. */
l4_searched l4_orders_search_sized(l4_orders *orders, uint32_t frames, const char *plan, size_t length, uint64_t most, uint32_t page_bytes);

/* How a search ended: it followed every order; or it ended early, because it had visited `most` states, memory ran out, or the history of
 * an order was full. */
#define L4_ALL_ORDERS UINT32_C(1)
#define L4_MOST_STATES UINT32_C(2)
#define L4_LACKED_MEMORY UINT32_C(3)
#define L4_LACKED_HISTORY UINT32_C(4)

/* How a search ended (L4_ALL_ORDERS ..), the number of outcomes, the number of orders, and the number of states that were visited. If the
 * search ended early, orders is 0, and the test may have more outcomes. If there are more than 2^64 - 1 orders, orders is 2^64 - 1:
 * l4_orders_number writes their number. */
typedef struct l4_found {
    uint32_t refusal;
    uint32_t ended;
    uint64_t outcomes;
    uint64_t orders;
    uint64_t states;
} l4_found;

/* Returns how the search ended, and what it found. Refusals: B1. */
l4_found l4_orders_found(l4_orders *orders);

/* Writes the number of orders in decimal, whatever its size. At most the first `room` - 1 bytes are written, and a 0 after them; nothing is
 * written if room is 0. count is the length of the whole text without the 0. The text is empty if the search ended early. Nothing is written
 * after a refusal. Refusals in this order: B1, NoMemory. */
l4_count l4_orders_number(l4_orders *orders, char *out, size_t room);

/* Writes the answers of the outcome with this number, from 0: the answers to the queries, a line each, and then a line `stuck N L` for each
 * thread N that was left before its line L of the test. At most the first `room` - 1 bytes are written, and a 0 after them; nothing is
 * written if room is 0. count is the length of the whole text without the 0. The text is empty if there is no such outcome. Refusals:
 * B1. */
l4_count l4_orders_answers(l4_orders *orders, size_t outcome, char *out, size_t room);

/* Writes the script of an order that produces the outcome with this number, in the same way: the lines before `unordered`, the lines in
 * that order, and the queries. `l4 run` executes it, and gives the outcome's answers. Nothing is written after a refusal. Refusals in this
 * order: B1, NoMemory. */
l4_count l4_orders_witness(l4_orders *orders, size_t outcome, char *out, size_t room);

/* Writes the numbers of the lines of that order, from 1, as they are in the test, and in the order in which they were executed. At most
 * `room` numbers are written; count is the number of all of them. It is 0 if there is no such outcome. Nothing is written after a refusal.
 * Refusals in this order: B1, NoMemory. */
l4_count l4_orders_lines(l4_orders *orders, size_t outcome, uint64_t *lines, size_t room);

/* Writes the rules that the outcome with this number breaks, in the same way as its answers: lines `never ..` and `always ..` of the test.
 * The text is empty if the outcome breaks no rule, or if there is no such outcome. Nothing is written after a refusal. Refusals in this
 * order: B1, NoMemory. */
l4_count l4_orders_broken(l4_orders *orders, size_t outcome, char *out, size_t room);

/* Frees a search with its plan, and leaves the handle empty. */
void l4_orders_free(l4_orders *orders);

/* CHECKPOINTS
 *
 * A checkpoint is the state of a kernel as bytes: its threads with what each is doing, the queue of senders, the spaces and the mappings.
 * You keep it as a file, to continue a run later or to share a fault. It has no history. The README of the crate l4_checkpoints describes
 * each byte; the bytes are the same on every computer.
 *
 * To write the state of a locked kernel, copy it with l4_lock_copy: `entries` is then what l4_lock_length returns, if no call came between
 * the two. A kernel that was read from a checkpoint has no history and no seats. */

/* Writes the checkpoint of a kernel to the array, up to its length, and returns how many bytes the checkpoint has. `frames` is the number
 * of frames with which the kernel was booted; with another number, l4_checkpoint_read may refuse the bytes. `entries` is the number of
 * steps in its history since boot, or 0 if you keep none.
 *
 * With a room of 0, the call only counts the bytes. The array has the whole checkpoint if count is at most room: a step between two calls
 * may change the count. The kernel is unchanged. Refusals in this order: B1; K6 if frames is not 1 to 4,096; B7 if entries exceeds 2^63;
 * NoMemory. Nothing is written then. */
l4_count l4_checkpoint_write(l4_kernel *kernel, uint32_t frames, size_t entries, uint8_t *out, size_t room);

/* What is wrong with bytes that cannot be read as a checkpoint: they do not begin with "LCP4"; their version is unknown; no kernel has this
 * number of frames; no kernel has this page size; the number of entries exceeds 2^63; they end too early; the checksum is wrong; bytes
 * follow the checksum; or no kernel could be built from the words. */
#define L4_CHECKPOINT_MAGIC UINT32_C(1)
#define L4_CHECKPOINT_VERSION UINT32_C(2)
#define L4_CHECKPOINT_FRAMES UINT32_C(3)
#define L4_CHECKPOINT_PAGE_SIZE UINT32_C(4)
#define L4_CHECKPOINT_ENTRIES UINT32_C(5)
#define L4_CHECKPOINT_CUT UINT32_C(6)
#define L4_CHECKPOINT_CHECKSUM UINT32_C(7)
#define L4_CHECKPOINT_EXTRA UINT32_C(8)
#define L4_CHECKPOINT_STATE UINT32_C(9)

/* The result of l4_checkpoint_read: the numbers that were passed to l4_checkpoint_write. After B6, fault is what is wrong with the bytes
 * (L4_CHECKPOINT_MAGIC ..), and position is where, in bytes from 0; otherwise both are 0. */
typedef struct l4_checkpoint {
    uint32_t refusal;
    uint32_t fault;
    uint64_t position;
    uint64_t entries;
    uint32_t frames;
    uint32_t reserved;
} l4_checkpoint;

/* Reads a checkpoint of `length` bytes into an empty handle, which then owns exactly the kernel that was written. You free it with l4_free.
 * The bytes are not needed afterwards. After a refusal the handle is unchanged. Refusals in this order: B2; B6 or NoMemory. B6 means that the
 * bytes are not a checkpoint. If its fault is L4_CHECKPOINT_STATE, the heading, the length and the checksum are right, but the library could
 * not build a kernel from the words. Tests show that it reads each checkpoint that it wrote. */
l4_checkpoint l4_checkpoint_read(l4_kernel *kernel, const uint8_t *bytes, size_t length);

/* CONSTRUCTORS AND READERS. These functions are inline, and do not call the library unless they take a handle.
 *
 * A constructor takes each argument modulo the range that its comment gives: of a greater number, the higher bits are dropped. A base that is
 * not a multiple of the size is rounded down. These constructors have a checked form: if L4_CHECK_RANGES is defined where this header is
 * included, they assert with the assert of assert.h that each argument is in its range, and that each base is a multiple. */
#ifdef L4_CHECK_RANGES
#include <assert.h>
#define L4_IN_RANGE(holds) assert(holds)
#else
#define L4_IN_RANGE(holds) ((void)0)
#endif

/* The thread ids of sigma0 and root. */
#define L4_SIGMA0_ID UINT32_C(0x4001)
#define L4_ROOT_ID UINT32_C(0x8001)

/* Returns the thread id of a thread number below 2^18 and a version below 2^14. l4_id_is_valid says whether a thread can have it. */
static inline uint32_t l4_id(uint32_t number, uint32_t version) {
    L4_IN_RANGE(number < UINT32_C(1) << 18 && version < UINT32_C(1) << 14);
    return number << 14 | (version & 0x3FFF);
}

/* Returns the thread number of a thread id. */
static inline uint32_t l4_id_number(uint32_t id) {
    return id >> 14;
}

/* Returns the version of a thread id. */
static inline uint32_t l4_id_version(uint32_t id) {
    return id & 0x3FFF;
}

/* Returns 1 if a thread can have this id, and 0 if it cannot: its number is 0, the low six bits of its version are all zero, or it is
 * L4_ANYTHREAD. */
static inline int l4_id_is_valid(uint32_t id) {
    return id >> 14 != 0 && (id & 0x3F) != 0 && id != L4_ANYTHREAD;
}

/* Returns the timeouts member of a call. Each timeout is 0, which means never, or L4_ZERO_TIMEOUT. A receive timeout of 2^16 or more also
 * sets bits of the send timeout. */
static inline uint32_t l4_timeouts(uint32_t send, uint32_t receive) {
    L4_IN_RANGE(send < UINT32_C(1) << 16 && receive < UINT32_C(1) << 16);
    return send << 16 | receive;
}

/* The fpage that names no page, and the one that names all pages of a space, without rights. As a receive window, L4_COMPLETE_FPAGE accepts
 * pages anywhere. */
#define L4_NIL_FPAGE UINT32_C(0)
#define L4_COMPLETE_FPAGE UINT32_C(0x10)

/* Returns the fpage of 2^log bytes with these rights, where log is 10 to 32. The base is a multiple of the size, and the rights are below 8.
 * Any other log gives L4_NIL_FPAGE. */
static inline uint32_t l4_fpage(uint32_t base, uint32_t log, uint32_t rights) {
    L4_IN_RANGE(log >= 10 && log <= 32 && rights < 8 && (log == 32 ? base == 0 : base << (32 - log) == 0));
    if (log == 32)
        return L4_COMPLETE_FPAGE | (rights & 7);
    if (log < 10 || log > 31)
        return L4_NIL_FPAGE;
    return base >> log << log | log << 4 | (rights & 7);
}

/* Returns the fpage of one page of L4_PAGE_BYTES bytes, from its page number below L4_SPACE_PAGES (2^20), with these rights, below 8. */
static inline uint32_t l4_fpage_of_page(uint32_t page, uint32_t rights) {
    L4_IN_RANGE(page < L4_SPACE_PAGES);
    return l4_fpage(page << L4_PAGE_LOG, L4_PAGE_LOG, rights);
}

/* Returns 1 if the word is a valid fpage, and 0 if it is not. */
static inline int l4_fpage_is_valid(uint32_t fpage) {
    uint32_t size = fpage >> 4 & 63;
    return size == 0 || (size == 1 && fpage >> 10 == 0) || (size >= 10 && size <= 32);
}

/* Returns the log of the size of a valid fpage: 10 to 32, or 0 for an fpage that names no page. */
static inline uint32_t l4_fpage_log(uint32_t fpage) {
    uint32_t size = fpage >> 4 & 63;
    return size == 1 ? 32 : size;
}

/* Returns the address at which a valid fpage begins. */
static inline uint32_t l4_fpage_base(uint32_t fpage) {
    uint32_t log = l4_fpage_log(fpage);
    return log >= 10 && log <= 31 ? fpage >> log << log : 0;
}

/* Returns the rights of a valid fpage. */
static inline uint32_t l4_fpage_rights(uint32_t fpage) {
    return l4_fpage_log(fpage) == 0 ? 0 : fpage & 7;
}

/* Write the two words of an item that maps the pages of an fpage, or grants them. The send base is an address that is a multiple of 1,024.
 * Set bit 0 of the first word if another item follows in the message; the kernel ignores that bit. */
static inline void l4_map_item(uint32_t words[2], uint32_t send_base, uint32_t fpage) {
    L4_IN_RANGE((send_base & 1023) == 0);
    words[0] = (send_base >> 10 << 10) | 8;
    words[1] = fpage;
}

static inline void l4_grant_item(uint32_t words[2], uint32_t send_base, uint32_t fpage) {
    L4_IN_RANGE((send_base & 1023) == 0);
    words[0] = (send_base >> 10 << 10) | 10;
    words[1] = fpage;
}

/* Return 1 if the first word of an item is that of a map item, or of a grant item, and 0 if it is not. */
static inline int l4_item_is_map(uint32_t first) {
    return (first >> 1 & 7) == 4;
}

static inline int l4_item_is_grant(uint32_t first) {
    return (first >> 1 & 7) == 5;
}

/* Returns the send base of an item from its first word. */
static inline uint32_t l4_item_base(uint32_t first) {
    return first >> 10 << 10;
}

/* Returns the tag of a message: its label below 2^16, its number of untyped words below 2^6, and its number of words of items, two for
 * each, below 2^6. */
static inline uint32_t l4_tag(uint32_t label, uint32_t untyped, uint32_t typed) {
    L4_IN_RANGE(label < UINT32_C(1) << 16 && untyped < 64 && typed < 64);
    return label << 16 | (typed & 63) << 6 | (untyped & 63);
}

/* Return the parts of a tag. */
static inline uint32_t l4_tag_label(uint32_t tag) {
    return tag >> 16;
}

static inline uint32_t l4_tag_untyped(uint32_t tag) {
    return tag & 63;
}

static inline uint32_t l4_tag_typed(uint32_t tag) {
    return tag >> 6 & 63;
}

/* Returns 1 if the tag is that of an Ipc that failed, whose ErrorCode is then in the reply's error, and 0 if it is not. */
static inline int l4_tag_is_error(uint32_t tag) {
    return (tag & 0x8000) != 0;
}

/* Returns the acceptor word whose receive window is this fpage. */
static inline uint32_t l4_acceptor(uint32_t fpage) {
    return fpage >> 4 << 4;
}

/* Returns the lowest number, not below `thread`, of a thread in this space. To list the threads of a space, start at 0, and continue at the
 * number found plus 1. Refusals: B1. */
static inline l4_thread l4_next_thread_in(l4_kernel *kernel, uint64_t space, uint32_t thread) {
    l4_thread next = l4_next_thread(kernel, thread);
    while (next.there && l4_space_of(kernel, next.thread).space != space)
        next = l4_next_thread(kernel, next.thread + 1);
    return next;
}

/* Does the same for the kernel of a locked kernel. Refusals: B1. */
static inline l4_thread l4_lock_next_thread_in(l4_lock *lock, uint64_t space, uint32_t thread) {
    l4_thread next = l4_lock_next_thread(lock, thread);
    while (next.there && l4_lock_space_of(lock, next.thread).space != space)
        next = l4_lock_next_thread(lock, next.thread + 1);
    return next;
}

/* Returns the lowest page of a space, not below `page`, whose mapping is another one in a second kernel: the page is present in one of the two
 * kernels alone, or its frame, its rights or its parent differ. `there` is 0 if there is none. To list the pages that a step changed, copy the
 * kernel before the step, start at 0, and continue at the number found plus 1. Refusals: B1. */
static inline l4_page l4_next_change(l4_kernel *kernel, l4_kernel *other, uint64_t space, uint32_t page) {
    for (;; page++) {
        l4_page next = l4_next_page(kernel, space, page), second = l4_next_page(other, space, page);
        l4_mapping one, two;
        if (next.refusal != L4_OK || (!next.there && !second.there))
            return next;
        if (second.refusal != L4_OK || !next.there || (second.there && second.page < next.page))
            next = second;
        if (next.refusal != L4_OK)
            return next;
        page = next.page;
        one = l4_mapping_of(kernel, space, page);
        two = l4_mapping_of(other, space, page);
        if (one.there != two.there || one.frame != two.frame || one.rights != two.rights || one.has_parent != two.has_parent ||
            one.parent_page != two.parent_page || one.parent_space != two.parent_space)
            return next;
    }
}

/* Drops the entries that a locked kernel keeps, and the receipts of all seats, as l4_lock_hand_out followed by l4_segment_free does. A program
 * that needs no history calls it from time to time, for instance whenever the kernel keeps 1,000 entries, and its memory does not grow.
 * Refusals in this order: B1, NoMemory, B7. */
static inline uint32_t l4_lock_forget(l4_lock *lock) {
    l4_segment segment = L4_EMPTY;
    uint32_t refusal = l4_lock_hand_out(lock, &segment);
    l4_segment_free(&segment);
    return refusal;
}

/* Returns 1 if l4_lock_take would return a reply for this seat, and 0 if not: its last call still waits, or was taken, or there is none. */
static inline int l4_lock_poll(l4_lock *lock, uint32_t seat) {
    l4_seat given = l4_lock_seat_of(lock, seat);
    uint32_t state = l4_lock_state_of(lock, seat).state;
    return given.starts > given.receipts && state != L4_STATE_SENDING && state != L4_STATE_RECEIVING;
}

#ifdef __cplusplus
}
#endif

#endif
