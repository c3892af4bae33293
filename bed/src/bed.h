/* The bed: a kernel of libl4, the bytes of its frames, an engine, and the threads and spaces of the programs that run in it. */
#ifndef BED_H
#define BED_H

#include "engine.h"
#include "output.h"
#include <l4.h>

#define SIGMA0 1u
#define ROOT 2u
#define ROOT_SPACE UINT64_C(1)

/* The first version of each thread id, which sigma0 and root keep. */
#define FIRST_VERSION 1u
#define ID(number) ((uint32_t)(number) << 14 | FIRST_VERSION)
#define NUMBER(id) ((uint32_t)(id) >> 14)
#define LAST_NUMBER UINT32_C(262143)

/* The UTCBs of a space lie in its UTCB area. Each has this many bytes: half of them below the UTCB's address, and half from there on. */
#define UTCB_LOG 9
#define UTCB_BYTES (1u << UTCB_LOG)
#define UTCB_MIDDLE 256u
#define MAX_UTCB_PAGES 8u

/* The areas of root's space. */
#define ROOT_KIP UINT32_C(0xbfff0000)
#define ROOT_UTCBS UINT32_C(0xbfff8000)
#define ROOT_UTCBS_LOG 12u

/* The pages of a space as the engine has them, by two levels of tables. An entry is 0 if the page is not mapped. */
#define LEAF_PAGES 1024u
#define MAPPED UINT32_C(0x80000000)

struct space {
    int exists;
    uint64_t number;
    struct engine_space *engine_space; /* NULL until the areas are known */
    uint32_t kip_page, utcb_page, utcb_pages;
    uint32_t utcb_frames[MAX_UTCB_PAGES]; /* 0 if this page of the area has no frame yet */
    int has_changed;                      /* a page has changed since the search of all orders has looked */
    uint32_t *leaves[L4_SPACE_PAGES / LEAF_PAGES];
};

/* Pages that the next steps can change. */
struct changes {
    l4_place *list;
    uint64_t count, room;
};

/* The words with which a thread entered its last call, and the window in which it receives. */
struct entered {
    uint32_t acceptor;
    uint32_t words[L4_MAX_WORDS];
};

/* ABSENT: the slot is free. INACTIVE: the thread has no pager yet. CALLING: the reply to its call is still to be taken. READY: its program
 * can run. STOPPED: the bed stopped it for good. */
enum state { ABSENT, INACTIVE, CALLING, READY, STOPPED };
enum call_kind { CALL_START, CALL_IPC, CALL_UNMAP, CALL_FAULT, CALL_EXCEPTION };

/* A time slice that does not end. */
#define NO_END UINT32_MAX

/* Priorities are from 0 to 255; each thread begins with the highest. */
#define PRIORITIES 256u

struct thread {
    enum state state;
    enum call_kind calling;
    uint32_t number, id, pager, priority;
    int is_interrupted;               /* its last turn has ended though it neither waits nor yields */
    uint32_t more_turns, turns_left;  /* how many further turns its time slice has, in all and now; or NO_END */
    struct space *space;
    struct registers registers;
    struct entered entered;
    uint32_t utcb;        /* its address, or 0 */
    uint32_t *utcb_words; /* message register 0 in the bed's memory */
    uint32_t fault_address, fault_access;
    uint32_t vain_answers; /* answers in a row to one fault that did not give the right */
    int is_halted;         /* its program does not run until another thread starts it; its Ipc continues */
    uint32_t send_timeout, receive_timeout; /* of the Ipc in which it is, if they are neither zero nor never; otherwise 0 */
    uint64_t call_time;    /* when it entered this Ipc, if one of these timeouts is not 0 */
    uint64_t deadline;     /* when the phase in which it waits expires, or 0 */
    char text[1023];       /* the line that it has begun to print; a longer one is printed in parts */
    size_t text_length;
};

struct costs {
    uint64_t calls, faults, runs, mapped, unmapped;
};

/* Limits of a run: seconds of the host, calls of the kernel, and mebibytes of the host's memory. 0 means that there is none. */
struct limits {
    uint64_t seconds, calls, memory;
};

enum end { NOT_ENDED, ENDED_WELL, ENDED_BY_FAILURE, ENDED_BY_ASSERTION, ENDED_BY_LIMIT, ENDED_BY_SIGNAL, ENDED_BY_OUTPUT };

struct bed {
    const struct engine_kind *kind;
    struct engine *engine;
    l4_kernel kernel;
    l4_sigma0 sigma0;
    struct entered sigma0_entered;
    struct memory memory;
    uint32_t frames; /* the kernel's frames. The bed's own follow: the kernel interface page, and pages of UTCBs */
    uint32_t first_loaded_frame, next_free_frame;
    unsigned char is_own_frame_used[L4_MAX_THREADS];
    struct space spaces[L4_MAX_THREADS];
    struct thread threads[L4_MAX_THREADS];
    uint32_t turn;                   /* how many milliseconds a turn has */
    uint32_t slots;                  /* the number of places of `threads`, from the first one on, that have been used */
    uint32_t threads_of[PRIORITIES]; /* how many threads have each priority */
    uint32_t next_turns[PRIORITIES]; /* from where on the next thread of each priority is searched */
    struct thread *named_next;       /* the thread that ThreadSwitch has named, or NULL */
    struct changes changes;
    int prints_lines, verifies;
    uint32_t traced[L4_MAX_THREADS], traced_count; /* the numbers of the threads whose calls are printed */
    unsigned char has_existed[L4_MAX_THREADS];     /* the traced threads that have existed */
    uint32_t script_gaps; /* calls that the language of scripts cannot express */
    int rounded_rights;   /* the bed has said that the engine rounds rights up */
    uint64_t virtual_time; /* in nanoseconds */
    int has_virtual_clock;
    int has_timeouts;       /* a thread has used a timeout that is neither zero nor never */
    uint64_t next_deadline; /* no wait expires before this time, in microseconds of the clock; or 0 if none expires */
    struct limits limits;
    struct {
        uint64_t start, last; /* times in nanoseconds */
        int memory;           /* the file from which the bed reads its own memory */
    } watch;
    enum end end;
    char end_reason[80];
    int has_stopped; /* the bed has stopped a thread */
    int has_gdb;
    struct costs costs;
    uint64_t entries;      /* how often a program has entered the kernel, or ended its turn */
    struct orders *orders; /* the search of all orders, or the replay of one; or NULL */
};

/* main.c */
unsigned char *bed_frame(struct bed *bed, uint32_t frame);
/* Allocates and frees a frame for UTCBs. */
uint32_t bed_new_frame(struct bed *bed);
void bed_free_frame(struct bed *bed, uint32_t frame);

/* kernel.c: calls of the library, and the lines that report what they did. */
l4_call kernel_call(uint32_t kind);
/* Enters a call of a thread, and then lets sigma0 answer. Returns the call's refusal. */
uint32_t kernel_enter(struct bed *bed, uint32_t thread, const l4_call *call, const uint32_t *words, size_t count);
/* Ends the wait of a thread because its timeout is over, or because another thread cancels it. */
void kernel_timeout(struct bed *bed, uint32_t thread);
void kernel_cancel(struct bed *bed, uint32_t thread);
l4_reply kernel_reply(struct bed *bed, uint32_t thread);
uint64_t kernel_space(struct bed *bed, uint32_t thread);
l4_mapping kernel_mapping(struct bed *bed, uint64_t space, uint32_t page);
/* Returns the words with which a thread entered its last call, and the window in which it receives. */
struct entered *kernel_entered(struct bed *bed, uint32_t thread);
void kernel_begin_sigma0(struct bed *bed);
/* Prints a line of the kernel if lines are printed. */
void print_line(const struct bed *bed, const char *format, ...) __attribute__((format(printf, 2, 3)));
const char *rights_text(uint32_t rights);

/* end.c */
void end_begin(struct bed *bed);
/* Ends the run if it has reached a limit, if a signal asks for it, or if an output cannot be written. Writes whole lines from time to time. */
void end_watch(struct bed *bed);
/* Ends the run at gdb's request. */
void end_by_gdb(struct bed *bed);
/* Prints why the run has ended, and what each thread does, unless a program has ended it. */
void end_report(struct bed *bed);
/* Prints what each thread does, and the circles of threads that wait for each other. */
void end_print_threads(struct bed *bed);
/* Returns the exit status; or ends the bed by the signal that has ended the run. */
int end_status(const struct bed *bed);

/* record.c: the run as a script for `l4`, and as a list for `l4_steps`. */
void record_begin(struct bed *bed);
void record_call(struct bed *bed, uint32_t thread, const l4_call *call, const uint32_t *words, size_t count);
void record_step(const l4_step *step);
/* `name` is timeout or cancel. */
void record_end_of_wait(const char *name, uint32_t thread);
void record_end(struct bed *bed);

/* text.c: what programs print. A line is printed once it is complete, or as long as a line can be. */
void text_add(struct thread *thread, char character);
void text_end_line(struct thread *thread);
/* Prints the line that the thread has begun, if there is one. */
void text_end_begun(struct thread *thread);
/* Writes the text with \xNN in place of control characters. `room` has to be four times its length, and one more. */
void text_escape(const char *text, size_t length, char *escaped, size_t room);

/* trace.c: the calls of traced threads by name. */
void trace_add(struct bed *bed, uint32_t thread);
void trace_thread_exists(struct bed *bed, uint32_t thread);
int trace_is_on(const struct bed *bed, uint32_t thread);
/* Ends the bed with STATUS_INPUT if a traced thread has never existed. */
void trace_check(const struct bed *bed);
void trace_call(struct bed *bed, uint32_t thread, const l4_call *call, const uint32_t *words);
void trace_refusal(const struct bed *bed, uint32_t thread, uint32_t refusal);
void trace_reply(const struct bed *bed, uint32_t thread, const l4_reply *reply);

/* kip.c */
#define KIP_STUBS 0x800u
#define KIP_STUB_LOG 4
#define KIP_CURRENT_UTCB 0xffcu
enum system_call {
    SYSTEM_IPC,
    SYSTEM_LIPC,
    SYSTEM_UNMAP,
    SYSTEM_EXCHANGE_REGISTERS,
    SYSTEM_CLOCK,
    SYSTEM_THREAD_SWITCH,
    SYSTEM_SCHEDULE,
    SYSTEM_SPACE_CONTROL,
    SYSTEM_THREAD_CONTROL,
    SYSTEM_PROCESSOR_CONTROL,
    SYSTEM_MEMORY_CONTROL,
    SYSTEM_KDB,
    SYSTEM_CALLS
};
#define KIP_API_VERSION UINT32_C(0x84070000)
#define KIP_API_FLAGS 0u
#define KIP_KERNEL_ID UINT32_C(0xfe000000)
void kip_write(struct bed *bed);
/* The loaded programs begin at the first address, and end with the page of the boot info. */
void kip_set_boot_info(struct bed *bed, uint32_t first, uint32_t address);

/* space.c */
struct space *space_new(struct bed *bed, uint64_t number);
void space_free(struct bed *bed, struct space *space);
/* Maps the areas in the engine. The kernel's own mappings of these pages stay invisible. */
void space_set_areas(struct bed *bed, struct space *space, uint32_t kip, uint32_t utcbs, uint32_t utcbs_log);
int space_has_utcb(const struct space *space, uint32_t address);
/* Returns message register 0 of the UTCB at this address. */
uint32_t *space_utcb(struct bed *bed, struct space *space, uint32_t address);
/* Returns the byte at an address, or NULL if the space may not read it. */
const unsigned char *space_byte(struct bed *bed, struct space *space, uint32_t address);

/* changes.c: keeps the engine's pages equal to the kernel's. Call a change_before_ function before each step that may move or revoke pages,
 * change_after_transfer after a transfer that delivered its message, and then change_apply. */
void change_before_transfer(struct bed *bed, uint32_t sender, uint32_t receiver);
void change_after_transfer(struct bed *bed, uint32_t sender, uint32_t receiver);
void change_before_unmap(struct bed *bed, uint32_t thread, uint32_t control, const uint32_t *words, size_t count);
void change_before_delete(struct bed *bed, uint32_t id);
void change_apply(struct bed *bed);
/* Returns what a space has at a page as its tables have it (the frame, the rights and MAPPED), or 0; and makes the page of the engine that. */
uint32_t change_entry(const struct space *space, uint32_t page);
void change_set(struct bed *bed, struct space *space, uint32_t page, uint32_t entry);
/* Ends the bed unless every page of every space is as the kernel has it. */
void change_verify(struct bed *bed);

/* thread.c */
struct thread *thread_find(struct bed *bed, uint32_t id);
struct thread *thread_numbered(struct bed *bed, uint32_t number);
struct thread *thread_new(struct bed *bed, uint32_t id, struct space *space);
void thread_free(struct bed *bed, struct thread *thread);
/* Returns whether the space of the thread has no other thread. */
int thread_is_alone(const struct bed *bed, const struct thread *thread);
void thread_set_id(struct thread *thread, uint32_t id);
void thread_set_utcb(struct bed *bed, struct thread *thread, uint32_t address);
/* Lets the thread wait for the message of its pager that says where it begins. */
void thread_activate(struct bed *bed, struct thread *thread, uint32_t pager);
void thread_set_ready(struct thread *thread, uint32_t eip, uint32_t esp);
/* Runs the thread until it waits, is stopped, or its turn ends. Returns 0 if it could not run at all. */
int thread_turn(struct bed *bed, struct thread *thread);
/* Runs a thread that is ready until it enters the kernel, ends its turn, or is stopped. */
void thread_enter_once(struct bed *bed, struct thread *thread);
uint32_t thread_enter(struct bed *bed, struct thread *thread, enum call_kind kind, const l4_call *call, const uint32_t *words, size_t count);
void thread_fault(struct bed *bed, struct thread *thread, uint32_t address, uint32_t access);
/* Returns what the thread does in the kernel. */
l4_state thread_state(struct bed *bed, const struct thread *thread);
/* Returns L4_STATE_SENDING or L4_STATE_RECEIVING if the thread waits in the kernel, and otherwise 0. */
uint32_t thread_wait(struct bed *bed, const struct thread *thread);
/* Takes the reply of the thread's call if the call has ended. */
void thread_take_reply(struct bed *bed, struct thread *thread);
/* Such a wait of the thread is over, as the thread was created again. Its Ipc returns the ErrorCode of a canceled one; a page fault or an exception is
 * raised again. */
void thread_cancel(struct thread *thread, uint32_t wait);

/* Words of a UTCB, counted from message register 0. */
enum { TCR_ERROR_CODE = -9, TCR_EXCEPTION_HANDLER = -11, TCR_PAGER = -12, TCR_USER_DEFINED_HANDLE = -13, TCR_MY_GLOBAL_ID = -15, TCR_BUFFER_0 = -16 };

/* The tag of a failed Ipc. */
#define FAILED_TAG UINT32_C(0x8000)

/* ErrorCodes of ThreadControl, SpaceControl and ExchangeRegisters. */
enum { NO_PRIVILEGE = 1, INVALID_THREAD = 2, INVALID_SPACE = 3, INVALID_PARAMETER = 5, INVALID_UTCB_AREA = 6, INVALID_KIP_AREA = 7, OUT_OF_MEMORY = 8 };

/* calls.c: executes the system call whose stub the thread called. Returns 0 if the thread's turn ends. */
int call_take(struct bed *bed, struct thread *thread, enum system_call call);
/* A local id is the address of a UTCB, and names a thread of the caller's space. Returns the global id; or the id itself if it is global, or names no
 * thread. */
uint32_t call_global_id(const struct bed *bed, const struct thread *caller, uint32_t id);
/* Enters a call of the kernel that creates, changes or deletes a thread. Returns the ErrorCode. */
uint32_t call_control(struct bed *bed, struct thread *caller, uint32_t kind, uint32_t id, uint32_t space, uint32_t pager);
/* Deletes a thread in the kernel, and creates it again in the same space, with an id of the same number. Returns the ErrorCode. */
uint32_t call_recreate(struct bed *bed, struct thread *caller, const struct thread *changed, uint32_t id);

/* timeouts.c: the bed's clock, in microseconds, and timeouts by it. */
uint64_t clock_now(const struct bed *bed);
/* The thread enters this Ipc. Its timeouts become those that the kernel gets. */
void timeouts_begin(struct bed *bed, struct thread *thread, l4_call *call);
/* If the receive phase of the sender's Ipc has begun, its timeout begins. */
void timeouts_after_transfer(struct bed *bed, uint32_t sender);
/* The Ipc of the thread has ended. */
void timeouts_forget(struct thread *thread);
/* Ends each wait whose time is over, the earliest first. */
void timeouts_expire(struct bed *bed);
/* If no thread can run: lets time pass until the next wait expires, and ends it. Returns 0 if none expires. */
int timeouts_wait(struct bed *bed);
/* Returns the longest period up to so many microseconds, as a timeout. */
uint32_t timeouts_period(uint64_t microseconds);
/* Returns how many microseconds a period has. */
uint64_t timeouts_microseconds(uint32_t period);
/* Returns whether the timeout is a period and not a point in time. */
int timeouts_is_period(uint32_t timeout);
/* Returns how many microseconds are left until the wait of the thread expires. */
uint64_t timeouts_left(const struct bed *bed, const struct thread *thread);
/* Returns for how many microseconds such a timeout of the thread's Ipc lets it wait; those of a point in time count from the call on. */
uint64_t timeouts_length(const struct thread *thread, uint32_t timeout);

/* exchange.c: executes ExchangeRegisters. */
void exchange_take(struct bed *bed, struct thread *thread);

/* orders_notes.c: what the search of all orders has to know about a turn. Without a search, these functions do nothing. */
/* A call is about to start. */
void orders_note_call(struct bed *bed, uint32_t thread, const l4_call *call, const uint32_t *words, size_t count);
/* A wait has been ended: by a timeout, or by another thread. */
void orders_note_end_of_wait(struct bed *bed, uint32_t thread, int is_cancel);
/* A step has been executed. */
void orders_note_step(struct bed *bed, const l4_step *step);
/* sigma0 has given the pages of this answer to a space. */
void orders_note_owner(struct bed *bed, uint64_t space, const l4_message *message);
/* ExchangeRegisters or Schedule changes a thread, or returns what it does. NULL means that there is no such thread. */
void orders_note_change(struct bed *bed, const struct thread *thread);
/* Schedule sets a priority. */
void orders_note_priority(struct bed *bed);
/* Returns the time of the thread, in microseconds. */
uint64_t orders_time(const struct bed *bed, const struct thread *thread);
/* Moves the thread's time on, and returns it. */
uint64_t orders_clock(struct bed *bed, const struct thread *thread);

/* turns.c */
/* Gives turns to threads until none can run, or the run ends. */
void turns_run(struct bed *bed);
void turns_set_priority(struct bed *bed, struct thread *thread, uint32_t priority);
/* Executes the system call Schedule. */
void turns_schedule(struct bed *bed, struct thread *thread);

/* elf.c */
/* Loads root into the frames of its addresses, and returns its entry. */
uint32_t elf_load_root(struct bed *bed, const char *name);
/* Loads the other programs into the frames behind root, and describes them in the boot info. */
void elf_load_others(struct bed *bed, char **names, int count);

/* symbols.c: names of addresses. First a program is added, and then the parts of it that are loaded. */
void symbols_add_program(const char *file, const unsigned char *bytes, size_t length);
void symbols_add_part(uint32_t place, uint32_t start, uint32_t bytes);
void symbols_free(void);
/* Writes ` (FUNCTION+OFFSET in FILE, SOURCE:LINE)`, or nothing if the code at the address has no name. */
#define SYMBOL_ROOM 200
void symbols_write(struct bed *bed, const struct thread *thread, uint32_t address, char *text, size_t room);

/* probe.c: prints which engines work on this machine, and why others do not. */
void probe_engines(void);
/* Returns the engine with this name, or ends the bed. NULL means the first engine that was built. */
const struct engine_kind *engine_named(const char *name);

#endif
