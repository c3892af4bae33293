/* An adapter to start from: a root task that executes a step list on the kernel under test, and prints the list with the kernel's answers.
 * docs/conformance.md explains what an adapter does.
 *
 * The boot loader loads two programs beside it: the agents' program (agent.c), and one whose only part is the text of the list. Each thread of
 * the list has an agent. Agents are threads beside sigma0 and root, so a thread of the list has another number here. Thread 1 of the list is an
 * agent too, to whose space root maps the frames that sigma0 gives. Root makes the calls ThreadControl and SpaceControl for all agents, because
 * only threads of its own space may make them. */
#include "children.h"
#include "slot.h"
#include <l4/schedule.h>

#define MOST_AGENTS 60u
#define FRAMES 256u
#define RET 0xc3
#define MOST_TOKENS 72u

/* A step is complete when every thread has had this many turns, and this time has passed. Kernels that do not give each thread a turn when
 * another one yields need the time. */
#define SETTLING_TURNS 4u
#ifndef SETTLING_MICROSECONDS
#define SETTLING_MICROSECONDS 10000u
#endif

enum end { NOT_ENDED, BY_IPC, BY_UNMAP, BY_FAULT, BY_CONTROL };

struct agent {
    L4_Word_t number;            /* in the list; 0 if the place is free */
    int is_calling, has_message; /* whether its call has not been reported yet, and whether its page fault became a message */
    enum end last;               /* how its last call that was reported has ended */
    L4_Word_t ip;                /* of its page fault, in the list */
};

/* The line of the list that is executed, as numbers behind its first word. */
struct line {
    const char *text, *end;
    L4_Word_t count;
    const char *tokens[MOST_TOKENS];
};

static struct agent agents[MOST_AGENTS];
static union {
    struct slot slot;
    char bytes[PAGE_BYTES];
} pages[MOST_AGENTS] __attribute__((aligned(4096)));

/* THREADS */

static L4_Word_t user_base(void) {
    return L4_ThreadIdUserBase(L4_GetKernelInterface());
}

/* Here, sigma0 and root have the first two numbers, so thread 1 of the list has the third. */
static L4_Word_t numbers_between(void) {
    return user_base() + 1;
}

/* No thread of a list has the number 0, or one that is too large here. Such an id stays as it is. */
static L4_ThreadId_t kernel_id(L4_Word_t id) {
    L4_Word_t number = id >> 14;
    if (number == 0 || number + numbers_between() >= 1u << 18)
        return L4_ThreadIdOfWord(id);
    return L4_GlobalId(number + numbers_between(), id & 0x3fff);
}

static L4_Word_t list_id(L4_Word_t id) {
    return id == 0 ? 0 : L4_GlobalId((id >> 14) - numbers_between(), id & 0x3fff).raw;
}

static L4_Word_t place_of(L4_Word_t number) {
    L4_Word_t place = 0;
    while (place < MOST_AGENTS && agents[place].number != number)
        place++;
    return place;
}

static struct agent *agent_of(L4_Word_t number) {
    L4_Word_t place = place_of(number);
    demand(place < MOST_AGENTS, "the list has a thread that does not exist");
    return &agents[place];
}

static struct slot *slot_of(const struct agent *agent) {
    return &pages[agent - agents].slot;
}

/* Answers the first page faults of an agent: its program, and its slot's page. */
static void map_agent_page(L4_Word_t place, L4_Word_t address) {
    const L4_Boot_SimpleExec_t *exec = program(0);
    L4_Word_t rights = L4_ReadeXecOnly, page = page_in(&exec->text, exec->text.size, address);
    L4_Msg_t message;
    if (page == 0) {
        rights = L4_ReadWriteOnly;
        page = page_in(&exec->data, exec->data.size, address);
    }
    if (address - (AGENT_SLOTS + place * PAGE_BYTES) < PAGE_BYTES)
        page = (L4_Word_t)&pages[place];
    demand(page != 0, "an agent accesses a page that it does not have");
    L4_MsgClear(&message);
    L4_MsgAppendMapItem(&message, L4_MapItem(L4_FpageAddRights(L4_FpageLog2(page, PAGE_LOG), rights), address & ~(PAGE_BYTES - 1)));
    L4_MsgLoad(&message);
}

/* Starts an agent, whose pager is root until it runs. */
static void start_agent(L4_Word_t place, L4_ThreadId_t id) {
    L4_MsgTag_t tag;
    L4_Word_t address;
    L4_Set_MsgTag(L4_MsgTagOfWord(2));
    L4_LoadMR(1, program(0)->initial_ip);
    L4_LoadMR(2, AGENT_SLOTS + (place + 1) * PAGE_BYTES - 16);
    demand(L4_IpcSucceeded(L4_Send(id)), "an agent does not start");
    for (tag = L4_Receive(id); is_fault(tag); tag = L4_Call(id)) {
        L4_StoreMR(1, &address);
        map_agent_page(place, address);
    }
    demand(L4_IpcSucceeded(tag) && L4_Label(tag) == READY, "an agent does not run");
}

/* Creates the agent of a thread, in a space of its own if the space is named by its own id. Returns whether the kernel created it. */
static int create_agent(L4_Word_t list_thread, L4_Word_t list_space, L4_Word_t list_pager) {
    L4_Word_t place = place_of(0), old;
    L4_ThreadId_t id = kernel_id(list_thread), space = kernel_id(list_space);
    void *utcb = (void *)(AGENT_UTCBS + place * UTCB_BYTES + UTCB_BYTES / 2);
    demand(place < MOST_AGENTS, "the list has too many threads");
    pages[place].slot.call = NO_CALL;
    pages[place].slot.state = IDLE;
    if (list_space == list_thread) {
        if (!L4_ThreadControl(id, id, L4_Myself(), L4_nilthread, (void *)0xffffffffu))
            return 0;
        demand(L4_SpaceControl(id, 0, L4_FpageLog2(AGENT_KIP, PAGE_LOG), L4_FpageLog2(AGENT_UTCBS, AGENT_UTCBS_LOG), L4_nilthread, &old),
               "the areas of a space cannot be set");
        space = id;
    }
    if (!L4_ThreadControl(id, space, L4_Myself(), L4_Myself(), utcb))
        return 0;
    start_agent(place, id);
    agents[place] = (struct agent){list_thread >> 14, 0, 0, NOT_ENDED, 0};
    demand(L4_ThreadControl(id, id, L4_Myself(), kernel_id(list_pager), (void *)0xffffffffu), "an agent gets no pager");
    return 1;
}

static int delete_agent(L4_Word_t list_thread) {
    return L4_ThreadControl(kernel_id(list_thread), L4_nilthread, L4_Myself(), L4_nilthread, (void *)0xffffffffu) != 0;
}

static int set_pager(L4_Word_t list_thread, L4_Word_t list_pager) {
    L4_ThreadId_t id = kernel_id(list_thread);
    return L4_ThreadControl(id, id, L4_Myself(), kernel_id(list_pager), (void *)0xffffffffu) != 0;
}

/* LINES */

static int is_space(char c) {
    return c == ' ' || c == '\t' || c == '\r';
}

/* Reads the line at this place. Returns where the next one begins. */
static const char *read_line(struct line *line, const char *text) {
    int is_inside = 0;
    line->text = text;
    line->count = 0;
    for (; *text != '\n' && *text != 0; text++) {
        if (!is_space(*text) && !is_inside && line->count < MOST_TOKENS)
            line->tokens[line->count++] = text;
        is_inside = !is_space(*text);
    }
    line->end = text;
    return *text == 0 ? text : text + 1;
}

static int is_word(const char *token, const char *word) {
    while (*word != 0 && *token == *word) {
        token++;
        word++;
    }
    return *word == 0 && (is_space(*token) || *token == '\n' || *token == 0);
}

static int begins(const struct line *line, const char *word) {
    return line->count > 0 && is_word(line->tokens[0], word);
}

static L4_Word_t digit(char c) {
    return c >= 'a' ? (L4_Word_t)(c - 'a') + 10 : c >= 'A' ? (L4_Word_t)(c - 'A') + 10 : (L4_Word_t)(c - '0');
}

/* The number in a token of the line, and 0 if the line has no such token. */
static L4_Word_t number(const struct line *line, L4_Word_t place) {
    const char *c = place < line->count ? line->tokens[place] : "";
    L4_Word_t value = 0, base = 10;
    if (c[0] == '0' && c[1] == 'x') {
        base = 16;
        c += 2;
    }
    for (; *c != 0 && *c != '\n' && !is_space(*c); c++)
        value = value * base + digit(*c);
    return value;
}

static void print_text(const char *text, const char *end) {
    for (; text < end; text++)
        L4_KDB_PrintChar(*text);
}

/* WAITING */

/* Waits until no thread can continue. */
static void settle(void) {
    L4_Clock_t end = L4_ClockAddUsec(L4_SystemClock(), SETTLING_MICROSECONDS);
    L4_Word_t turns;
    for (turns = 0; turns < SETTLING_TURNS || L4_IsClockEarlier(L4_SystemClock(), end); turns++)
        L4_Yield();
}

static int has_returned(const struct agent *agent) {
    return agent->number != 0 && agent->is_calling && slot_of(agent)->state == RETURNED;
}

/* The kernel continues at once, so a call can end before the line of the step that ends it. A later step that is enabled before the next call
 * names the thread. */
static int is_named_later(L4_Word_t thread, const char *next) {
    struct line line;
    while (*next != 0) {
        next = read_line(&line, next);
        if (begins(&line, "start"))
            return 0;
        if (begins(&line, "transfer") && (number(&line, 1) == thread || number(&line, 2) == thread))
            return 1;
        if (begins(&line, "expire") && number(&line, 1) == thread)
            return 1;
    }
    return 0;
}

/* ANSWERS */

/* The agent's own instruction raised the fault. The list has another instruction pointer. */
static L4_Word_t word_of(const struct slot *slot, L4_Word_t place) {
    L4_Word_t from = place_of(list_id(slot->sender) >> 14);
    if (place == 2 && slot->tag >> 20 == 0xffe && from < MOST_AGENTS)
        return agents[from].ip;
    return slot->words[place];
}

static void print_ipc(const struct slot *slot) {
    L4_Word_t k;
    print("ipc ");
    print_hex(slot->tag);
    print_number(" ", slot->error, "");
    print_word(" ", list_id(slot->sender), "");
    for (k = 1; k <= slot->count; k++)
        print_word(" ", word_of(slot, k), "");
}

static void print_end(const struct agent *agent) {
    switch (agent->last) {
    case NOT_ENDED: print("none"); break;
    case BY_IPC: print_ipc(slot_of(agent)); break;
    case BY_UNMAP: print("unmapped"); break;
    case BY_FAULT: print(agent->has_message ? "answered" : "hit"); break;
    case BY_CONTROL: print("controlled"); break;
    }
    print("\n");
}

static void report(struct agent *agent) {
    agent->is_calling = 0;
    print_number("# ", agent->number, " ");
    print_end(agent);
}

/* Prints the end of a call that has returned, unless a later step ends it in the list. */
static void report_if_ended(L4_Word_t thread, const char *next) {
    L4_Word_t place = place_of(thread);
    if (place < MOST_AGENTS && has_returned(&agents[place]) && !is_named_later(thread, next))
        report(&agents[place]);
}

/* The others follow by rising number; among them a thread that was deleted while it waited. */
static void report_others(L4_Word_t gone, const char *next) {
    L4_Word_t thread = 0, k;
    do {
        L4_Word_t after = ~0u;
        for (k = 0; k < MOST_AGENTS; k++) {
            if (agents[k].number > thread && agents[k].number < after)
                after = agents[k].number;
        }
        thread = after;
        if (thread == gone && agent_of(gone)->is_calling)
            print_number("# ", gone, " gone\n");
        else if (thread != ~0u && thread != gone)
            report_if_ended(thread, next);
    } while (thread != ~0u);
}

/* STEPS */

static void copy_words(struct slot *slot, const struct line *line, L4_Word_t first) {
    L4_Word_t k;
    slot->count = line->count > first ? line->count - first : 0;
    if (slot->count == 0)
        slot->words[0] = 0;
    for (k = 0; k < slot->count; k++)
        slot->words[k] = number(line, first + k);
    if (slot->count == 0)
        slot->count = 1;
}

/* Has the agent make the call, and waits until it has begun and no thread can continue. */
static void make_call(struct agent *agent, enum call call, enum end end) {
    struct slot *slot = slot_of(agent);
    demand(!agent->is_calling, "a thread of the list makes a call before its last one has ended");
    agent->is_calling = 1;
    agent->has_message = 0;
    agent->last = end;
    slot->state = IDLE;
    slot->call = call;
    while (slot->state == IDLE)
        L4_Yield();
    settle();
}

static void start_ipc(struct agent *agent, const struct line *line) {
    struct slot *slot = slot_of(agent);
    slot->to = kernel_id(number(line, 3)).raw;
    slot->from = kernel_id(number(line, 4)).raw;
    slot->timeouts = number(line, 5);
    slot->acceptor = number(line, 6);
    copy_words(slot, line, 7);
    make_call(agent, IPC, BY_IPC);
}

static void start_unmap(struct agent *agent, const struct line *line) {
    struct slot *slot = slot_of(agent);
    slot->control = number(line, 3);
    copy_words(slot, line, 4);
    make_call(agent, UNMAP, BY_UNMAP);
}

static void start_fault(struct agent *agent, const struct line *line) {
    struct slot *slot = slot_of(agent);
    slot->address = number(line, 3);
    agent->ip = number(line, 4);
    slot->access = number(line, 5);
    make_call(agent, FAULT, BY_FAULT);
    agent->has_message = !has_returned(agent);
}

/* Root makes the call in place of the agent. */
static int start_control(struct agent *agent, const struct line *line) {
    const char *kind = line->tokens[2];
    int is_done = is_word(kind, "create")    ? create_agent(number(line, 3), number(line, 4), number(line, 5))
                  : is_word(kind, "setpager") ? set_pager(number(line, 3), number(line, 4))
                                              : delete_agent(number(line, 3));
    agent->last = BY_CONTROL;
    settle();
    return is_done;
}

static void take_control(struct agent *agent, const struct line *line, const char *next) {
    L4_Word_t gone = is_word(line->tokens[2], "delete") ? number(line, 3) >> 14 : 0;
    if (!start_control(agent, line)) {
        print("# ?\n");
        return;
    }
    print("# started\n");
    report(agent);
    report_others(gone, next);
    if (gone != 0)
        agent_of(gone)->number = 0;
}

static void take_start(const struct line *line, const char *next) {
    struct agent *agent = agent_of(number(line, 1));
    const char *kind = line->tokens[2];
    if (is_word(kind, "ipc"))
        start_ipc(agent, line);
    else if (is_word(kind, "unmap"))
        start_unmap(agent, line);
    else if (is_word(kind, "fault"))
        start_fault(agent, line);
    else {
        take_control(agent, line, next);
        return;
    }
    print("# started\n");
    report_if_ended(agent->number, next);
    report_others(0, next);
}

static int has_failed(const struct agent *agent) {
    return agent->last == BY_IPC && slot_of(agent)->error != 0;
}

static void take_transfer(const struct line *line, const char *next) {
    struct agent *sender = agent_of(number(line, 1)), *receiver = agent_of(number(line, 2));
    if (!has_returned(sender) && !has_returned(receiver)) {
        print("# refused K1\n");
        return;
    }
    print(has_returned(receiver) && !has_failed(receiver) ? "# done\n" : "# ?\n");
    report_if_ended(sender->number, next);
    report_if_ended(receiver->number, next);
    report_others(0, next);
}

static void take_expire(const struct line *line, const char *next) {
    struct agent *agent = agent_of(number(line, 1));
    int is_expired = has_returned(agent) && !is_named_later(agent->number, next);
    print(is_expired ? "# expired\n" : "# refused K1\n");
    report_if_ended(agent->number, next);
    report_others(0, next);
}

static void take_reply(const struct line *line) {
    L4_Word_t place = place_of(number(line, 1));
    print("# ");
    if (place < MOST_AGENTS && !agents[place].is_calling)
        print_end(&agents[place]);
    else
        print("none\n");
}

/* Answers a line. Nothing is known of pages: the list asks by faults too. */
static void take_line(const struct line *line, const char *next) {
    if (begins(line, "start"))
        take_start(line, next);
    else if (begins(line, "transfer"))
        take_transfer(line, next);
    else if (begins(line, "expire"))
        take_expire(line, next);
    else if (begins(line, "reply"))
        take_reply(line);
    else if (!begins(line, "pages"))
        print("# ?\n");
}

static void run_list(const char *text) {
    struct line line;
    while (*text != 0) {
        text = read_line(&line, text);
        if (line.text[0] == '#' && line.text[1] == ' ')
            continue;
        print_text(line.text, line.end);
        print("\n");
        if (line.count > 0 && line.text[0] != '#')
            take_line(&line, text);
    }
}

/* THE START */

/* Requests the frames from sigma0, and fills them with the instruction `ret`. */
static void take_frames(void) {
    L4_ThreadId_t sigma0 = L4_GlobalId(user_base(), 1);
    L4_Word_t frame, at;
    for (frame = 0; frame < FRAMES; frame++) {
        if (L4_IsNilFpage(L4_Sigma0_GetPage(sigma0, L4_FpageLog2(frame << PAGE_LOG, PAGE_LOG)))) {
            print_number("## sigma0 does not give frame ", frame, "\n");
            continue;
        }
        for (at = frame << PAGE_LOG; at < (frame + 1) << PAGE_LOG; at++)
            *(volatile char *)at = (char)RET;
    }
}

/* Maps the frames to the space of thread 1, page by page of the same numbers. */
static void give_frames(struct agent *first) {
    struct slot *slot = slot_of(first);
    L4_Fpage_t all = L4_FpageAddRights(L4_FpageLog2(0, PAGE_LOG + 8), L4_FullyAccessible);
    L4_Msg_t message;
    slot->to = 0;
    slot->from = L4_Myself().raw;
    slot->timeouts = 0;
    slot->acceptor = L4_CompleteAddressSpace.raw;
    slot->count = 1;
    make_call(first, IPC, NOT_ENDED);
    L4_MsgClear(&message);
    L4_MsgAppendMapItem(&message, L4_MapItem(all, 0));
    L4_MsgLoad(&message);
    demand(L4_IpcSucceeded(L4_Send(kernel_id(0x4001))), "thread 1 gets no frames");
    settle();
    first->is_calling = 0;
}

int main(void) {
    L4_Word_t k;
    for (k = 0; k < MOST_AGENTS; k++)
        pages[k].slot.state = IDLE; /* so that root has the page */
    take_pages(program(0)->text.pstart, program(0)->text.size);
    take_pages(program(0)->data.pstart, program(0)->data.size);
    take_pages(program(1)->data.pstart, program(1)->data.size);
    take_frames();
    demand(create_agent(0x4001, 0x4001, 0), "thread 1 cannot be created");
    demand(create_agent(0x8001, 0x8001, 0x4001), "thread 2 cannot be created");
    give_frames(&agents[place_of(1)]);
    run_list((const char *)program(1)->data.pstart);
    L4_KDB_Enter("the list has ended");
    return 0;
}
