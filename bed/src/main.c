/* l4_bed: runs programs of the L4 X.2 interface over the proved kernel of libl4. */
#define _GNU_SOURCE
#include "bed.h"
#include "check.h"
#include "gdb.h"
#include "orders.h"
#include "signals.h"
#include "test.h"
#include <errno.h>
#include <getopt.h>
#include <stdio.h>
#include <stdlib.h>
#include <string.h>
#include <sys/mman.h>
#include <time.h>
#include <unistd.h>

#define DEFAULT_FRAMES 1024u
#define DEFAULT_STATES 1000000u
/* The bed's own frames: the kernel interface page, and one page of UTCBs for each thread at most. */
#define OWN_FRAMES (1u + L4_MAX_THREADS)

unsigned char *bed_frame(struct bed *bed, uint32_t frame) {
    check_holds(frame < bed->memory.frames, "a frame is not in the memory");
    return bed->memory.bytes + (size_t)frame * PAGE_BYTES;
}

uint32_t bed_new_frame(struct bed *bed) {
    uint32_t place = 0;
    while (place < L4_MAX_THREADS && bed->is_own_frame_used[place])
        place++;
    check_holds(place < L4_MAX_THREADS, "no page for UTCBs is left");
    bed->is_own_frame_used[place] = 1;
    return bed->frames + 1 + place;
}

void bed_free_frame(struct bed *bed, uint32_t frame) {
    bed->is_own_frame_used[frame - bed->frames - 1] = 0;
}

static void make_memory(struct memory *memory, uint32_t frames) {
    size_t length = (size_t)frames * PAGE_BYTES;
    memory->frames = frames;
    memory->file = memfd_create("l4_bed", MFD_CLOEXEC);
    check_system(memory->file, "memfd_create");
    check_system(ftruncate(memory->file, (off_t)length), "ftruncate of the frames");
    memory->bytes = mmap(NULL, length, PROT_READ | PROT_WRITE, MAP_SHARED, memory->file, 0);
    check_holds(memory->bytes != MAP_FAILED, "there is not enough memory for the frames");
}

/* The kernel boots before the engine opens, so that programs are loaded and checked without an engine. */
static void make_kernel(struct bed *bed, uint32_t frames) {
    bed->kernel = (l4_kernel)L4_EMPTY;
    bed->sigma0 = (l4_sigma0)L4_EMPTY;
    check_library(l4_boot(&bed->kernel, frames), "l4_boot");
    check_library(l4_sigma0_new(&bed->sigma0, frames), "l4_sigma0_new");
    bed->frames = frames;
    make_memory(&bed->memory, frames + OWN_FRAMES);
    kip_write(bed);
}

static void free_bed(struct bed *bed) {
    size_t k;
    if (bed->kind->end != NULL)
        bed->kind->end(bed->engine);
    for (k = 0; k < L4_MAX_THREADS; k++) {
        if (bed->threads[k].state != ABSENT)
            bed->threads[k].state = STOPPED;
        if (bed->spaces[k].exists)
            space_free(bed, &bed->spaces[k]);
    }
    free(bed->changes.list);
    symbols_free();
    bed->kind->close(bed->engine);
    munmap(bed->memory.bytes, (size_t)bed->memory.frames * PAGE_BYTES);
    close(bed->memory.file);
    l4_sigma0_free(&bed->sigma0);
    l4_free(&bed->kernel);
}

static void begin_root(struct bed *bed, uint32_t entry) {
    struct space *space = space_new(bed, ROOT_SPACE);
    struct thread *root = thread_new(bed, ID(ROOT), space);
    l4_call call = kernel_call(L4_SET_PAGER);
    uint32_t none = 0;
    call.id = ID(ROOT);
    call.pager = ID(SIGMA0);
    check_library(kernel_enter(bed, ROOT, &call, &none, 0), "the call that makes sigma0 the pager of root");
    space_set_areas(bed, space, ROOT_KIP, ROOT_UTCBS, ROOT_UTCBS_LOG);
    thread_set_utcb(bed, root, ROOT_UTCBS + UTCB_MIDDLE);
    root->pager = call.pager;
    root->utcb_words[TCR_PAGER] = call.pager;
    thread_set_ready(root, entry, 0);
}

static double now(void) {
    struct timespec time;
    check_system(clock_gettime(CLOCK_MONOTONIC, &time), "clock_gettime");
    return (double)time.tv_sec + (double)time.tv_nsec * 1e-9;
}

static void print_costs(const struct bed *bed, double seconds) {
    const struct costs *costs = &bed->costs;
    fprintf(stderr, "engine %s: %.3f s, %llu runs, %llu kernel calls, %llu page faults, %llu pages mapped, %llu unmapped\n", bed->kind->name, seconds,
            (unsigned long long)costs->runs, (unsigned long long)costs->calls, (unsigned long long)costs->faults,
            (unsigned long long)costs->mapped, (unsigned long long)costs->unmapped);
    if (bed->orders != NULL)
        orders_print_costs(bed, seconds);
}

static const char usage[] =
    "usage: l4_bed [OPTION..] ROOT [PROGRAM..]\n"
    "       l4_bed test [--tap] [OPTION..] FILE|FOLDER..\n"
    "       l4_bed --engines | --help | --version\n"
    "\n"
    "Runs static 32-bit x86 programs, written to the L4 X.2 interface, over the kernel of libl4. ROOT is the root task; it finds the other\n"
    "programs in the boot info. l4_bed test runs programs, and compares their lines and their status with those that a file expects.\n"
    "\n"
    "  --engine NAME    execute instructions with unicorn, ptrace or kvm\n"
    "  --engines        print which engines work on this machine, and exit\n"
    "  --frames N       boot with N page frames, 1 to 4096 (default 1024)\n"
    "  --lines          print what each thread asks of the kernel, and the kernel's answers\n"
    "  --trace THREAD   print the calls of this thread by name, with decoded messages; may be repeated\n"
    "  --script FILE    write the run as a script for l4 run, l4 why and l4 history\n"
    "  --steps FILE     write the run as a step list for l4_steps\n"
    "  --costs          print the time and the counts of calls, faults and pages on standard error\n"
    "  --verify         compare every page of every space with the kernel after each call\n"
    "  --time SECONDS   end the run after this time\n"
    "  --calls N        end the run after N kernel calls\n"
    "  --memory MIB     end the run if the bed has this many mebibytes in the host's memory\n"
    "\n"
    "  --orders         run the programs in every order of their turns, and print each outcome with a schedule that leads to it\n"
    "  --schedule FILE  take the turns of this schedule\n"
    "With --orders:\n"
    "  --never LINE     exit with status 1 if an outcome has this line; * matches any text, as in the shell\n"
    "  --always LINE    exit with status 1 if an outcome does not have this line\n"
    "  --from-line TEXT take turns in a fixed order until a thread prints a line with TEXT, and search from there\n"
    "  --switch-at-memory  let a turn also end at each access to a word of memory that threads share\n"
    "  --all-turns      follow every turn, count the schedules, and look for threads that can wait for ever\n"
    "  --certificate FILE  with --all-turns: write all states to a file\n"
    "  --check-orders FILE  instead of --orders: check that each turn from each state of this file leads to one of them, and print the outcomes\n"
    "  --part K/N       with --check-orders: check only the Kth of N parts of the states\n"
    "  --page N         add what each space has at page N to each outcome\n"
    "  --outcomes       print the outcomes without schedules\n"
    "  --schedules DIR  write the schedule of outcome K to DIR/K.schedule\n"
    "  --most N         visit at most N states (default 1000000)\n"
    "  --depth N        follow at most N turns of an order\n"
    "\n"
    "  --turn MS        interrupt a thread that runs for MS milliseconds, 1 to 1000, without a system call\n"
    "  --clock NAME     SystemClock and timeouts follow the clock of the host, or virtual time: what unicorn has executed (its default)\n"
    "  --gdb PORT       wait until gdb connects to this port of the machine itself (only with unicorn)\n"
    "  --tap            with l4_bed test: print the results in TAP. Write all other options as --NAME=VALUE there\n"
    "\n"
    "Exit status:\n"
    "  0  a program ended the run; with l4_bed test: all passed\n"
    "  1  a program ended the run with a text that begins with failed or panic; with l4_bed test: some did not pass\n"
    "  2  the command line, a program file or a test file is invalid\n"
    "  3  output cannot be written\n"
    "  4  the engine or the host cannot do what the bed needs, or the bed has crashed\n"
    "  5  deadlock: every thread waits, and nothing can end a wait\n"
    "  6  the bed stopped a thread, for example because of an exception that has no handler\n"
    "  7  an assertion of a program does not hold\n"
    "  8  the run, or the search of all orders, reached a limit\n"
    "With --orders, the status is that of an outcome: the lowest one that is not 0. A broken rule has status 1, and a thread that can wait for ever 5.\n"
    "SIGINT, SIGTERM and SIGHUP end the run, and the bed exits by this signal.\n";

struct options {
    const char *engine, *script, *steps;
    struct bed *bed; /* to which some options are given at once */
    uint32_t frames;
    int prints_lines, prints_costs, verifies;
    struct limits limits;
    uint32_t turn, gdb_port;
    const char *clock;
    struct orders_options orders;
};

enum { ENGINE = 1, ENGINES, FRAMES, LINES, TRACE, SCRIPT, STEPS, COSTS, VERIFY, TIME, CALLS, MEMORY, TURN, CLOCK, GDB, HELP, VERSION, ORDERS,
       SCHEDULE, NEVER, ALWAYS, FROM_LINE, SWITCH_AT_MEMORY, ALL_TURNS, CERTIFICATE, CHECK_ORDERS, PART, PAGE, OUTCOMES, SCHEDULES, MOST, DEPTH };

static const struct option long_options[] = {{"engine", required_argument, NULL, ENGINE}, {"engines", no_argument, NULL, ENGINES},
                                             {"frames", required_argument, NULL, FRAMES}, {"lines", no_argument, NULL, LINES},
                                             {"trace", required_argument, NULL, TRACE},   {"script", required_argument, NULL, SCRIPT},
                                             {"steps", required_argument, NULL, STEPS},   {"costs", no_argument, NULL, COSTS},
                                             {"verify", no_argument, NULL, VERIFY},       {"time", required_argument, NULL, TIME},
                                             {"calls", required_argument, NULL, CALLS},   {"memory", required_argument, NULL, MEMORY},
                                             {"turn", required_argument, NULL, TURN},     {"clock", required_argument, NULL, CLOCK},
                                             {"gdb", required_argument, NULL, GDB},
                                             {"orders", no_argument, NULL, ORDERS},       {"schedule", required_argument, NULL, SCHEDULE},
                                             {"never", required_argument, NULL, NEVER},   {"always", required_argument, NULL, ALWAYS},
                                             {"from-line", required_argument, NULL, FROM_LINE},
                                             {"switch-at-memory", no_argument, NULL, SWITCH_AT_MEMORY},
                                             {"all-turns", no_argument, NULL, ALL_TURNS}, {"page", required_argument, NULL, PAGE},
                                             {"outcomes", no_argument, NULL, OUTCOMES},   {"schedules", required_argument, NULL, SCHEDULES},
                                             {"certificate", required_argument, NULL, CERTIFICATE},
                                             {"check-orders", required_argument, NULL, CHECK_ORDERS}, {"part", required_argument, NULL, PART},
                                             {"most", required_argument, NULL, MOST},     {"depth", required_argument, NULL, DEPTH},
                                             {"help", no_argument, NULL, HELP},           {"version", no_argument, NULL, VERSION},
                                             {NULL, 0, NULL, 0}};

#define MAX_LIMIT 1000000000u
#define MAX_TURN 1000u
#define MAX_PORT 65535u

static uint32_t read_number(const char *option, const char *text, uint32_t most) {
    char *end;
    unsigned long number;
    errno = 0;
    number = strtoul(text, &end, 10);
    if (text[0] < '0' || text[0] > '9' || *end != 0 || errno != 0 || number == 0 || number > most)
        fail(STATUS_INPUT, "%s: %s is not in 1..=%u", option, text, most);
    return (uint32_t)number;
}

static _Noreturn void print_and_end(const char *text) {
    fputs(text, stdout);
    check_output();
    exit(STATUS_ENDED);
}

static void read_orders_option(struct orders_options *orders, int option) {
    switch (option) {
    case ORDERS: orders->is_on = 1; break;
    case SCHEDULE: orders->schedule = optarg; break;
    case NEVER: orders_add_rule(orders, 0, optarg); break;
    case ALWAYS: orders_add_rule(orders, 1, optarg); break;
    case FROM_LINE: orders->from_line = optarg; break;
    case SWITCH_AT_MEMORY: orders->switches_at_memory = 1; break;
    case ALL_TURNS: orders->takes_all_turns = 1; break;
    case CERTIFICATE: orders->certificate = optarg; break;
    case CHECK_ORDERS: orders->check = optarg; orders->hides_schedules = 1; break;
    case PART: orders_set_part(orders, optarg); break;
    case PAGE: orders_add_page(orders, read_number("--page", optarg, L4_SPACE_PAGES - 1)); break;
    case OUTCOMES: orders->hides_schedules = 1; break;
    case SCHEDULES: orders->folder = optarg; break;
    case MOST: orders->most_states = read_number("--most", optarg, MAX_LIMIT); break;
    case DEPTH: orders->most_depth = read_number("--depth", optarg, MAX_LIMIT); break;
    default: fputs(usage, stderr); exit(STATUS_INPUT);
    }
}

static void read_option(struct options *options, int option) {
    switch (option) {
    case ENGINE: options->engine = optarg; break;
    case ENGINES: probe_engines(); check_output(); exit(STATUS_ENDED);
    case FRAMES: options->frames = read_number("--frames", optarg, L4_MAX_FRAMES); break;
    case LINES: options->prints_lines = 1; break;
    case TRACE: trace_add(options->bed, read_number("--trace", optarg, 262143)); break;
    case SCRIPT: options->script = optarg; break;
    case STEPS: options->steps = optarg; break;
    case COSTS: options->prints_costs = 1; break;
    case VERIFY: options->verifies = 1; break;
    case TIME: options->limits.seconds = read_number("--time", optarg, MAX_LIMIT); break;
    case CALLS: options->limits.calls = read_number("--calls", optarg, MAX_LIMIT); break;
    case MEMORY: options->limits.memory = read_number("--memory", optarg, MAX_LIMIT); break;
    case TURN: options->turn = read_number("--turn", optarg, MAX_TURN); break;
    case GDB: options->gdb_port = read_number("--gdb", optarg, MAX_PORT); break;
    case CLOCK: options->clock = optarg; break;
    case HELP: print_and_end(usage);
    case VERSION: print_and_end("l4_bed " BED_VERSION "\n");
    default: read_orders_option(&options->orders, option);
    }
}

/* A search has no one run that these options could print. */
static void check_orders(const struct options *options) {
    const struct orders_options *orders = &options->orders;
    if (orders->is_on + (orders->schedule != NULL) + (orders->check != NULL) > 1)
        fail(STATUS_INPUT, "--orders, --schedule and --check-orders cannot be used together");
    if (orders_are_asked(orders) && options->gdb_port != 0)
        fail(STATUS_INPUT, "--gdb cannot be used with --orders, --schedule or --check-orders");
    if (orders->certificate != NULL && !orders->takes_all_turns)
        fail(STATUS_INPUT, "--certificate needs --all-turns");
    if ((orders->is_on || orders->check != NULL) && (options->prints_lines || options->script != NULL || options->steps != NULL || options->bed->traced_count > 0))
        fail(STATUS_INPUT, "--lines, --trace, --script and --steps cannot be used with --orders; use them with --schedule");
    if (!orders->is_on && orders->check == NULL && orders->rule_count > 0)
        fail(STATUS_INPUT, "--never and --always need --orders or --check-orders");
    if (!orders->is_on && (orders->from_line != NULL || orders->takes_all_turns || orders->folder != NULL))
        fail(STATUS_INPUT, "--from-line, --all-turns and --schedules need --orders");
}

/* Without the option, an engine with virtual time has the virtual clock. */
static int is_virtual(const struct engine_kind *kind, const char *clock) {
    if (clock == NULL)
        return kind->has_virtual_time;
    if (strcmp(clock, "host") != 0 && strcmp(clock, "virtual") != 0)
        fail(STATUS_INPUT, "--clock: %s is not host or virtual", clock);
    if (strcmp(clock, "virtual") == 0 && !kind->has_virtual_time)
        fail(STATUS_INPUT, "--clock: the engine %s has no virtual time; use host, or the engine unicorn", kind->name);
    return strcmp(clock, "virtual") == 0;
}

static uint32_t begin(struct bed *bed, const struct options *options, int count, char **programs) {
    uint32_t entry;
    bed->kind = engine_named(options->engine);
    bed->prints_lines = options->prints_lines;
    bed->verifies = options->verifies;
    bed->limits = options->limits;
    bed->has_virtual_clock = is_virtual(bed->kind, options->clock);
    make_kernel(bed, options->frames);
    entry = elf_load_root(bed, programs[0]);
    elf_load_others(bed, programs + 1, count - 1);
    output_begin();
    output_open(OUTPUT_SCRIPT, "--script", options->script);
    output_open(OUTPUT_STEPS, "--steps", options->steps);
    record_begin(bed);
    bed->turn = options->turn == 0 ? bed->kind->turn : options->turn;
    bed->engine = bed->kind->open(&bed->memory, bed->turn);
    if (orders_are_asked(&options->orders))
        orders_open(bed, &options->orders);
    kernel_begin_sigma0(bed);
    bed->has_gdb = options->gdb_port != 0;
    if (bed->has_gdb)
        gdb_open(bed, options->gdb_port);
    return entry;
}

/* Runs the programs in one order or in all. Returns the exit status, or STATUS_OF_END. */
static int run_programs(struct bed *bed, uint32_t entry) {
    end_begin(bed);
    begin_root(bed, entry);
    if (bed->orders != NULL)
        return orders_run(bed);
    turns_run(bed);
    end_report(bed);
    return STATUS_OF_END;
}

static int run(int count, char **words) {
    static struct bed bed;
    static struct options options;
    int option, status;
    uint32_t entry;
    double start;
    options.bed = &bed;
    options.frames = DEFAULT_FRAMES;
    options.orders.most_states = DEFAULT_STATES;
    options.orders.most_depth = UINT64_MAX;
    options.orders.part = options.orders.part_count = 1;
    signals_begin(output_write);
    check_before_message(output_write);
    while ((option = getopt_long(count, words, "+", long_options, NULL)) != -1)
        read_option(&options, option);
    if (optind == count)
        fail(STATUS_INPUT, "no program is named (l4_bed --help explains the command line)");
    check_orders(&options);
    entry = begin(&bed, &options, count - optind, words + optind);
    start = now();
    status = run_programs(&bed, entry);
    record_end(&bed);
    output_end();
    trace_check(&bed);
    if (options.prints_costs)
        print_costs(&bed, now() - start);
    orders_close(&bed);
    free_bed(&bed);
    if (status == STATUS_OF_END)
        status = end_status(&bed);
    gdb_report_end(status);
    return status;
}

int main(int count, char **words) {
    if (count > 1 && strcmp(words[1], "test") == 0)
        return test_files(count - 2, words + 2, run);
    return run(count, words);
}
