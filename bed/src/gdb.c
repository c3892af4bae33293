/* The remote serial protocol of gdb ("Remote Protocol" in its manual): packets `$data#checksum`, each acknowledged by `+`. A thread's number is
 * its number for gdb too. */
#define _GNU_SOURCE
#include "gdb.h"
#include "check.h"
#include <arpa/inet.h>
#include <errno.h>
#include <netinet/in.h>
#include <poll.h>
#include <stdio.h>
#include <stdlib.h>
#include <string.h>
#include <sys/socket.h>
#include <unistd.h>

#define ROOM 4096
#define MAX_BREAKS 64
#define TRAP_FLAG UINT32_C(0x100)
#define DEBUG 1u
#define INTERRUPT 3
#define TRAP_SIGNAL 5u
#define ABORT_SIGNAL 6u

static struct {
    int connection;    /* -1: there is no gdb */
    uint32_t current;  /* the thread whose registers and memory gdb reads */
    uint32_t stepping; /* the thread that executes one instruction, or 0 */
    uint32_t pending;  /* the thread that stops before it runs again, or 0 */
    int stops_next;    /* the next thread that runs stops */
    int has_ended;     /* gdb has ended the run */
    uint32_t breaks[MAX_BREAKS], break_count;
} gdb = {-1, 0, 0, 0, 0, 0, {0}, 0};

/* PACKETS */

static void leave(void) {
    close(gdb.connection);
    gdb.connection = -1;
}

static int next_byte(void) {
    unsigned char byte;
    ssize_t got;
    do {
        got = gdb.connection < 0 ? 0 : read(gdb.connection, &byte, 1);
    } while (got < 0 && errno == EINTR);
    if (got == 1)
        return byte;
    if (gdb.connection >= 0)
        leave();
    return -1;
}

static void send_bytes(const char *bytes, size_t count) {
    while (gdb.connection >= 0 && count > 0) {
        ssize_t sent = write(gdb.connection, bytes, count);
        if (sent < 0 && errno != EINTR)
            leave();
        if (sent > 0) {
            bytes += sent;
            count -= (size_t)sent;
        }
    }
}

static void send_packet(const char *data) {
    static char packet[2 * ROOM];
    unsigned char sum = 0;
    size_t k;
    int length;
    for (k = 0; data[k] != 0; k++)
        sum = (unsigned char)(sum + (unsigned char)data[k]);
    length = snprintf(packet, sizeof packet, "$%s#%02x", data, sum);
    send_bytes(packet, (size_t)length);
}

/* Reads the next packet. Returns 0 if gdb has gone. */
static int read_packet(char *data) {
    size_t length = 0;
    int byte;
    do {
        byte = next_byte();
    } while (byte >= 0 && byte != '$');
    for (byte = next_byte(); byte >= 0 && byte != '#'; byte = next_byte()) {
        if (length < ROOM - 1)
            data[length++] = (char)byte;
    }
    next_byte();
    next_byte();
    data[length] = 0;
    send_bytes("+", 1);
    return gdb.connection >= 0;
}

static char *put_hex(char *to, const void *bytes, size_t count) {
    size_t k;
    for (k = 0; k < count; k++)
        to += sprintf(to, "%02x", ((const unsigned char *)bytes)[k]);
    return to;
}

/* Reads two digits for each byte. Returns 0 if the text is too short, or has another character. */
static int take_hex(const char *from, unsigned char *bytes, size_t count) {
    size_t k;
    for (k = 0; k < count; k++) {
        unsigned int byte;
        if (from[2 * k] == 0 || sscanf(from + 2 * k, "%2x", &byte) != 1)
            return 0;
        bytes[k] = (unsigned char)byte;
    }
    return 1;
}

/* REGISTERS AND MEMORY */

#define REGISTERS 16
#define CHANGED_REGISTERS 10

/* The order of gdb. The segment registers are those of no program: they are 0. */
static void point_to_registers(struct registers *registers, uint32_t **places) {
    static uint32_t segment;
    uint32_t *const words[REGISTERS] = {&registers->eax, &registers->ecx, &registers->edx, &registers->ebx, &registers->esp, &registers->ebp,
                                        &registers->esi, &registers->edi, &registers->eip, &registers->eflags, &segment, &segment, &segment,
                                        &segment, &segment, &segment};
    segment = 0;
    memcpy(places, words, sizeof words);
}

static void send_registers(struct thread *thread) {
    uint32_t *places[REGISTERS];
    char text[8 * REGISTERS + 1], *end = text;
    size_t k;
    point_to_registers(&thread->registers, places);
    for (k = 0; k < REGISTERS; k++)
        end = put_hex(end, places[k], sizeof **places);
    send_packet(text);
}

static void set_registers(struct thread *thread, const char *text) {
    uint32_t *places[REGISTERS], words[CHANGED_REGISTERS];
    size_t k;
    if (!take_hex(text, (unsigned char *)words, sizeof words)) {
        send_packet("E01");
        return;
    }
    point_to_registers(&thread->registers, places);
    for (k = 0; k < CHANGED_REGISTERS; k++)
        *places[k] = words[k];
    thread->registers.eflags = (thread->registers.eflags & USER_FLAGS) | FIXED_FLAGS;
    send_packet("OK");
}

static void send_memory(struct bed *bed, struct thread *thread, uint32_t address, uint32_t count) {
    static char text[ROOM + 1];
    char *end = text;
    uint32_t k;
    text[0] = 0;
    for (k = 0; k < count && k < ROOM / 2; k++) {
        const unsigned char *byte = space_byte(bed, thread->space, address + k);
        if (byte == NULL)
            break;
        end = put_hex(end, byte, 1);
    }
    send_packet(k == 0 && count > 0 ? "E14" : text);
}

static void set_memory(struct bed *bed, struct thread *thread, uint32_t address, uint32_t count, const char *text) {
    static unsigned char bytes[ROOM / 2];
    uint32_t k;
    if (text == NULL || count > sizeof bytes || !take_hex(text + 1, bytes, count)) {
        send_packet("E01");
        return;
    }
    for (k = 0; k < count; k++) {
        unsigned char *place = (unsigned char *)(uintptr_t)space_byte(bed, thread->space, address + k);
        if (place == NULL) {
            send_packet("E14");
            return;
        }
        *place = bytes[k];
    }
    send_packet("OK");
}

/* BREAKPOINTS */

static void set_everywhere(struct bed *bed, uint32_t address, int is_set) {
    size_t k;
    for (k = 0; k < L4_MAX_THREADS; k++) {
        if (bed->spaces[k].exists && bed->spaces[k].engine_space != NULL)
            bed->kind->set_break(bed->engine, bed->spaces[k].engine_space, address, is_set);
    }
}

void gdb_add_space(struct bed *bed, struct space *space) {
    uint32_t k;
    for (k = 0; k < gdb.break_count; k++)
        bed->kind->set_break(bed->engine, space->engine_space, gdb.breaks[k], 1);
}

static uint32_t break_at(uint32_t address) {
    uint32_t k = 0;
    while (k < gdb.break_count && gdb.breaks[k] != address)
        k++;
    return k;
}

static void change_break(struct bed *bed, uint32_t address, int is_set) {
    uint32_t place = break_at(address);
    if (is_set && place == gdb.break_count && place < MAX_BREAKS) {
        gdb.breaks[gdb.break_count++] = address;
        set_everywhere(bed, address, 1);
    } else if (!is_set && place < gdb.break_count) {
        gdb.breaks[place] = gdb.breaks[--gdb.break_count];
        set_everywhere(bed, address, 0);
    }
    send_packet(is_set && break_at(address) == gdb.break_count ? "E01" : "OK");
}

static void remove_breaks(struct bed *bed) {
    while (gdb.break_count > 0)
        set_everywhere(bed, gdb.breaks[--gdb.break_count], 0);
}

/* REQUESTS */

static void send_threads(const struct bed *bed) {
    char text[L4_MAX_THREADS * 8 + 2] = "m", *end = text + 1;
    size_t k;
    for (k = 0; k < L4_MAX_THREADS; k++) {
        if (bed->threads[k].state != ABSENT)
            end += sprintf(end, "%s%x", end == text + 1 ? "" : ",", bed->threads[k].number);
    }
    send_packet(text);
}

static void take_query(const struct bed *bed, const char *query) {
    char text[40];
    if (strncmp(query, "qSupported", 10) == 0) {
        send_packet("PacketSize=1000;vContSupported+");
    } else if (strcmp(query, "qfThreadInfo") == 0) {
        send_threads(bed);
    } else if (strcmp(query, "qsThreadInfo") == 0) {
        send_packet("l");
    } else if (strcmp(query, "qC") == 0) {
        snprintf(text, sizeof text, "QC%x", gdb.current);
        send_packet(text);
    } else {
        send_packet(strcmp(query, "qAttached") == 0 ? "1" : "");
    }
}

static void send_stop(uint32_t signal) {
    char text[40];
    snprintf(text, sizeof text, "T%02xthread:%x;", signal, gdb.current);
    send_packet(text);
}

/* `vCont;s:3;c`: thread 3 executes one instruction, and the others continue. */
static void take_actions(const char *actions) {
    const char *step = strstr(actions, ";s");
    if (step == NULL)
        step = strstr(actions, ";S");
    gdb.stepping = 0;
    if (step != NULL) {
        const char *thread = strchr(step, ':'), *next = strchr(step + 1, ';');
        gdb.stepping = thread != NULL && (next == NULL || thread < next) ? (uint32_t)strtoul(thread + 1, NULL, 16) : gdb.current;
    }
}

/* Selects the thread of `Hg3`. `Hg0` and `Hg-1` mean any. */
static void select_thread(struct bed *bed, const char *text) {
    uint32_t number = (uint32_t)strtoul(text, NULL, 16);
    if (text[0] != '-' && number != 0 && thread_numbered(bed, number) != NULL)
        gdb.current = number;
    send_packet("OK");
}

/* Requests whose data begin with an address and a length. */
static void take_addressed(struct bed *bed, struct thread *thread, const char *packet) {
    const char *numbers = packet[0] == 'm' || packet[0] == 'M' ? packet + 1 : packet + 3;
    char *end;
    uint32_t address = (uint32_t)strtoul(numbers, &end, 16), count = *end == ',' ? (uint32_t)strtoul(end + 1, NULL, 16) : 0;
    if (packet[0] == 'm')
        send_memory(bed, thread, address, count);
    else if (packet[0] == 'M')
        set_memory(bed, thread, address, count, strchr(packet, ':'));
    else if (packet[1] == '0' || packet[1] == '1')
        change_break(bed, address, packet[0] == 'Z');
    else
        send_packet("");
}

static void detach(struct bed *bed) {
    remove_breaks(bed);
    send_packet("OK");
    leave();
}

/* Answers one request. Returns 1 if the threads are to run again. */
static int take_request(struct bed *bed, char *packet, uint32_t signal) {
    struct thread *thread = thread_numbered(bed, gdb.current);
    switch (packet[0]) {
    case '?': send_stop(signal); return 0;
    case 'g': send_registers(thread); return 0;
    case 'G': set_registers(thread, packet + 1); return 0;
    case 'm': case 'M': case 'Z': case 'z': take_addressed(bed, thread, packet); return 0;
    case 'H': select_thread(bed, packet + 2); return 0;
    case 'T': send_packet(thread_numbered(bed, (uint32_t)strtoul(packet + 1, NULL, 16)) != NULL ? "OK" : "E01"); return 0;
    case 'q': take_query(bed, packet); return 0;
    case 'c': gdb.stepping = 0; return 1;
    case 's': gdb.stepping = gdb.current; return 1;
    case 'D': detach(bed); return 1;
    case 'k': gdb.has_ended = 1; leave(); return 1;
    case 'v': break;
    default: send_packet(""); return 0;
    }
    if (strncmp(packet, "vCont;", 6) == 0) {
        take_actions(packet + 5);
        return 1;
    }
    send_packet(strcmp(packet, "vCont?") == 0 ? "vCont;c;C;s;S" : "");
    return 0;
}

/* Reports a stop of the thread, unless gdb has just connected and asks by itself; and answers requests until the threads run again. */
static void serve(struct bed *bed, struct thread *thread, uint32_t signal, int is_first) {
    static char packet[ROOM];
    output_write();
    gdb.current = thread->number;
    gdb.stepping = gdb.pending = 0;
    gdb.stops_next = 0;
    if (!is_first)
        send_stop(signal);
    while (gdb.connection >= 0 && read_packet(packet) && !take_request(bed, packet, signal)) {
    }
    if (gdb.connection < 0)
        remove_breaks(bed);
    if (gdb.has_ended)
        end_by_gdb(bed);
}

/* STOPS */

/* gdb sends a single byte to stop the threads. */
static int is_interrupted(void) {
    struct pollfd wait = {gdb.connection, POLLIN, 0};
    return gdb.connection >= 0 && poll(&wait, 1, 0) > 0 && next_byte() == INTERRUPT;
}

void gdb_open(struct bed *bed, uint32_t port) {
    struct sockaddr_in place;
    int one = 1, listener = socket(AF_INET, SOCK_STREAM | SOCK_CLOEXEC, 0);
    if (bed->kind->set_break == NULL)
        fail(STATUS_INPUT, "--gdb: the engine %s has no breakpoints; use unicorn", bed->kind->name);
    memset(&place, 0, sizeof place);
    place.sin_family = AF_INET;
    place.sin_port = htons((uint16_t)port);
    place.sin_addr.s_addr = htonl(INADDR_LOOPBACK);
    check_system(listener, "--gdb: socket");
    check_system(setsockopt(listener, SOL_SOCKET, SO_REUSEADDR, &one, sizeof one), "--gdb: setsockopt");
    check_system(bind(listener, (struct sockaddr *)&place, sizeof place), "--gdb: the port cannot be used");
    check_system(listen(listener, 1), "--gdb: listen");
    note("waiting for gdb: target remote localhost:%u", port);
    gdb.connection = accept4(listener, NULL, NULL, SOCK_CLOEXEC);
    check_system(gdb.connection, "--gdb: accept");
    close(listener);
    gdb.stops_next = 1;
}

void gdb_before(struct bed *bed, struct thread *thread) {
    static int is_connected;
    if (gdb.connection < 0)
        return;
    if (gdb.stops_next || gdb.pending == thread->number || is_interrupted()) {
        serve(bed, thread, TRAP_SIGNAL, !is_connected);
        is_connected = 1;
    }
    if (gdb.stepping == thread->number)
        thread->registers.eflags |= TRAP_FLAG;
}

int gdb_after(struct bed *bed, struct thread *thread, const struct stop *stopped) {
    int is_step = gdb.stepping == thread->number;
    if (gdb.connection < 0)
        return 0;
    thread->registers.eflags &= ~TRAP_FLAG;
    if (stopped->kind == STOP_BY_BREAK || (is_step && stopped->kind == STOP_BY_EXCEPTION && stopped->number == DEBUG)) {
        serve(bed, thread, TRAP_SIGNAL, 0);
        return 1;
    }
    if (is_step && stopped->kind != STOP_BY_BUDGET) { /* a system call or a fault: the thread stops behind it */
        gdb.pending = thread->number;
        gdb.stepping = 0;
    }
    return 0;
}

void gdb_report_stop(struct bed *bed, struct thread *thread) {
    if (gdb.connection >= 0)
        serve(bed, thread, ABORT_SIGNAL, 0);
}

void gdb_report_end(int status) {
    char text[10];
    if (gdb.connection < 0)
        return;
    snprintf(text, sizeof text, "W%02x", (unsigned)status & 0xff);
    send_packet(text);
    leave();
}
