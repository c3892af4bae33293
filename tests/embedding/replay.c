/* Executes a step list over l4.h, and prints its answers as l4_steps does. l4_steps(1) describes the lines. */
#include <l4.h>
#include <stdio.h>
#include <stdlib.h>
#include <string.h>

#define FRAMES 256
#define LONGEST_LINE 4096
#define MOST_TOKENS 80
#define MOST_NUMBERS (4 + L4_MAX_WORDS)

/* The tokens of a line, and those after its first words as numbers. */
typedef struct request {
    char *tokens[MOST_TOKENS];
    size_t token_count;
    uint32_t numbers[MOST_NUMBERS];
    size_t number_count;
} request;

/* Reads a number: one to ten decimal digits, or 0x and one to eight hexadecimal ones, below 2^32. */
static int read_number(const char *text, uint32_t *number) {
    int is_hexadecimal = strncmp(text, "0x", 2) == 0;
    const char *digits = is_hexadecimal ? text + 2 : text;
    size_t length = strlen(digits);
    unsigned long long value;
    if (length == 0 || length > (is_hexadecimal ? 8 : 10) || strspn(digits, is_hexadecimal ? "0123456789abcdefABCDEF" : "0123456789") != length) {
        return 0;
    }
    value = strtoull(digits, NULL, is_hexadecimal ? 16 : 10);
    *number = (uint32_t)value;
    return value <= 0xFFFFFFFF;
}

/* Reads the tokens from `first` on as numbers. */
static int read_numbers(request *asked, size_t first) {
    size_t i;
    asked->number_count = 0;
    for (i = first; i < asked->token_count; i++) {
        if (asked->number_count == MOST_NUMBERS || !read_number(asked->tokens[i], &asked->numbers[asked->number_count])) {
            return 0;
        }
        asked->number_count++;
    }
    return 1;
}

/* Takes a line apart at its spaces. */
static int read_tokens(char *line, request *asked) {
    char *at;
    asked->token_count = 0;
    for (at = strtok(line, " "); at != NULL; at = strtok(NULL, " ")) {
        if (asked->token_count == MOST_TOKENS) {
            return 0;
        }
        asked->tokens[asked->token_count++] = at;
    }
    return 1;
}

static int is(const char *text, const char *name) {
    return strcmp(text, name) == 0;
}

static const char *rights_text(uint32_t rights) {
    static const char *const texts[8] = {"---", "--x", "-w-", "-wx", "r--", "r-x", "rw-", "rwx"};
    return texts[rights & 7];
}

static void print_reply(const l4_reply *reply, const char *none) {
    uint32_t i;
    switch (reply->kind) {
    case L4_REPLY_IPC:
        printf("ipc %08x %u %08x", (unsigned)reply->tag, (unsigned)reply->error, (unsigned)reply->from);
        for (i = 0; i < reply->word_count; i++) {
            printf(" %08x", (unsigned)reply->words[i]);
        }
        putchar('\n');
        break;
    case L4_REPLY_HIT: puts("hit"); break;
    case L4_REPLY_ANSWERED: puts("answered"); break;
    case L4_REPLY_FAILED: printf("failed %u\n", (unsigned)reply->error); break;
    case L4_REPLY_UNMAPPED: puts("unmapped"); break;
    case L4_REPLY_CONTROLLED: puts("controlled"); break;
    case L4_REPLY_GONE: puts("gone"); break;
    default: puts(none);
    }
}

/* Prints a refusal, with its number if its code has one. */
static void print_refusal(uint32_t refusal, uint32_t detail) {
    char code[16];
    l4_refusal_code(refusal, code, sizeof code);
    if (refusal == L4_M3 || refusal == L4_M4 || refusal == L4_U1) {
        printf("refused %s %u\n", code, (unsigned)detail);
    } else {
        printf("refused %s\n", code);
    }
}

static void print_answer(l4_kernel *kernel, l4_answer answer) {
    static const char *const outcomes[8] = {"", "started", "done", "no-window", "entangled", "no-memory", "expired", "canceled"};
    uint32_t i;
    if (answer.refusal != L4_OK) {
        print_refusal(answer.refusal, answer.detail);
        return;
    }
    puts(outcomes[answer.outcome]);
    for (i = 0; i < answer.ended_count; i++) {
        l4_reply reply = l4_reply_of(kernel, answer.ended[i]);
        printf("%u ", (unsigned)answer.ended[i]);
        print_reply(&reply, "gone");
    }
}

static void print_pages(l4_kernel *kernel, uint64_t space) {
    uint32_t shown = 0;
    l4_page page = l4_next_page(kernel, space, 0);
    while (page.there) {
        l4_mapping mapping = l4_mapping_of(kernel, space, page.page);
        printf("page %u frame %u %s ", (unsigned)page.page, (unsigned)mapping.frame, rights_text(mapping.rights));
        if (mapping.has_parent) {
            printf("%llu %u\n", (unsigned long long)mapping.parent_space, (unsigned)mapping.parent_page);
        } else {
            puts("none");
        }
        shown++;
        page = l4_next_page(kernel, space, page.page + 1);
    }
    printf("shown %u\n", (unsigned)shown);
}

static void print_enabled(l4_step step) {
    if (step.kind == L4_TRANSFER) {
        printf("enabled transfer %u %u\n", (unsigned)step.thread, (unsigned)step.receiver);
    } else if (step.kind == L4_EXPIRE) {
        printf("enabled expire %u\n", (unsigned)step.thread);
    } else {
        puts("enabled none");
    }
}

/* The members of an Ipc, and then its words. */
static int read_ipc(l4_call *call, const request *asked) {
    if (asked->number_count < 4) {
        return 0;
    }
    call->kind = L4_IPC;
    call->to = asked->numbers[0];
    call->from = asked->numbers[1];
    call->timeouts = asked->numbers[2];
    call->acceptor = asked->numbers[3];
    return 1;
}

static int read_fault(l4_call *call, const request *asked) {
    if (asked->number_count != 3 || asked->numbers[2] > 7) {
        return 0;
    }
    call->kind = L4_FAULT;
    call->address = asked->numbers[0];
    call->ip = asked->numbers[1];
    call->access = asked->numbers[2];
    return 1;
}

static int read_control(l4_call *call, const request *asked, const char *kind) {
    size_t wanted = is(kind, "create") ? 3 : is(kind, "setpager") ? 2 : 1;
    if (asked->number_count != wanted) {
        return 0;
    }
    call->kind = wanted == 3 ? L4_CREATE : wanted == 2 ? L4_SET_PAGER : L4_DELETE;
    call->id = asked->numbers[0];
    if (wanted == 3) {
        call->space = asked->numbers[1];
    }
    if (wanted > 1) {
        call->pager = asked->numbers[wanted - 1];
    }
    return 1;
}

/* Reads a call, and before how many of the numbers its words begin. */
static int read_call(l4_call *call, const request *asked, const char *kind, size_t *words) {
    memset(call, 0, sizeof *call);
    *words = asked->number_count;
    if (is(kind, "ipc")) {
        *words = 4;
        return read_ipc(call, asked);
    }
    if (is(kind, "fault")) {
        return read_fault(call, asked);
    }
    if (is(kind, "unmap")) {
        call->kind = L4_UNMAP;
        call->control = asked->numbers[0];
        *words = 1;
        return asked->number_count >= 1 && asked->number_count <= 1 + L4_MAX_WORDS;
    }
    return (is(kind, "create") || is(kind, "setpager") || is(kind, "delete")) && read_control(call, asked, kind);
}

static int start(l4_kernel *kernel, request *asked) {
    l4_call call;
    uint32_t thread;
    size_t words;
    if (asked->token_count < 3 || !read_number(asked->tokens[1], &thread) || !read_numbers(asked, 3) || !read_call(&call, asked, asked->tokens[2], &words)) {
        return 0;
    }
    print_answer(kernel, l4_start(kernel, thread, &call, asked->numbers + words, asked->number_count - words));
    return 1;
}

/* Executes a step, or answers a query, with this many numbers. */
static int answer_named(l4_kernel *kernel, const char *name, const uint32_t *numbers, size_t count) {
    if (is(name, "transfer") && count == 2) {
        print_answer(kernel, l4_transfer(kernel, numbers[0], numbers[1]));
    } else if (is(name, "expire") && count == 1) {
        print_answer(kernel, l4_expire(kernel, numbers[0]));
    } else if (is(name, "timeout") && count == 1) {
        print_answer(kernel, l4_timeout(kernel, numbers[0]));
    } else if (is(name, "cancel") && count == 1) {
        print_answer(kernel, l4_cancel(kernel, numbers[0]));
    } else if (is(name, "enabled") && count == 0) {
        print_enabled(l4_enabled(kernel));
    } else if (is(name, "reply") && count == 1) {
        l4_reply reply = l4_reply_of(kernel, numbers[0]);
        print_reply(&reply, "none");
    } else if (is(name, "space") && count == 1) {
        l4_space space = l4_space_of(kernel, numbers[0]);
        if (space.there) {
            printf("space %llu\n", (unsigned long long)space.space);
        } else {
            puts("none");
        }
    } else if (is(name, "pages") && count == 1) {
        print_pages(kernel, numbers[0]);
    } else {
        return 0;
    }
    return 1;
}

/* Answers a line; 0 if it cannot be read. */
static int answer(l4_kernel *kernel, char *line) {
    static request asked;
    if (line[0] == '#') {
        return 1;
    }
    if (!read_tokens(line, &asked)) {
        return 0;
    }
    if (asked.token_count == 0) {
        return 1;
    }
    if (is(asked.tokens[0], "start")) {
        return start(kernel, &asked);
    }
    return read_numbers(&asked, 1) && answer_named(kernel, asked.tokens[0], asked.numbers, asked.number_count);
}

/* Answers the list, up to its end or to a line that stops it. */
static const char *run(l4_kernel *kernel, unsigned long *number) {
    static char line[LONGEST_LINE + 2];
    for (*number = 1; fgets(line, sizeof line, stdin) != NULL; ++*number) {
        size_t length = strlen(line);
        if (length == 0 || line[length - 1] != '\n') {
            return length > LONGEST_LINE ? "is longer than 4096 bytes" : "does not end with a newline";
        }
        line[length - 1] = 0;
        if (!answer(kernel, line)) {
            return "is not a valid step or query";
        }
    }
    return NULL;
}

int main(void) {
    l4_kernel kernel = L4_EMPTY;
    unsigned long number;
    const char *fault;
    if (l4_boot(&kernel, FRAMES) != L4_OK) {
        return 3;
    }
    fault = run(&kernel, &number);
    l4_free(&kernel);
    if (fault != NULL) {
        fprintf(stderr, "error: line %lu %s\n", number, fault);
        return 2;
    }
    return 0;
}
