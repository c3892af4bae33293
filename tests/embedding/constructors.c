/* Compares the inline constructors and readers of l4.h with what the functions of the library write and read. */
#include <l4.h>
#include <stdio.h>
#include <string.h>

static unsigned long failures = 0;

static void expect(int holds, const char *what, uint32_t word, int line) {
    if (!holds) {
        printf("line %d: %s: 0x%08x\n", line, what, (unsigned)word);
        failures++;
    }
}

#define EXPECT(claim, word) expect((claim) ? 1 : 0, #claim, word, __LINE__)

static l4_call kind(uint32_t which) {
    l4_call call;
    memset(&call, 0, sizeof call);
    call.kind = which;
    return call;
}

/* Words that have each size field, each low bit and many bases. */
static uint32_t word_of(uint32_t number) {
    static const uint32_t bases[8] = {0, 1, 3, 0x155555, 0x2AAAAA, 0x200000, 0x3FFFFF, 0x123456};
    return bases[number >> 10 & 7] << 10 | (number & 0x3FF);
}

#define WORDS (8 << 10)

/* sigma0 reads an fpage from a request, and the library writes it without rights. */
static void fpages(void) {
    uint32_t words[3] = {0xffa00002, 0, 0}, i;
    for (i = 0; i < WORDS; i++) {
        uint32_t word = words[1] = word_of(i);
        l4_request request = l4_read_request(words, 3);
        EXPECT(request.refusal == L4_OK && (request.there == 1) == l4_fpage_is_valid(word), word);
        if (request.there) {
            EXPECT(l4_fpage(l4_fpage_base(word), l4_fpage_log(word), 0) == request.fpage, word);
            EXPECT(l4_fpage_rights(word) == (request.fpage == L4_NIL_FPAGE ? 0 : (word & 7)), word);
        }
    }
    EXPECT(l4_fpage(0, 9, 7) == L4_NIL_FPAGE && l4_fpage(0, 33, 7) == L4_NIL_FPAGE, 0);
    EXPECT(l4_fpage(0xffffffff, 32, L4_READ) == (L4_COMPLETE_FPAGE | L4_READ), 32);
    EXPECT(l4_fpage_of_page(16, 7) == 0x100c7 && l4_fpage_of_page(L4_SPACE_PAGES - 1, L4_WRITE) == 0xfffff0c2, 16);
}

/* The receive window of an acceptor is M6 exactly if it is no valid fpage. */
static void windows(l4_kernel *kernel) {
    static const uint32_t nothing[1] = {0};
    l4_call call = kind(L4_IPC), send = kind(L4_IPC);
    uint32_t i;
    call.from = L4_ROOT_ID;
    call.timeouts = l4_timeouts(0, L4_ZERO_TIMEOUT);
    for (i = 0; i < WORDS; i++) {
        uint32_t refusal;
        call.acceptor = word_of(i);
        refusal = l4_start(kernel, 1, &call, NULL, 0).refusal;
        EXPECT(refusal == (l4_fpage_is_valid(l4_acceptor(call.acceptor)) ? L4_OK : L4_M6), call.acceptor);
        if (refusal == L4_OK)
            l4_expire(kernel, 1);
    }
    send.to = L4_SIGMA0_ID;
    send.timeouts = l4_timeouts(L4_ZERO_TIMEOUT, 0);
    EXPECT(l4_enter(kernel, 2, &send, nothing, 1, NULL, 0).step_count == 1 && l4_tag_is_error(l4_reply_of(kernel, 2).tag), 0);
    EXPECT(l4_reply_of(kernel, 2).error == 2, 0);
}

/* Root may create a thread exactly if its id is valid. */
static void ids(l4_kernel *kernel) {
    uint32_t i;
    for (i = 0; i < 3 * 64 + 4; i++) {
        static const uint32_t others[4] = {L4_ANYTHREAD, L4_NILTHREAD, 0xffffffc0, 0xc000};
        static const uint32_t numbers[3] = {0, 3, 0x3FFFF}, versions[3] = {0, 0x40, 0x3FC0};
        uint32_t id = i < 4 ? others[i] : l4_id(numbers[(i - 4) / 64], versions[(i - 4) / 64] | (i & 63)), refusal;
        l4_call create = kind(L4_CREATE), end = kind(L4_DELETE);
        create.id = create.space = id;
        refusal = l4_start(kernel, 2, &create, NULL, 0).refusal;
        EXPECT(refusal == (l4_id_is_valid(id) ? L4_OK : L4_H2), id);
        EXPECT(l4_id(l4_id_number(id), l4_id_version(id)) == id, id);
        if (refusal == L4_OK) {
            EXPECT(l4_space_of(kernel, l4_id_number(id)).there == 1, id);
            end.id = id;
            EXPECT(l4_start(kernel, 2, &end, NULL, 0).refusal == L4_OK, id);
        }
    }
    EXPECT(l4_id(1, 1) == L4_SIGMA0_ID && l4_id(2, 1) == L4_ROOT_ID, 1);
    /* the higher bits of a greater number are dropped */
    EXPECT(l4_id(UINT32_C(1) << 18 | 2, UINT32_C(1) << 14 | 1) == L4_ROOT_ID && l4_tag(0x12345, 64 | 1, 64 | 2) == 0x23450081, 2);
    EXPECT(l4_fpage_of_page(L4_SPACE_PAGES | 16, 8 | 7) == 0x100c7, 3);
}

/* The items and the tag of a plan's message. */
static void items(void) {
    uint32_t first, i;
    for (first = 0; first < 64; first++) {
        l4_region region = {0, 0, 41, 1};
        l4_part part;
        region.source = first;
        region.target = first * 7 % 64;
        region.rights = first % 7 + 1;
        part = l4_plan_message(&region, 0);
        EXPECT(part.refusal == L4_OK && part.words[0] == l4_tag(0, 0, part.word_count - 1), first);
        for (i = 1; i < part.word_count; i += 2) {
            uint32_t base = l4_item_base(part.words[i]), fpage = part.words[i + 1], words[2], more = i + 2 < part.word_count;
            l4_map_item(words, base, l4_fpage(l4_fpage_base(fpage), l4_fpage_log(fpage), region.rights));
            EXPECT((words[0] | more) == part.words[i] && words[1] == fpage && l4_item_is_map(words[0]) && !l4_item_is_grant(words[0]), words[0]);
        }
    }
}

/* The kernel reads tags, and map and grant items. */
static void messages(l4_kernel *kernel) {
    l4_call receive = kind(L4_IPC), send = kind(L4_IPC);
    uint32_t words[6], tag;
    receive.from = L4_SIGMA0_ID;
    receive.acceptor = l4_acceptor(L4_COMPLETE_FPAGE);
    send.to = L4_ROOT_ID;
    l4_start(kernel, 2, &receive, NULL, 0);
    words[0] = l4_tag(0x1234, 1, 4);
    words[1] = 99;
    l4_map_item(words + 2, 0x20000, l4_fpage_of_page(16, 7));
    l4_grant_item(words + 4, 0x30000, l4_fpage_of_page(17, L4_READ));
    EXPECT(l4_item_is_grant(words[4]) && !l4_item_is_map(words[4]), words[4]);
    EXPECT(l4_enter(kernel, 1, &send, words, 6, NULL, 0).step_count == 1, words[0]);
    tag = l4_reply_of(kernel, 2).tag;
    EXPECT(l4_tag_label(tag) == 0x1234 && l4_tag_untyped(tag) == 1 && l4_tag_typed(tag) == 4 && !l4_tag_is_error(tag), tag);
    EXPECT(l4_mapping_of(kernel, 1, 32).frame == 16 && l4_mapping_of(kernel, 0, 16).there == 1, 0);
    EXPECT(l4_mapping_of(kernel, 1, 48).frame == 17 && l4_mapping_of(kernel, 1, 48).rights == L4_READ && l4_mapping_of(kernel, 0, 17).there == 0, 0);
}

/* Two threads of one space, one of another, and none of a third. */
static void threads(l4_kernel *kernel) {
    l4_call create = kind(L4_CREATE);
    create.id = create.space = l4_id(5, 1);
    EXPECT(l4_start(kernel, 2, &create, NULL, 0).refusal == L4_OK, 5);
    create.id = l4_id(9, 1);
    EXPECT(l4_start(kernel, 2, &create, NULL, 0).refusal == L4_OK, 9);
    create.id = create.space = l4_id(7, 1);
    EXPECT(l4_start(kernel, 2, &create, NULL, 0).refusal == L4_OK, 7);
    {
        uint64_t space = l4_space_of(kernel, 5).space;
        EXPECT(l4_next_thread_in(kernel, space, 0).thread == 5 && l4_next_thread_in(kernel, space, 6).thread == 9, 5);
        EXPECT(l4_next_thread_in(kernel, space, 10).there == 0 && l4_next_thread_in(kernel, l4_space_of(kernel, 7).space, 0).thread == 7, 7);
        EXPECT(l4_next_thread_in(kernel, space + 9, 0).there == 0 && l4_next_thread_in(kernel, 0, 0).thread == 1, 0);
    }
}

/* A page that sigma0 maps, one whose rights it takes, and a copy from before. */
static void changes(void) {
    static const uint32_t words[3] = {0x80, 0x20008, 0x100c7}, taken = 0x110c2;
    l4_kernel kernel = L4_EMPTY, before = L4_EMPTY;
    l4_call receive = kind(L4_IPC), send = kind(L4_IPC), unmap = kind(L4_UNMAP);
    EXPECT(l4_next_change(&kernel, &before, 0, 0).refusal == L4_B1, 0);
    EXPECT(l4_boot(&kernel, 64) == L4_OK && l4_next_change(&kernel, &before, 0, 0).refusal == L4_B1, 0);
    EXPECT(l4_copy(&kernel, &before) == L4_OK && l4_next_change(&kernel, &before, 0, 0).there == 0, 0);
    receive.from = L4_ANYTHREAD;
    receive.acceptor = L4_COMPLETE_FPAGE;
    send.to = L4_ROOT_ID;
    unmap.control = 0x40;
    EXPECT(l4_enter(&kernel, 2, &receive, NULL, 0, NULL, 0).start.refusal == L4_OK && l4_enter(&kernel, 1, &send, words, 3, NULL, 0).step_count == 1, 16);
    EXPECT(l4_next_change(&kernel, &before, 1, 0).page == 32 && l4_next_change(&before, &kernel, 1, 32).page == 32, 32);
    EXPECT(l4_next_change(&kernel, &before, 1, 33).there == 0 && l4_next_change(&before, &kernel, 0, 0).there == 0, 33);
    EXPECT(l4_start(&kernel, 1, &unmap, &taken, 1).refusal == L4_OK, taken);
    EXPECT(l4_next_change(&kernel, &before, 0, 0).page == 17 && l4_next_change(&kernel, &before, 0, 18).there == 0, 17);
    l4_free(&kernel);
    EXPECT(l4_next_change(&before, &kernel, 0, 0).refusal == L4_B1, 0);
    l4_free(&before);
}

int main(void) {
    l4_kernel kernel = L4_EMPTY;
    EXPECT(l4_next_thread_in(&kernel, 0, 0).refusal == L4_B1, 0);
    if (l4_boot(&kernel, 64) != L4_OK)
        return 1;
    fpages();
    windows(&kernel);
    ids(&kernel);
    items();
    messages(&kernel);
    threads(&kernel);
    l4_free(&kernel);
    changes();
    return failures == 0 ? 0 : 1;
}
