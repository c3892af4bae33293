/* Makes every call of l4.h, and fails if a result differs from what the rules of the core require. */
#include <l4.h>
#include <stdio.h>
#include <string.h>

static int failures = 0;

static void expect(int holds, const char *what, int line) {
    if (!holds) {
        printf("line %d: %s\n", line, what);
        failures++;
    }
}

#define EXPECT(claim) expect((claim) ? 1 : 0, #claim, __LINE__)

/* The id of a thread of this number, version 1. */
static uint32_t id(uint32_t number) {
    return number << 14 | 1;
}

static const uint32_t no_words[1] = {0};

static l4_call kind(uint32_t which) {
    l4_call call;
    memset(&call, 0, sizeof call);
    call.kind = which;
    return call;
}

static l4_call create(uint32_t number, uint32_t pager) {
    l4_call call = kind(L4_CREATE);
    call.id = id(number);
    call.space = id(number);
    call.pager = id(pager);
    return call;
}

static l4_call receive(uint32_t window) {
    l4_call call = kind(L4_IPC);
    call.from = L4_ANYTHREAD;
    call.acceptor = window;
    return call;
}

static l4_call send(uint32_t number) {
    l4_call call = kind(L4_IPC);
    call.to = id(number);
    return call;
}

static l4_answer plainly(l4_kernel *kernel, uint32_t thread, l4_call call) {
    return l4_start(kernel, thread, &call, no_words, 0);
}

static void empty_handles(void) {
    l4_kernel kernel = L4_EMPTY;
    l4_step step;
    l4_free(&kernel);
    EXPECT(plainly(&kernel, 2, kind(L4_DELETE)).refusal == L4_B1);
    EXPECT(plainly(&kernel, 2, kind(7)).refusal == L4_B1);
    EXPECT(l4_transfer(&kernel, 1, 2).refusal == L4_B1);
    EXPECT(l4_expire(&kernel, 1).refusal == L4_B1);
    EXPECT(l4_enabled(&kernel).refusal == L4_B1);
    EXPECT(l4_next(&kernel).refusal == L4_B1);
    EXPECT(l4_reply_of(&kernel, 1).refusal == L4_B1);
    EXPECT(l4_space_of(&kernel, 1).refusal == L4_B1);
    EXPECT(l4_state_of(&kernel, 2).refusal == L4_B1 && l4_state_of(&kernel, 2).id == 0);
    EXPECT(l4_page_size_of(&kernel).refusal == L4_B1 && l4_page_size_of(&kernel).page_bytes == 0);
    EXPECT(l4_mapping_of(&kernel, 0, 0).refusal == L4_B1);
    EXPECT(l4_next_page(&kernel, 0, 0).refusal == L4_B1);
    EXPECT(l4_next_thread(&kernel, 0).refusal == L4_B1 && l4_next_space(&kernel, 0).refusal == L4_B1);
    {
        l4_call call = kind(L4_IPC);
        EXPECT(l4_enter(&kernel, 1, &call, no_words, 0, &step, 1).start.refusal == L4_B1);
    }
}

/* The words of a page fault at this byte. */
static void fault_words(uint32_t words[3], uint32_t address, uint32_t access) {
    words[0] = (0xffe0 + access) << 16 | 2;
    words[1] = address;
    words[2] = 0x1000;
}

/* The answer is one map item of these two words. */
static int gives(l4_message answer, uint32_t base, uint32_t fpage) {
    return answer.refusal == L4_OK && answer.word_count == 3 && answer.words[0] == 0x80 && answer.words[1] == (base | 8) && answer.words[2] == fpage
        && answer.words[3] == 0;
}

static void empty_tables(void) {
    l4_pager pager = L4_EMPTY;
    l4_sigma0 sigma0 = L4_EMPTY;
    l4_region region = {16, 32, 4, 5};
    l4_pager_free(&pager);
    l4_sigma0_free(&sigma0);
    EXPECT(l4_pager_add(&pager, &region) == L4_B1);
    EXPECT(l4_pager_find(&pager, 32, L4_READ).refusal == L4_B1);
    EXPECT(l4_pager_answer(&pager, no_words, 1).refusal == L4_B1);
    EXPECT(l4_sigma0_answer(&sigma0, 1, no_words, 1).refusal == L4_B1);
}

/* Pages 32 to 35 come from pages 16 to 19, to be read and executed. */
static void pagers(void) {
    l4_pager pager = L4_EMPTY;
    l4_region region = {16, 32, 4, 5}, over = {0, 35, 1, 7}, bad = {0, 40, 0, 7}, one = {7, 0, 1, L4_READ};
    uint32_t words[3], i;
    EXPECT(l4_pager_new(&pager) == L4_OK && l4_pager_new(&pager) == L4_B2);
    EXPECT(l4_pager_add(&pager, &region) == L4_OK && l4_pager_add(&pager, &over) == L4_P1 && l4_pager_add(&pager, &bad) == L4_P4);
    bad.count = 1;
    bad.rights = 8;
    EXPECT(l4_pager_add(&pager, &bad) == L4_P4);
    EXPECT(l4_pager_find(&pager, 33, L4_READ).there == 1 && l4_pager_find(&pager, 33, L4_READ).page == 17);
    EXPECT(l4_pager_find(&pager, 33, L4_WRITE).refusal == L4_P2 && l4_pager_find(&pager, 36, 0).refusal == L4_P2);
    fault_words(words, 0x21123, L4_READ);
    EXPECT(gives(l4_pager_answer(&pager, words, 3), 0x21000, 0x110c5));
    EXPECT(l4_pager_answer(&pager, words, 2).refusal == L4_M7);
    words[0] |= 0x1000;
    EXPECT(l4_pager_answer(&pager, words, 3).refusal == L4_M5);
    fault_words(words, 0x24000, L4_READ);
    EXPECT(gives(l4_pager_answer(&pager, words, 3), 0, 0));
    EXPECT(gives(l4_pager_answer(&pager, no_words, 1), 0, 0));
    for (i = 1; i < L4_MAX_REGIONS; i++) {
        one.target = 100 + i;
        EXPECT(l4_pager_add(&pager, &one) == L4_OK);
    }
    one.target = 99;
    EXPECT(l4_pager_add(&pager, &one) == L4_P3);
    l4_pager_free(&pager);
    l4_pager_free(&pager);
    EXPECT(l4_pager_new(&pager) == L4_OK && l4_pager_find(&pager, 33, L4_READ).refusal == L4_P2);
    l4_pager_free(&pager);
}

/* A request for 8 pages of frames from 16 on, and faults. */
static void sigma0s(void) {
    static const uint32_t request[3] = {0xffa00002, 0x100f0, 0}, with_attributes[3] = {0xffa00002, 0x100f0, 1};
    l4_sigma0 sigma0 = L4_EMPTY;
    uint32_t words[3];
    EXPECT(l4_sigma0_new(&sigma0, 0) == L4_K6 && l4_sigma0_new(&sigma0, L4_MAX_FRAMES + 1) == L4_K6);
    EXPECT(l4_sigma0_new(&sigma0, 24) == L4_OK && l4_sigma0_new(&sigma0, 24) == L4_B2);
    EXPECT(gives(l4_sigma0_answer(&sigma0, 1, with_attributes, 3), 0, 0));
    EXPECT(l4_sigma0_answer(&sigma0, 1, request, 2).refusal == L4_M7);
    fault_words(words, 0x10004, L4_WRITE);
    EXPECT(gives(l4_sigma0_answer(&sigma0, 2, words, 3), 0x10000, 0x100c7));
    EXPECT(gives(l4_sigma0_answer(&sigma0, 1, request, 3), 0, 0));
    EXPECT(gives(l4_sigma0_answer(&sigma0, 2, request, 3), 0x10000, 0x100f7));
    EXPECT(gives(l4_sigma0_answer(&sigma0, 1, words, 3), 0, 0));
    fault_words(words, 0x18000, L4_WRITE);
    EXPECT(gives(l4_sigma0_answer(&sigma0, 1, words, 3), 0, 0));
    l4_sigma0_free(&sigma0);
    EXPECT(l4_sigma0_new(&sigma0, L4_MAX_FRAMES) == L4_OK && gives(l4_sigma0_answer(&sigma0, 1, request, 3), 0x10000, 0x100f7));
    l4_sigma0_free(&sigma0);
}

static void boots(void) {
    l4_kernel kernel = L4_EMPTY, other = L4_EMPTY;
    EXPECT(l4_boot(&kernel, 0) == L4_K6);
    EXPECT(l4_boot(&kernel, L4_MAX_FRAMES + 1) == L4_K6);
    EXPECT(l4_boot(&kernel, L4_MAX_FRAMES) == L4_OK);
    EXPECT(l4_boot(&kernel, 1) == L4_B2);
    EXPECT(l4_boot(&other, 1) == L4_OK);
    EXPECT(l4_next_page(&kernel, 0, 1).there == 1);
    EXPECT(l4_next_page(&other, 0, 1).there == 0);
    l4_free(&other);
    EXPECT(l4_page_size_of(&kernel).refusal == L4_OK && l4_page_size_of(&kernel).page_bytes == L4_PAGE_BYTES);
    EXPECT(l4_next_page(&kernel, 0, L4_MAX_FRAMES - 1).page == L4_MAX_FRAMES - 1);
    l4_free(&kernel);
    l4_free(&kernel);
    EXPECT(l4_boot(&kernel, 2) == L4_OK);
    l4_free(&kernel);
}

/* Thread 1 sends page 16 with all rights to page 32 of thread 3. */
static void delivers(l4_kernel *kernel) {
    static const uint32_t words[3] = {0x80, 0x20008, 0x100c7};
    l4_call call = send(3);
    l4_answer answer = plainly(kernel, 2, create(3, 2));
    l4_step step;
    l4_reply reply;
    l4_mapping mapping;
    EXPECT(answer.refusal == L4_OK && answer.outcome == L4_STARTED && answer.ended_count == 1 && answer.ended[0] == 2);
    EXPECT(l4_reply_of(kernel, 2).kind == L4_REPLY_CONTROLLED);
    EXPECT(l4_space_of(kernel, 3).there == 1 && l4_space_of(kernel, 3).space == 2);
    EXPECT(plainly(kernel, 3, receive(0x10)).ended_count == 0);
    EXPECT(plainly(kernel, 3, receive(0x10)).refusal == L4_K3);
    EXPECT(l4_enabled(kernel).kind == L4_NONE);
    answer = l4_start(kernel, 1, &call, words, 3);
    EXPECT(answer.refusal == L4_OK && answer.ended_count == 0);
    step = l4_enabled(kernel);
    EXPECT(step.kind == L4_TRANSFER && step.thread == 1 && step.receiver == 3 && step.outcome == 0);
    EXPECT(l4_transfer(kernel, 3, 1).refusal == L4_K1);
    step = l4_next(kernel);
    EXPECT(step.kind == L4_TRANSFER && step.outcome == L4_DELIVERED && step.ended_count == 2 && step.ended[0] == 1 && step.ended[1] == 3);
    EXPECT(l4_next(kernel).kind == L4_NONE);
    reply = l4_reply_of(kernel, 3);
    EXPECT(reply.kind == L4_REPLY_IPC && reply.tag == 0x80 && reply.error == 0 && reply.from == id(1) && reply.word_count == 2);
    EXPECT(reply.words[0] == 0x20008 && reply.words[1] == 0x100c7);
    EXPECT(l4_next_page(kernel, 2, 0).page == 32 && l4_next_page(kernel, 2, 33).there == 0);
    mapping = l4_mapping_of(kernel, 2, 32);
    EXPECT(mapping.there == 1 && mapping.frame == 16 && mapping.rights == (L4_READ | L4_WRITE | L4_EXECUTE));
    EXPECT(mapping.has_parent == 1 && mapping.parent_page == 16 && mapping.parent_space == 0);
    EXPECT(l4_mapping_of(kernel, 0, 16).has_parent == 0 && l4_mapping_of(kernel, 2, 31).there == 0);
}

/* The threads and spaces of the machine that `delivers` leaves. */
static void lists(l4_kernel *kernel) {
    EXPECT(l4_next_thread(kernel, 0).there == 1 && l4_next_thread(kernel, 0).thread == 1);
    EXPECT(l4_next_thread(kernel, 2).thread == 2 && l4_next_thread(kernel, 3).thread == 3 && l4_next_thread(kernel, 4).there == 0);
    EXPECT(l4_next_space(kernel, 0).there == 1 && l4_next_space(kernel, 0).space == 0 && l4_next_space(kernel, 1).space == 1);
    EXPECT(l4_next_space(kernel, 2).space == 2 && l4_next_space(kernel, 3).there == 0);
}

/* Whether the thread is in this state, with this partner, and with these flags of its wait. */
static int is_in(l4_state told, uint32_t state, uint32_t partner, uint32_t expires, uint32_t fault) {
    return told.refusal == L4_OK && told.state == state && told.partner == partner && told.expires == expires && told.fault == fault
        && told.reserved[0] == 0 && told.reserved[1] == 0 && told.reserved[2] == 0;
}

/* A number without a thread, threads that have made no call yet, one whose call has ended, and threads that wait in each way. */
static void states(void) {
    l4_kernel kernel = L4_EMPTY;
    l4_call fault = kind(L4_FAULT), call = send(1);
    l4_state told;
    fault.address = 0x20123;
    fault.access = L4_READ;
    call.timeouts = l4_timeouts(L4_ZERO_TIMEOUT, 0);
    EXPECT(l4_boot(&kernel, 256) == L4_OK);
    told = l4_state_of(&kernel, 3);
    EXPECT(is_in(told, L4_STATE_ABSENT, 0, 0, 0) && told.space == 0 && told.id == 0 && told.pager == 0);
    told = l4_state_of(&kernel, 2);
    EXPECT(is_in(told, L4_STATE_NEW, 0, 0, 0) && told.space == 1 && told.id == L4_ROOT_ID && told.pager == L4_SIGMA0_ID);
    told = l4_state_of(&kernel, 1);
    EXPECT(is_in(told, L4_STATE_NEW, 0, 0, 0) && told.space == 0 && told.id == L4_SIGMA0_ID && told.pager == L4_NILTHREAD);
    EXPECT(plainly(&kernel, 2, create(3, 2)).refusal == L4_OK && is_in(l4_state_of(&kernel, 2), L4_STATE_RUNNING, 0, 0, 0));
    told = l4_state_of(&kernel, 3);
    EXPECT(is_in(told, L4_STATE_NEW, 0, 0, 0) && told.space == 2 && told.id == id(3) && told.pager == id(2));
    EXPECT(plainly(&kernel, 3, fault).refusal == L4_OK && is_in(l4_state_of(&kernel, 3), L4_STATE_SENDING, id(2), 0, 1));
    EXPECT(plainly(&kernel, 2, receive(0)).refusal == L4_OK && is_in(l4_state_of(&kernel, 2), L4_STATE_RECEIVING, L4_ANYTHREAD, 0, 0));
    EXPECT(l4_next(&kernel).outcome == L4_DELIVERED && is_in(l4_state_of(&kernel, 3), L4_STATE_RECEIVING, id(2), 0, 1));
    EXPECT(l4_start(&kernel, 2, &call, no_words, 1).refusal == L4_OK && is_in(l4_state_of(&kernel, 2), L4_STATE_SENDING, id(1), 1, 0));
    EXPECT(l4_next(&kernel).outcome == L4_EXPIRED && is_in(l4_state_of(&kernel, 2), L4_STATE_RUNNING, 0, 0, 0));
    l4_free(&kernel);
}

/* Two continuations of the run that `delivers` leaves: thread 1 waits to send to thread 2, with a timeout of zero. */
static void copies(void) {
    static const uint32_t words[2] = {1, 5}, whole[1] = {0x12};
    l4_kernel kernel = L4_EMPTY, copy = L4_EMPTY, other = L4_EMPTY;
    l4_call call = send(2);
    EXPECT(l4_copy(&kernel, &copy) == L4_B1 && l4_enabled(&copy).refusal == L4_B1);
    EXPECT(l4_boot(&kernel, 256) == L4_OK);
    delivers(&kernel);
    call.timeouts = L4_ZERO_TIMEOUT << 16;
    EXPECT(l4_start(&kernel, 1, &call, words, 2).refusal == L4_OK);
    EXPECT(l4_copy(&kernel, &copy) == L4_OK && l4_copy(&kernel, &copy) == L4_B2 && l4_copy(&copy, &other) == L4_OK);
    lists(&copy);
    EXPECT(plainly(&kernel, 2, receive(0)).refusal == L4_OK && l4_next(&kernel).outcome == L4_DELIVERED);
    EXPECT(l4_reply_of(&kernel, 2).word_count == 1 && l4_reply_of(&kernel, 2).words[0] == 5);
    EXPECT(l4_expire(&copy, 1).outcome == L4_EXPIRED && l4_reply_of(&copy, 1).error == 2 && l4_reply_of(&copy, 2).kind == L4_REPLY_CONTROLLED);
    call = kind(L4_UNMAP);
    EXPECT(l4_start(&copy, 1, &call, whole, 1).refusal == L4_OK);
    EXPECT(l4_mapping_of(&copy, 2, 32).rights == (L4_READ | L4_EXECUTE) && l4_mapping_of(&kernel, 2, 32).rights == 7);
    l4_free(&kernel);
    EXPECT(l4_enabled(&other).kind == L4_EXPIRE && l4_enabled(&other).thread == 1 && l4_mapping_of(&other, 2, 32).rights == 7);
    EXPECT(l4_reply_of(&other, 3).word_count == 2 && l4_reply_of(&other, 3).words[1] == 0x100c7);
    l4_free(&other);
    l4_free(&copy);
}

/* Maps a page of one thread with all rights to a page of another thread. */
static void maps_page(l4_kernel *kernel, uint32_t from, uint32_t page, uint32_t to, uint32_t target) {
    uint32_t words[3] = {0x80, target << 12 | 8, page << 12 | 0xc7};
    l4_call call = send(to);
    EXPECT(plainly(kernel, to, receive(0x10)).refusal == L4_OK);
    EXPECT(l4_enter(kernel, from, &call, words, 3, NULL, 0).step_count == 1 && l4_mapping_of(kernel, l4_space_of(kernel, to).space, target).there == 1);
}

/* Whether these are the pages that descend from a page of a space: each of them once, in any order. */
static int descend(l4_kernel *kernel, uint64_t space, uint32_t page, const l4_place *expected, size_t count) {
    l4_place found[4];
    l4_count told = l4_descendants(kernel, space, page, found, 4);
    size_t i, j, hits;
    for (i = 0; i < count && told.count == count; i++) {
        for (j = hits = 0; j < count; j++)
            hits += found[j].space == expected[i].space && found[j].page == expected[i].page && found[j].reserved == 0;
        if (hits != 1)
            return 0;
    }
    return told.refusal == L4_OK && told.count == count;
}

/* Whether the listed page has this mapping. */
static int same_mapping(const l4_mapped *listed, l4_mapping asked) {
    return asked.there == 1 && listed->frame == asked.frame && listed->rights == asked.rights && listed->has_parent == asked.has_parent
        && listed->parent_page == asked.parent_page && listed->parent_space == asked.parent_space && listed->reserved == 0;
}

/* The present pages of a space, with their mappings. */
static void mappings(void) {
    static const l4_mapped other = {9, 9, 9, 9, 9, 9, 9};
    l4_kernel kernel = L4_EMPTY;
    l4_mapped pages[5];
    size_t i;
    for (i = 0; i < 5; i++)
        pages[i] = other;
    EXPECT(l4_mappings(&kernel, 0, 0, pages, 5).refusal == L4_B1 && memcmp(&pages[0], &other, sizeof other) == 0);
    EXPECT(l4_boot(&kernel, 256) == L4_OK && l4_mappings(&kernel, 0, 0, NULL, 0).count == 256 && l4_mappings(&kernel, 1, 0, pages, 5).count == 0);
    /* page 16 of sigma0 is at page 32 of space 2, and then at pages 40 and 7 of space 1 */
    delivers(&kernel);
    maps_page(&kernel, 1, 16, 2, 40);
    maps_page(&kernel, 1, 17, 2, 7);
    EXPECT(l4_mappings(&kernel, 1, 0, pages, 5).count == 2 && pages[0].page == 7 && pages[0].frame == 17 && pages[1].page == 40);
    EXPECT(same_mapping(&pages[0], l4_mapping_of(&kernel, 1, 7)) && same_mapping(&pages[1], l4_mapping_of(&kernel, 1, 40)));
    EXPECT(memcmp(&pages[2], &other, sizeof other) == 0);
    /* from a page on; pages for which there is no room are counted, and nothing is written behind the room */
    EXPECT(l4_mappings(&kernel, 1, 8, pages, 5).count == 1 && pages[0].page == 40 && l4_mappings(&kernel, 1, 41, pages, 5).count == 0);
    EXPECT(l4_mappings(&kernel, 0, 254, pages, 1).count == 2 && pages[0].page == 254 && pages[0].has_parent == 0 && pages[1].page == 40);
    /* absent: a space that does not exist, and a page beyond the space */
    EXPECT(l4_mappings(&kernel, 7, 0, pages, 5).count == 0 && l4_mappings(&kernel, 0, UINT32_MAX, pages, 5).count == 0);
    EXPECT(l4_mappings(&kernel, 0, 0, NULL, 0).count == 256);
    l4_free(&kernel);
}

/* The pages that descend from a page. */
static void descendants(void) {
    static const uint32_t page_16[1] = {0x100c7};
    static const l4_place both[2] = {{1, 40, 0}, {2, 32, 0}}, other = {9, 9, 9};
    l4_kernel kernel = L4_EMPTY;
    l4_place found[3] = {{9, 9, 9}, {9, 9, 9}, {9, 9, 9}};
    l4_call call = kind(L4_UNMAP);
    EXPECT(l4_descendants(&kernel, 0, 16, found, 3).refusal == L4_B1 && memcmp(&found[0], &other, sizeof other) == 0);
    EXPECT(l4_boot(&kernel, 256) == L4_OK && descend(&kernel, 0, 16, NULL, 0));
    /* absent: a page of an empty space, one beyond the space, and one of a space that does not exist */
    EXPECT(descend(&kernel, 1, 16, NULL, 0) && descend(&kernel, 0, UINT32_MAX, NULL, 0) && descend(&kernel, 7, 16, NULL, 0));
    /* page 16 of sigma0 goes to page 32 of space 2, and then to page 40 of space 1 */
    delivers(&kernel);
    EXPECT(descend(&kernel, 0, 16, &both[1], 1) && descend(&kernel, 0, 17, NULL, 0) && descend(&kernel, 2, 32, NULL, 0));
    maps_page(&kernel, 1, 16, 2, 40);
    EXPECT(descend(&kernel, 0, 16, both, 2) && descend(&kernel, 1, 40, NULL, 0));
    /* page 40 replaces page 32 by its own child */
    maps_page(&kernel, 2, 40, 3, 32);
    EXPECT(descend(&kernel, 0, 16, both, 2) && descend(&kernel, 1, 40, &both[1], 1) && descend(&kernel, 2, 32, NULL, 0));
    /* pages for which there is no room are counted, and nothing is written behind the room */
    EXPECT(l4_descendants(&kernel, 0, 16, NULL, 0).count == 2 && l4_descendants(&kernel, 0, 16, found, 1).count == 2);
    EXPECT(found[0].space != 9 && memcmp(&found[1], &other, sizeof other) == 0);
    EXPECT(l4_descendants(&kernel, 0, 16, found, 3).count == 2 && found[1].space != 9 && memcmp(&found[2], &other, sizeof other) == 0);
    /* an Unmap of page 16 takes what descends from it */
    EXPECT(l4_start(&kernel, 1, &call, page_16, 1).refusal == L4_OK && descend(&kernel, 0, 16, NULL, 0));
    EXPECT(l4_mapping_of(&kernel, 0, 16).there == 1 && l4_mapping_of(&kernel, 1, 40).there == 0 && l4_mapping_of(&kernel, 2, 32).there == 0);
    l4_free(&kernel);
}

/* Reading the words of messages to a pager and to sigma0. */
static void readers(void) {
    static const uint32_t request[3] = {0xffa00002, 0x100f5, 1}, no_fpage[3] = {0xffa00002, 0x20, 0};
    uint32_t words[3];
    l4_fault fault;
    fault_words(words, 0x21123, L4_READ);
    fault = l4_read_fault(words, 3);
    EXPECT(fault.refusal == L4_OK && fault.there == 1 && fault.address == 0x21123 && fault.ip == 0x1000 && fault.access == L4_READ);
    EXPECT(l4_read_fault(words, 2).refusal == L4_M7 && l4_read_request(words, 2).refusal == L4_M7);
    EXPECT(l4_read_request(words, 3).refusal == L4_OK && l4_read_request(words, 3).there == 0);
    EXPECT(l4_read_request(request, 3).there == 1 && l4_read_request(request, 3).fpage == 0x100f0 && l4_read_request(request, 3).attributes == 1);
    EXPECT(l4_read_fault(request, 3).refusal == L4_OK && l4_read_fault(request, 3).there == 0);
    EXPECT(l4_read_request(no_fpage, 3).refusal == L4_OK && l4_read_request(no_fpage, 3).there == 0);
}

/* The other kinds of calls, on the machine that `delivers` leaves. */
static void calls(l4_kernel *kernel) {
    static const uint32_t whole[1] = {0x12};
    l4_call call = kind(L4_FAULT);
    call.address = 0x20123;
    call.access = L4_READ;
    EXPECT(plainly(kernel, 3, call).ended_count == 1 && l4_reply_of(kernel, 3).kind == L4_REPLY_HIT);
    call = kind(L4_UNMAP);
    EXPECT(plainly(kernel, 1, call).refusal == L4_U2);
    EXPECT(l4_start(kernel, 1, &call, whole, 1).refusal == L4_OK && l4_reply_of(kernel, 1).kind == L4_REPLY_UNMAPPED);
    EXPECT(l4_mapping_of(kernel, 2, 32).rights == (L4_READ | L4_EXECUTE));
    call = receive(0);
    call.timeouts = L4_ZERO_TIMEOUT;
    EXPECT(plainly(kernel, 3, call).ended_count == 0 && l4_enabled(kernel).kind == L4_EXPIRE && l4_enabled(kernel).thread == 3);
    EXPECT(l4_expire(kernel, 1).refusal == L4_K1);
    EXPECT(l4_expire(kernel, 3).outcome == L4_EXPIRED && l4_reply_of(kernel, 3).tag == 0x8000 && l4_reply_of(kernel, 3).error == 3);
    call = kind(L4_SET_PAGER);
    call.id = id(3);
    call.pager = id(1);
    EXPECT(plainly(kernel, 3, call).refusal == L4_H1);
    EXPECT(plainly(kernel, 2, call).refusal == L4_OK);
    call = kind(L4_DELETE);
    call.id = id(3);
    EXPECT(plainly(kernel, 2, call).ended_count == 1);
    EXPECT(l4_space_of(kernel, 3).there == 0 && l4_reply_of(kernel, 3).kind == L4_NONE);
}

/* A call whose reserved members are 0, except one. */
static l4_call unplain(l4_call call, size_t place) {
    call.reserved[place] = 1;
    return call;
}

/* Refusals of what only C can pass. */
static void refusals(l4_kernel *kernel) {
    uint32_t words[70], i;
    l4_call call = send(2);
    memset(words, 0, sizeof words);
    EXPECT(plainly(kernel, 1, kind(0)).refusal == L4_B3 && plainly(kernel, 1, kind(7)).refusal == L4_B3);
    EXPECT(plainly(kernel, 1, unplain(call, 0)).refusal == L4_B3 && plainly(kernel, 1, unplain(call, 3)).refusal == L4_B3);
    for (i = L4_IPC; i <= L4_DELETE; i++)
        EXPECT(plainly(kernel, 1, unplain(kind(i), i % 4)).refusal == L4_B3);
    EXPECT(plainly(kernel, 9, kind(L4_DELETE)).refusal == L4_K2);
    EXPECT(plainly(kernel, 1, call).refusal == L4_M7);
    words[0] = 0xfff;
    EXPECT(l4_start(kernel, 1, &call, words, 70).refusal == L4_M1);
    words[0] = 0x1000;
    EXPECT(l4_start(kernel, 1, &call, words, 1).refusal == L4_M5);
    words[0] = 0x40;
    EXPECT(l4_start(kernel, 1, &call, words, 2).refusal == L4_M2);
    words[0] = 0x100;
    words[1] = 8;
    words[3] = 14;
    EXPECT(l4_start(kernel, 1, &call, words, 5).refusal == L4_M3 && l4_start(kernel, 1, &call, words, 5).detail == 1);
    words[3] = 0;
    EXPECT(l4_start(kernel, 1, &call, words, 5).refusal == L4_M4 && l4_start(kernel, 1, &call, words, 5).detail == 1);
    call = receive(0x20);
    EXPECT(plainly(kernel, 1, call).refusal == L4_M6);
    call.timeouts = 1;
    EXPECT(plainly(kernel, 1, call).refusal == L4_K4);
}

/* A call that is entered, with its steps. */
static void enters(l4_kernel *kernel) {
    static const uint32_t words[70] = {1, 5};
    l4_call call = receive(0);
    l4_step steps[2];
    l4_entered entered = l4_enter(kernel, 2, &call, no_words, 0, steps, 2);
    EXPECT(entered.start.refusal == L4_OK && entered.step_count == 0);
    call = send(2);
    memset(steps, 0, sizeof steps);
    entered = l4_enter(kernel, 1, &call, words, 70, steps, 2);
    EXPECT(entered.start.refusal == L4_OK && entered.start.ended_count == 0 && entered.step_count == 1);
    EXPECT(steps[0].kind == L4_TRANSFER && steps[0].outcome == L4_DELIVERED && steps[0].ended_count == 2 && steps[1].kind == L4_NONE);
    EXPECT(l4_reply_of(kernel, 2).word_count == 1 && l4_reply_of(kernel, 2).words[0] == 5);
    entered = l4_enter(kernel, 9, &call, words, 2, steps, 2);
    EXPECT(entered.start.refusal == L4_K2 && entered.step_count == 0);
    call = receive(0);
    EXPECT(l4_enter(kernel, 2, &call, no_words, 0, steps, 0).step_count == 0);
    call = send(2);
    EXPECT(l4_enter(kernel, 1, &call, words, 2, steps, 0).step_count == 1);
    EXPECT(l4_enter(kernel, 1, &call, words, 1, steps, 0).start.refusal == L4_M7);
}

static void plans(void) {
    l4_region region = {4, 12, 12, 7}, several = {0, 1, 32, 7}, long_region = {0, 1, 1985, 7}, other = {4, 12, 0, 7};
    static uint32_t pages[L4_TOO_MANY + 1];
    const uint32_t *items;
    l4_plan whole = l4_plan_region(&region);
    l4_part plan = l4_plan_message(&region, 0);
    l4_verdict verdict;
    EXPECT(whole.refusal == L4_OK && whole.items == 2 && whole.messages == 1);
    EXPECT(plan.refusal == L4_OK && plan.messages == 1 && plan.word_count == 5 && plan.page_count == 2);
    EXPECT(plan.words[0] == 0x100 && plan.words[1] == 0xc009 && plan.words[2] == 0x40e7 && plan.words[3] == 0x10008 && plan.words[4] == 0x80f7);
    EXPECT(plan.pages[0] == 4 && plan.pages[1] == 8);
    EXPECT(l4_plan_pages(&region, pages, 1) == 2 && pages[0] == 4 && pages[1] == 0);
    EXPECT(l4_plan_pages(&region, pages, 3) == 2 && pages[0] == 4 && pages[1] == 8 && pages[2] == 0);
    plan = l4_plan_message(&region, 1);
    EXPECT(plan.refusal == L4_N6 && plan.messages == 1 && plan.word_count == 0 && plan.page_count == 0);
    plan = l4_plan_message(&region, 0);
    items = plan.words + 1;
    EXPECT(l4_check_plan(&region, items, 4, plan.pages, plan.page_count).refusal == L4_OK);
    EXPECT(l4_check_plan(&region, items, 4, plan.pages, 1).refusal == L4_C5);
    EXPECT(l4_check_plan(&region, items, 3, plan.pages, 2).refusal == L4_M2);
    EXPECT(l4_check_plan(&other, items, 4, plan.pages, 2).refusal == L4_C6);
    plan.pages[1] = 5;
    verdict = l4_check_plan(&region, items, 4, plan.pages, 2);
    EXPECT(verdict.refusal == L4_C4 && verdict.detail == 1);
    plan.pages[1] = 16;
    verdict = l4_check_plan(&region, items, 4, plan.pages, 2);
    EXPECT(verdict.refusal == L4_C3 && verdict.detail == 1);
    region.count = 13;
    verdict = l4_check_plan(&region, items, 4, plan.pages, 2);
    EXPECT(verdict.refusal == L4_C2 && verdict.detail == 16);
    region.rights = 5;
    verdict = l4_check_plan(&region, items, 4, plan.pages, 2);
    EXPECT(verdict.refusal == L4_C1 && verdict.detail == 0);
    EXPECT(l4_plan_region(&other).refusal == L4_N1);
    other.count = 1;
    other.rights = 8;
    EXPECT(l4_plan_region(&other).refusal == L4_N3);
    other.source = L4_SPACE_PAGES;
    EXPECT(l4_plan_region(&other).refusal == L4_N2);
    whole = l4_plan_region(&several);
    EXPECT(whole.refusal == L4_OK && whole.items == 32 && whole.messages == 2);
    plan = l4_plan_message(&several, 1);
    EXPECT(plan.word_count == 3 && plan.page_count == 1 && plan.words[0] == 0x80 && plan.words[1] == 0x20008 && plan.words[2] == 0x1f0c7);
    EXPECT(plan.messages == 2 && plan.pages[0] == 31);
    EXPECT(l4_plan_region(&long_region).refusal == L4_N4 && l4_plan_message(&long_region, 0).refusal == L4_N4);
    EXPECT(l4_plan_pages(&long_region, pages, L4_TOO_MANY + 1) == L4_TOO_MANY && pages[L4_TOO_MANY - 1] == 1984);
    EXPECT(l4_check_too_long(&long_region, pages, L4_TOO_MANY).refusal == L4_OK);
    EXPECT(l4_check_too_long(&long_region, pages, L4_TOO_MANY - 1).refusal == L4_C5);
    EXPECT(l4_check_too_long(&several, pages, L4_TOO_MANY).refusal == L4_C3);
}

/* A locked kernel: calls of three seats, of which one waits for another, the history that they leave, and the seats that come back. */
static l4_seated by_seat(l4_lock *lock, uint32_t seat, l4_call call, const uint32_t *words, size_t count) {
    return l4_lock_enter(lock, seat, &call, words, count);
}

/* The link is of this entry, from the one page to the other. */
static int brings(l4_link link, uint64_t entry, uint64_t source_space, uint32_t source_page, uint64_t target_space, uint32_t target_page) {
    return link.entry == entry && link.source_space == source_space && link.source_page == source_page && link.target_space == target_space
        && link.target_page == target_page;
}

/* The link is a grant or not, by these rights. */
static int shares(l4_link link, uint32_t grant, uint32_t source_rights, uint32_t item_rights) {
    return link.grant == grant && link.source_rights == source_rights && link.item_rights == item_rights;
}

/* The seat waits for any message, and another sends it these words. */
static void moves(l4_lock *lock, uint32_t receiver, uint32_t sender, const uint32_t words[3]) {
    EXPECT(by_seat(lock, receiver, receive(0x10), no_words, 0).refusal == L4_OK);
    EXPECT(by_seat(lock, sender, send(receiver), words, 3).reply.kind == L4_REPLY_IPC);
    EXPECT(l4_lock_take(lock, receiver).tag == 0x80);
}

/* A lock whose history maps page 16 of sigma0 to page 32 of thread 3 (entry 4) and that to page 7 of thread 4, to be read and written
 * (entry 7). */
static void maps(l4_lock *lock) {
    static const uint32_t first[3] = {0x80, 0x20008, 0x100c7}, second[3] = {0x80, 0x7008, 0x200c6};
    uint32_t seat;
    EXPECT(l4_lock_new(lock, 256) == L4_OK);
    for (seat = 1; seat <= 4; seat++) {
        EXPECT(l4_lock_give(lock, seat) == L4_OK);
    }
    EXPECT(by_seat(lock, 2, create(3, 2), no_words, 0).refusal == L4_OK && by_seat(lock, 2, create(4, 2), no_words, 0).refusal == L4_OK);
    moves(lock, 3, 1, first);
    moves(lock, 4, 3, second);
}

/* The two links of page 7 of space 3, in rooms for none, one and three, and whose else they are. */
static void chain_of_maps(l4_lock *lock) {
    l4_link links[3];
    l4_chain chain;
    memset(links, 0, sizeof links);
    chain = l4_lock_provenance(lock, 3, 7, links, 0);
    EXPECT(chain.refusal == L4_OK && chain.detail == 0 && chain.there == 1 && chain.count == 2 && brings(links[0], 0, 0, 0, 0, 0));
    EXPECT(l4_lock_provenance(lock, 3, 7, links, 1).count == 2 && brings(links[0], 4, 0, 16, 2, 32) && brings(links[1], 0, 0, 0, 0, 0));
    EXPECT(l4_lock_provenance(lock, 3, 7, links, 3).count == 2 && brings(links[0], 4, 0, 16, 2, 32) && shares(links[0], 0, 7, 7));
    EXPECT(brings(links[1], 7, 2, 32, 3, 7) && shares(links[1], 0, 7, 6) && brings(links[2], 0, 0, 0, 0, 0));
    EXPECT(l4_lock_check_provenance(lock, 3, 7, links, 2).refusal == L4_OK && l4_lock_check_provenance(lock, 2, 32, links, 1).refusal == L4_OK);
    EXPECT(l4_lock_check_provenance(lock, 3, 7, links, 1).refusal == L4_L7 && l4_lock_check_provenance(lock, 3, 7, links + 1, 1).refusal == L4_L7);
    EXPECT(l4_lock_check_provenance(lock, 3, 7, links, 0).refusal == L4_L7 && l4_lock_check_provenance(lock, 2, 32, links, 2).refusal == L4_L7);
    links[1].reserved = 1;
    EXPECT(l4_lock_check_provenance(lock, 3, 7, links, 2).refusal == L4_B3 && l4_lock_check_provenance(lock, 3, 7, links, 1).refusal == L4_L7);
    links[1].reserved = 0;
    EXPECT(l4_lock_check_provenance(lock, 3, 8, links, 2).refusal == L4_L7 && l4_lock_check_provenance(lock, 3, 8, links, 0).refusal == L4_L7);
    links[1].item_rights = L4_READ;
    EXPECT(l4_lock_check_provenance(lock, 3, 7, links, 2).refusal == L4_L7);
    EXPECT(l4_lock_provenance(lock, 0, 16, links, 0).there == 1 && l4_lock_provenance(lock, 0, 16, links, 0).count == 0);
    EXPECT(l4_lock_check_provenance(lock, 0, 16, links, 0).refusal == L4_OK);
    chain = l4_lock_provenance(lock, 3, 8, links, 3);
    EXPECT(chain.refusal == L4_OK && chain.there == 0 && chain.count == 0 && brings(links[0], 4, 0, 16, 2, 32));
    EXPECT(l4_lock_provenance(lock, 9, 7, links, 3).there == 0 && l4_lock_provenance(lock, 0, 256, links, 3).there == 0);
}

/* Page 7 of thread 4 is granted to page 3 of thread 2, to be read (entry 10), and then page 17 of sigma0 replaces it (entry 13). */
static void provenance(void) {
    static const uint32_t grant[3] = {0x80, 0x300a, 0x70c4}, other[3] = {0x80, 0x3008, 0x110c7};
    l4_lock lock = L4_EMPTY;
    l4_link links[4], one;
    memset(links, 0, sizeof links);
    EXPECT(l4_lock_provenance(&lock, 0, 0, links, 4).refusal == L4_B1 && l4_lock_check_provenance(&lock, 0, 0, links, 0).refusal == L4_B1);
    maps(&lock);
    chain_of_maps(&lock);
    moves(&lock, 2, 4, grant);
    EXPECT(l4_lock_provenance(&lock, 3, 7, links, 4).there == 0);
    EXPECT(l4_lock_provenance(&lock, 1, 3, links, 4).count == 3 && brings(links[0], 4, 0, 16, 2, 32) && brings(links[1], 7, 2, 32, 3, 7));
    EXPECT(brings(links[2], 10, 3, 7, 1, 3) && shares(links[2], 1, 6, 4));
    EXPECT(l4_lock_check_provenance(&lock, 1, 3, links, 3).refusal == L4_OK);
    moves(&lock, 2, 1, other);
    EXPECT(l4_lock_check_provenance(&lock, 1, 3, links, 3).refusal == L4_L7);
    EXPECT(l4_lock_provenance(&lock, 1, 3, &one, 1).count == 1 && brings(one, 13, 0, 17, 1, 3) && shares(one, 0, 7, 7));
    EXPECT(l4_lock_check_provenance(&lock, 1, 3, &one, 1).refusal == L4_OK && l4_lock_length(&lock).count == 14);
    l4_lock_free(&lock);
}

/* The first 8 entries are handed out. Those of later calls continue their numbers, and nothing is replayed. */
static void first_segment(l4_lock *lock, l4_segment *segment) {
    l4_link links[2];
    uint32_t ended[3] = {0, 0, 9};
    const l4_entry last = l4_lock_entry(lock, 7);
    /* the last transfer ended two calls; those for which there is no room are counted, and nothing is written behind the room */
    EXPECT(l4_lock_ended(lock, 7, ended, 3).count == 2 && last.ended_count == 2 && ended[2] == 9);
    EXPECT(ended[0] == last.ended[0] && ended[1] == last.ended[1] && l4_lock_ended(lock, 8, ended, 3).count == 0);
    ended[0] = ended[1] = 9;
    EXPECT(l4_lock_ended(lock, 7, ended, 1).count == 2 && ended[0] == last.ended[0] && ended[1] == 9);
    EXPECT(l4_lock_hand_out(lock, segment) == L4_OK && l4_lock_hand_out(lock, segment) == L4_B2);
    EXPECT(l4_segment_first(segment).count == 0 && l4_segment_length(segment).count == 8);
    EXPECT(l4_segment_entry(segment, 0).kind == L4_START && l4_segment_entry(segment, 7).kind == L4_TRANSFER);
    EXPECT(l4_segment_entry(segment, 7).thread == 3 && l4_segment_entry(segment, 7).receiver == 4);
    EXPECT(l4_segment_entry(segment, 8).refusal == L4_OK && l4_segment_entry(segment, 8).kind == L4_NONE);
    EXPECT(l4_lock_length(lock).count == 8 && l4_lock_kept_from(lock).count == 8);
    ended[0] = 9;
    EXPECT(l4_lock_ended(lock, 7, ended, 1).refusal == L4_L8 && ended[0] == 9 && l4_lock_ended(lock, 8, NULL, 0).refusal == L4_OK);
    EXPECT(l4_lock_entry(lock, 7).refusal == L4_L8 && l4_lock_entry(lock, 8).refusal == L4_OK && l4_lock_entry(lock, 8).kind == L4_NONE);
    EXPECT(l4_lock_receipt(lock, 2, 1).refusal == L4_L8 && l4_lock_receipt(lock, 2, 1).there == 0 && l4_lock_receipt(lock, 2, 2).refusal == L4_OK);
    EXPECT(l4_lock_seat_of(lock, 2).receipts == 2 && l4_lock_seat_of(lock, 2).kept_from == 2 && l4_lock_seat_of(lock, 2).starts == 2);
    EXPECT(l4_lock_provenance(lock, 3, 7, links, 2).refusal == L4_L8 && l4_lock_provenance(lock, 3, 7, links, 2).count == 0);
    EXPECT(l4_lock_check_provenance(lock, 3, 7, links, 0).refusal == L4_L8);
}

/* The file of a segment whose one entry, number 8, starts the receive of thread 2, in words of four bytes with the lowest byte first. The last
 * eight are the SHA-256 digest of those before them. */
static void segment_file(l4_segment *segment) {
    static const uint32_t file[27] = {0x3447534c, 1, 256, 4096, 8, 0, 1, 0, 10, 2, 0, 0, 0, 2, 0, 0, 0xffffffff, 0, 0x10,
        0x9029d093, 0x6c43e52a, 0xa9a401ad, 0x4cbe1f85, 0xeef547bd, 0x333e3d62, 0x097392b7, 0xebddd0ba};
    uint8_t out[112];
    size_t at;
    memset(out, 'x', sizeof out);
    EXPECT(l4_segment_bytes(segment, NULL, 0).count == 108 && l4_segment_bytes(segment, out, 2).count == 108);
    EXPECT(out[0] == 'L' && out[1] == 'S' && out[2] == 'x');
    EXPECT(l4_segment_bytes(segment, out, sizeof out).refusal == L4_OK && out[108] == 'x');
    for (at = 0; at < 108; at++) {
        EXPECT(out[at] == (file[at / 4] >> at % 4 * 8 & 0xff));
    }
}

/* A segment is handed out while thread 2 waits: its receipt names entries of two segments. */
static void segments(void) {
    static const uint32_t words[3] = {0x80, 0x300a, 0x70c4}, seats[4] = {1, 2, 3, 4};
    l4_lock lock = L4_EMPTY;
    l4_segment first = L4_EMPTY, second = L4_EMPTY;
    l4_kernel copy = L4_EMPTY;
    EXPECT(l4_lock_hand_out(&lock, &first) == L4_B1 && l4_segment_first(&first).refusal == L4_B1 && l4_segment_length(&first).refusal == L4_B1);
    EXPECT(l4_segment_entry(&first, 0).refusal == L4_B1 && l4_lock_kept_from(&lock).refusal == L4_B1);
    EXPECT(l4_segment_bytes(&first, NULL, 0).refusal == L4_B1);
    maps(&lock);
    first_segment(&lock, &first);
    EXPECT(by_seat(&lock, 2, receive(0x10), no_words, 0).reply.kind == L4_NONE);
    EXPECT(l4_lock_hand_out(&lock, &second) == L4_OK && l4_segment_first(&second).count == 8 && l4_segment_length(&second).count == 1);
    EXPECT(l4_segment_entry(&second, 7).kind == L4_NONE && l4_segment_entry(&second, 8).kind == L4_START && l4_segment_entry(&second, 9).kind == L4_NONE);
    segment_file(&second);
    EXPECT(by_seat(&lock, 4, send(2), words, 3).reply.kind == L4_REPLY_IPC && l4_lock_take(&lock, 2).tag == 0x80);
    EXPECT(l4_lock_entry(&lock, 8).refusal == L4_L8 && l4_lock_entry(&lock, 10).kind == L4_TRANSFER && l4_lock_length(&lock).count == 11);
    EXPECT(l4_lock_receipt(&lock, 2, 2).there == 1 && l4_lock_receipt(&lock, 2, 2).start == 8 && l4_lock_receipt(&lock, 2, 2).end == 10);
    EXPECT(l4_lock_copy(&lock, &copy) == L4_OK && l4_lock_copy(&lock, &copy) == L4_B2 && l4_mapping_of(&copy, 1, 3).frame == 16);
    EXPECT(l4_lock_forget(&lock) == L4_OK && l4_lock_kept_from(&lock).count == 11 && l4_lock_length(&lock).count == 11);
    EXPECT(l4_lock_receipt(&lock, 2, 2).refusal == L4_L8 && l4_lock_seat_of(&lock, 2).receipts == 3);
    EXPECT(l4_lock_close(&lock, seats, 4).refusal == L4_OK && l4_segment_length(&first).count == 8 && l4_lock_forget(&lock) == L4_B1);
    EXPECT(l4_lock_copy(&lock, &copy) == L4_B1 && l4_space_of(&copy, 4).space == 3);
    l4_free(&copy);
    l4_segment_free(&first);
    l4_segment_free(&second);
    l4_segment_free(&second);
    EXPECT(l4_segment_first(&first).refusal == L4_B1 && l4_segment_length(&second).refusal == L4_B1);
}

/* The kernel of a lock that `maps` has used, queried under the lock. */
static void locked_queries(void) {
    l4_lock lock = L4_EMPTY;
    l4_mapping mapping;
    l4_place places[2];
    maps(&lock);
    EXPECT(l4_lock_next_thread(&lock, 3).thread == 3 && l4_lock_next_thread(&lock, 4).thread == 4 && l4_lock_next_thread(&lock, 5).there == 0);
    EXPECT(l4_lock_next_space(&lock, 2).space == 2 && l4_lock_next_space(&lock, 4).there == 0 && l4_lock_page_size_of(&lock).page_bytes == L4_PAGE_BYTES);
    EXPECT(l4_lock_next_thread_in(&lock, 3, 0).thread == 4 && l4_lock_next_thread_in(&lock, 3, 5).there == 0);
    EXPECT(l4_lock_space_of(&lock, 4).space == 3 && l4_lock_space_of(&lock, 3).space == 2 && l4_lock_space_of(&lock, 5).there == 0);
    mapping = l4_lock_mapping_of(&lock, 3, 7);
    EXPECT(mapping.there == 1 && mapping.frame == 16 && mapping.rights == 6 && mapping.parent_space == 2 && mapping.parent_page == 32);
    EXPECT(l4_lock_mapping_of(&lock, 2, 32).rights == 7 && l4_lock_mapping_of(&lock, 2, 7).there == 0);
    EXPECT(l4_lock_next_page(&lock, 2, 0).page == 32 && l4_lock_next_page(&lock, 3, 0).page == 7 && l4_lock_next_page(&lock, 3, 8).there == 0);
    EXPECT(l4_lock_descendants(&lock, 0, 16, places, 2).count == 2 && l4_lock_descendants(&lock, 2, 32, places, 2).count == 1);
    EXPECT(places[0].space == 3 && places[0].page == 7);
    EXPECT(l4_lock_reply_of(&lock, 4).from == id(3) && l4_lock_reply_of(&lock, 3).from == 0 && is_in(l4_lock_state_of(&lock, 4), L4_STATE_RUNNING, 0, 0, 0));
    EXPECT(by_seat(&lock, 4, receive(0), no_words, 0).reply.kind == L4_NONE && l4_lock_reply_of(&lock, 4).kind == L4_NONE);
    EXPECT(is_in(l4_lock_state_of(&lock, 4), L4_STATE_RECEIVING, L4_ANYTHREAD, 0, 0) && l4_lock_state_of(&lock, 4).id == id(4));
    EXPECT(l4_lock_state_of(&lock, 5).state == L4_STATE_ABSENT && l4_lock_length(&lock).count == 9);
    l4_lock_free(&lock);
}

static void empty_lock_queries(void) {
    l4_lock lock = L4_EMPTY;
    EXPECT(l4_lock_space_of(&lock, 1).refusal == L4_B1 && l4_lock_next_space(&lock, 0).refusal == L4_B1 && l4_lock_next_thread(&lock, 0).refusal == L4_B1);
    EXPECT(l4_lock_state_of(&lock, 1).refusal == L4_B1 && l4_lock_reply_of(&lock, 1).refusal == L4_B1 && l4_lock_page_size_of(&lock).refusal == L4_B1);
    EXPECT(l4_lock_mapping_of(&lock, 0, 0).refusal == L4_B1 && l4_lock_next_page(&lock, 0, 0).refusal == L4_B1);
    EXPECT(l4_lock_descendants(&lock, 0, 0, NULL, 0).refusal == L4_B1);
}

static void empty_locks(void) {
    l4_lock lock = L4_EMPTY;
    l4_lock_free(&lock);
    EXPECT(l4_lock_give(&lock, 1) == L4_B1 && l4_lock_length(&lock).refusal == L4_B1);
    EXPECT(by_seat(&lock, 1, kind(7), no_words, 0).refusal == L4_B1 && l4_lock_take(&lock, 1).refusal == L4_B1);
    EXPECT(l4_lock_entry(&lock, 0).refusal == L4_B1 && l4_lock_seat_of(&lock, 1).refusal == L4_B1);
    EXPECT(l4_lock_receipt(&lock, 1, 0).refusal == L4_B1 && l4_lock_close(&lock, no_words, 0).refusal == L4_B1);
    EXPECT(l4_lock_frames_of(&lock).refusal == L4_B1 && l4_lock_ended(&lock, 0, NULL, 0).refusal == L4_B1);
    EXPECT(l4_lock_mappings(&lock, 0, 0, NULL, 0).refusal == L4_B1);
    EXPECT(l4_lock_new(&lock, 0) == L4_K6 && l4_lock_new_sized(&lock, 0, 512) == L4_B4);
    EXPECT(l4_lock_new_sized(&lock, 16, L4_SMALL_PAGE_BYTES) == L4_OK && l4_lock_new(&lock, 1) == L4_B2);
    EXPECT(l4_lock_frames_of(&lock).count == 16 && l4_lock_ended(&lock, 0, NULL, 0).count == 0 && l4_lock_mappings(&lock, 0, 3, NULL, 0).count == 13);
    EXPECT(l4_lock_close(&lock, no_words, 0).refusal == L4_OK && l4_lock_length(&lock).refusal == L4_B1);
}

static void locks_wait(l4_lock *lock) {
    static const uint32_t nothing[3] = {0x80, 8, 0};
    l4_call fault = kind(L4_FAULT), answer = send(3);
    l4_seated entered;
    fault.address = 0x20123;
    fault.access = L4_READ;
    EXPECT(l4_lock_give(lock, 2) == L4_OK && l4_lock_give(lock, 3) == L4_OK && l4_lock_give(lock, 1) == L4_OK && l4_lock_give(lock, 3) == L4_L4);
    EXPECT(by_seat(lock, 3, fault, no_words, 0).refusal == L4_K2 && by_seat(lock, 9, fault, no_words, 0).refusal == L4_X2);
    EXPECT(by_seat(lock, 9, fault, no_words, 0).detail == 9);
    EXPECT(by_seat(lock, 2, kind(0), no_words, 0).refusal == L4_B3 && by_seat(lock, 2, unplain(create(3, 2), 1), no_words, 0).refusal == L4_B3);
    EXPECT(by_seat(lock, 2, create(3, 2), no_words, 0).reply.kind == L4_REPLY_CONTROLLED);
    entered = by_seat(lock, 3, fault, no_words, 0);
    EXPECT(entered.refusal == L4_OK && entered.reply.kind == L4_NONE && l4_lock_poll(lock, 3) == 0 && l4_lock_take(lock, 3).kind == L4_NONE);
    EXPECT(by_seat(lock, 3, fault, no_words, 0).refusal == L4_K3);
    EXPECT(l4_lock_seat_of(lock, 3).starts == 1 && l4_lock_seat_of(lock, 3).receipts == 0);
    entered = by_seat(lock, 2, receive(0), no_words, 0);
    EXPECT(entered.reply.kind == L4_REPLY_IPC && entered.reply.from == id(3) && entered.reply.words[0] == 0x20123);
    EXPECT(by_seat(lock, 2, answer, nothing, 3).reply.kind == L4_REPLY_IPC);
    EXPECT(by_seat(lock, 3, fault, no_words, 0).refusal == L4_L3);
    EXPECT(l4_lock_poll(lock, 3) == 1 && l4_lock_take(lock, 3).kind == L4_REPLY_ANSWERED && l4_lock_take(lock, 3).kind == L4_NONE);
    EXPECT(l4_lock_poll(lock, 3) == 0 && l4_lock_poll(lock, 2) == 0 && l4_lock_poll(lock, 9) == 0);
}

static void locks(void) {
    static const uint32_t seats[4] = {3, 1, 2, 3};
    l4_lock lock = L4_EMPTY;
    l4_entry entry;
    l4_receipt receipt;
    EXPECT(l4_lock_new(&lock, 256) == L4_OK);
    locks_wait(&lock);
    EXPECT(l4_lock_length(&lock).refusal == L4_OK && l4_lock_length(&lock).count == 6);
    entry = l4_lock_entry(&lock, 0);
    EXPECT(entry.seat == 2 && entry.kind == L4_START && entry.thread == 2 && entry.outcome == L4_STARTED && entry.ended_count == 1 && entry.ended[0] == 2);
    EXPECT(entry.call.kind == L4_CREATE && entry.call.id == id(3) && entry.call.pager == id(2) && entry.word_count == 0);
    entry = l4_lock_entry(&lock, 3);
    EXPECT(entry.seat == 2 && entry.kind == L4_TRANSFER && entry.thread == 3 && entry.receiver == 2 && entry.outcome == L4_DELIVERED && entry.ended_count == 1);
    entry = l4_lock_entry(&lock, 4);
    EXPECT(entry.kind == L4_START && entry.call.kind == L4_IPC && entry.call.to == id(3) && entry.word_count == 3 && entry.words[0] == 0x80);
    EXPECT(l4_lock_entry(&lock, 6).refusal == L4_OK && l4_lock_entry(&lock, 6).kind == L4_NONE);
    receipt = l4_lock_receipt(&lock, 3, 0);
    EXPECT(receipt.there == 1 && receipt.start == 1 && receipt.end == 5 && receipt.call.kind == L4_FAULT && receipt.call.address == 0x20123);
    EXPECT(receipt.reply.kind == L4_REPLY_ANSWERED && receipt.word_count == 0);
    EXPECT(l4_lock_receipt(&lock, 3, 1).there == 0 && l4_lock_receipt(&lock, 9, 0).there == 0);
    EXPECT(l4_lock_seat_of(&lock, 2).there == 1 && l4_lock_seat_of(&lock, 2).starts == 3 && l4_lock_seat_of(&lock, 9).there == 0);
    EXPECT(l4_lock_close(&lock, seats, 1).refusal == L4_X1 && l4_lock_close(&lock, seats, 1).detail == 1);
    EXPECT(l4_lock_close(&lock, seats, 4).refusal == L4_X2 && l4_lock_close(&lock, seats, 4).detail == 3);
    EXPECT(l4_lock_close(&lock, seats, 3).refusal == L4_OK && l4_lock_length(&lock).refusal == L4_B1);
    EXPECT(l4_lock_new(&lock, 1) == L4_OK);
    l4_lock_free(&lock);
    EXPECT(l4_lock_take(&lock, 1).refusal == L4_B1);
}

/* The answer ends the wait of this one thread, whose call fails with this ErrorCode. */
static int ends_wait(l4_kernel *kernel, l4_answer answer, uint32_t thread, uint32_t error) {
    l4_reply reply = l4_reply_of(kernel, thread);
    return answer.refusal == L4_OK && answer.outcome == L4_WAIT_ENDED && answer.ended_count == 1 && answer.ended[0] == thread
        && reply.kind == L4_REPLY_IPC && reply.tag == 0x8000 && reply.error == error && reply.from == L4_NILTHREAD && reply.word_count == 0
        && is_in(l4_state_of(kernel, thread), L4_STATE_RUNNING, 0, 0, 0);
}

/* The fault of a thread whose pager is root ends with this ErrorCode, whether or not root has received it. */
static void fault_ends(l4_kernel *kernel, uint32_t error) {
    l4_call fault = kind(L4_FAULT);
    l4_answer answer;
    fault.address = 0x5000;
    fault.access = L4_READ;
    EXPECT(plainly(kernel, 3, fault).ended_count == 0);
    if (error % 2 == 1) {
        EXPECT(plainly(kernel, 2, receive(0)).ended_count == 0 && l4_next(kernel).outcome == L4_DELIVERED);
    }
    answer = error < 4 ? l4_timeout(kernel, 3) : l4_cancel(kernel, 3);
    EXPECT(answer.outcome == L4_WAIT_ENDED && answer.ended_count == 1 && answer.ended[0] == 3);
    EXPECT(l4_reply_of(kernel, 3).kind == L4_REPLY_FAILED && l4_reply_of(kernel, 3).error == error);
}

/* The environment ends waits: of threads that receive, that send, that could go on at once, and that wait in faults. */
static void ended_waits(void) {
    static const uint32_t words[3] = {0x80, 0x20008, 0x100c7};
    l4_kernel kernel = L4_EMPTY;
    l4_call call = send(3);
    uint32_t error;
    EXPECT(l4_timeout(&kernel, 2).refusal == L4_B1 && l4_cancel(&kernel, 2).refusal == L4_B1);
    EXPECT(l4_boot(&kernel, 256) == L4_OK && plainly(&kernel, 2, create(3, 2)).refusal == L4_OK);
    /* a thread that runs, one that has made no call, and one that does not exist */
    EXPECT(l4_timeout(&kernel, 2).refusal == L4_K1 && l4_cancel(&kernel, 3).refusal == L4_K1 && l4_cancel(&kernel, 4).refusal == L4_K1);
    EXPECT(is_in(l4_state_of(&kernel, 3), L4_STATE_NEW, 0, 0, 0));
    EXPECT(plainly(&kernel, 3, receive(0x10)).ended_count == 0 && ends_wait(&kernel, l4_timeout(&kernel, 3), 3, 3));
    EXPECT(plainly(&kernel, 3, receive(0x10)).ended_count == 0 && ends_wait(&kernel, l4_cancel(&kernel, 3), 3, 7));
    EXPECT(l4_cancel(&kernel, 3).refusal == L4_K1);
    /* a call of sigma0 to thread 3 ends while it sends; its receive phase does not begin, so that thread 3 has no receiver */
    call.from = id(3);
    EXPECT(l4_start(&kernel, 1, &call, words, 3).ended_count == 0 && ends_wait(&kernel, l4_timeout(&kernel, 1), 1, 2));
    EXPECT(plainly(&kernel, 3, receive(0x10)).ended_count == 0 && l4_enabled(&kernel).kind == L4_NONE);
    /* the transfer of the call is enabled, and the wait of its sender ends first: no page is mapped */
    EXPECT(l4_start(&kernel, 1, &call, words, 3).ended_count == 0 && l4_enabled(&kernel).kind == L4_TRANSFER);
    EXPECT(ends_wait(&kernel, l4_cancel(&kernel, 1), 1, 6) && l4_enabled(&kernel).kind == L4_NONE && l4_transfer(&kernel, 1, 3).refusal == L4_K1);
    EXPECT(l4_mapping_of(&kernel, 2, 32).there == 0);
    /* the same call again: its message is delivered, and its wait for the answer ends */
    EXPECT(l4_start(&kernel, 1, &call, words, 3).ended_count == 0 && l4_next(&kernel).outcome == L4_DELIVERED);
    EXPECT(is_in(l4_state_of(&kernel, 1), L4_STATE_RECEIVING, id(3), 0, 0) && ends_wait(&kernel, l4_cancel(&kernel, 1), 1, 7));
    EXPECT(l4_mapping_of(&kernel, 2, 32).frame == 16);
    for (error = 2; error <= 7; error += error == 3 ? 3 : 1) {
        fault_ends(&kernel, error);
    }
    l4_free(&kernel);
}

/* The seat takes a reply with this ErrorCode, and then the entry that ended its call is a step of this kind. */
static void takes_error(l4_lock *lock, uint32_t seat, uint32_t error, uint32_t step) {
    const uint64_t last = l4_lock_length(lock).count - 1;
    const l4_entry entry = l4_lock_entry(lock, last);
    l4_reply reply;
    uint32_t ended[1] = {0};
    EXPECT(l4_lock_ended(lock, last, ended, 1).count == 1 && ended[0] == seat && l4_lock_poll(lock, seat) == 1);
    EXPECT(entry.kind == step && entry.thread == seat && entry.seat == 0 && entry.outcome == L4_WAIT_ENDED && entry.ended_count == 1);
    EXPECT(entry.ended[0] == seat && entry.receiver == 0 && entry.call.kind == 0 && entry.word_count == 0);
    reply = l4_lock_take(lock, seat);
    EXPECT(reply.kind == L4_REPLY_IPC && reply.tag == 0x8000 && reply.error == error && reply.word_count == 0);
    EXPECT(l4_lock_take(lock, seat).kind == L4_NONE && l4_lock_poll(lock, seat) == 0);
}

/* The waits of seats end, and the seats make their next calls. */
static void ended_waits_of_seats(void) {
    static const uint32_t words[2] = {1, 5}, seats[2] = {1, 2};
    l4_lock lock = L4_EMPTY;
    l4_receipt receipt;
    EXPECT(l4_lock_timeout(&lock, 2) == L4_B1 && l4_lock_cancel(&lock, 2) == L4_B1);
    EXPECT(l4_lock_new(&lock, 16) == L4_OK && l4_lock_give(&lock, 1) == L4_OK && l4_lock_give(&lock, 2) == L4_OK);
    EXPECT(l4_lock_timeout(&lock, 2) == L4_K1 && l4_lock_cancel(&lock, 3) == L4_K1 && l4_lock_length(&lock).count == 0);
    EXPECT(by_seat(&lock, 2, receive(0), no_words, 0).reply.kind == L4_NONE && l4_lock_timeout(&lock, 2) == L4_OK);
    /* the reply was not taken yet */
    EXPECT(by_seat(&lock, 2, receive(0), no_words, 0).refusal == L4_L3);
    takes_error(&lock, 2, 3, L4_TIMEOUT);
    EXPECT(by_seat(&lock, 2, receive(0), no_words, 0).reply.kind == L4_NONE && l4_lock_cancel(&lock, 2) == L4_OK);
    takes_error(&lock, 2, 7, L4_CANCEL);
    EXPECT(by_seat(&lock, 1, send(2), words, 2).reply.kind == L4_NONE && l4_lock_cancel(&lock, 1) == L4_OK && l4_lock_cancel(&lock, 1) == L4_K1);
    takes_error(&lock, 1, 6, L4_CANCEL);
    EXPECT(by_seat(&lock, 2, receive(0), no_words, 0).reply.kind == L4_NONE);
    EXPECT(by_seat(&lock, 1, send(2), words, 2).reply.error == 0 && l4_lock_take(&lock, 2).words[0] == 5);
    receipt = l4_lock_receipt(&lock, 2, 0);
    EXPECT(receipt.there == 1 && receipt.start == 0 && receipt.end == 1 && receipt.reply.error == 3 && receipt.call.from == L4_ANYTHREAD);
    receipt = l4_lock_receipt(&lock, 1, 0);
    EXPECT(receipt.there == 1 && receipt.start == 4 && receipt.end == 5 && receipt.reply.error == 6 && receipt.word_count == 2);
    EXPECT(l4_lock_seat_of(&lock, 2).starts == 3 && l4_lock_seat_of(&lock, 2).receipts == 3 && l4_lock_length(&lock).count == 9);
    EXPECT(l4_lock_close(&lock, seats, 2).refusal == L4_OK);
}

/* Kernels by pages of 1,024 bytes, and of other numbers of bytes. */
static void small_kernels(void) {
    static const uint32_t words[3] = {0x80, 0x20008, 0x100c7};
    l4_kernel kernel = L4_EMPTY;
    l4_call call = receive(0x10);
    uint32_t page;
    EXPECT(l4_boot_sized(&kernel, 0, 2048) == L4_B4 && l4_next_page(&kernel, 0, 0).refusal == L4_B1);
    EXPECT(l4_boot_sized(&kernel, 0, L4_SMALL_PAGE_BYTES) == L4_K6);
    EXPECT(l4_boot_sized(&kernel, 256, L4_SMALL_PAGE_BYTES) == L4_OK && l4_boot_sized(&kernel, 1, L4_PAGE_BYTES) == L4_B2);
    EXPECT(l4_boot_sized(&kernel, 1, 0) == L4_B4);
    EXPECT(l4_page_size_of(&kernel).refusal == L4_OK && l4_page_size_of(&kernel).page_bytes == L4_SMALL_PAGE_BYTES);
    EXPECT(plainly(&kernel, 2, call).refusal == L4_OK);
    call = send(2);
    EXPECT(l4_start(&kernel, 1, &call, words, 3).refusal == L4_OK && l4_next(&kernel).outcome == L4_DELIVERED);
    for (page = 0; page < 4; page++) {
        EXPECT(l4_mapping_of(&kernel, 1, 128 + page).frame == 64 + page);
    }
    EXPECT(l4_next_page(&kernel, 1, 0).page == 128 && l4_next_page(&kernel, 1, 132).there == 0);
    l4_free(&kernel);
    EXPECT(l4_boot_sized(&kernel, 256, L4_PAGE_BYTES) == L4_OK && l4_page_size_of(&kernel).page_bytes == L4_PAGE_BYTES);
    l4_free(&kernel);
}

/* Tables by such pages. */
static void small_tables(void) {
    static const uint32_t request[3] = {0xffa00002, 0x100c0, 0};
    l4_pager pager = L4_EMPTY;
    l4_sigma0 sigma0 = L4_EMPTY;
    l4_region served = {100, 20, 4, 5}, beyond = {L4_SMALL_SPACE_PAGES, 0, 1, 7};
    uint32_t fault[3];
    EXPECT(l4_pager_new_sized(&pager, 4095) == L4_B4 && l4_pager_add(&pager, &served) == L4_B1);
    EXPECT(l4_pager_new_sized(&pager, L4_SMALL_PAGE_BYTES) == L4_OK && l4_pager_new_sized(&pager, L4_SMALL_PAGE_BYTES) == L4_B2);
    EXPECT(l4_pager_add(&pager, &served) == L4_OK && l4_pager_add(&pager, &beyond) == L4_P4);
    fault_words(fault, 0x5678, L4_READ);
    EXPECT(gives(l4_pager_answer(&pager, fault, 3), 0x5400, 0x194a5));
    l4_pager_free(&pager);
    EXPECT(l4_sigma0_new_sized(&sigma0, 0, 1) == L4_B4 && l4_sigma0_new_sized(&sigma0, 0, L4_SMALL_PAGE_BYTES) == L4_K6);
    EXPECT(l4_sigma0_new_sized(&sigma0, 256, L4_SMALL_PAGE_BYTES) == L4_OK);
    EXPECT(gives(l4_sigma0_answer(&sigma0, 1, fault, 3), 0x5400, 0x54a7));
    EXPECT(gives(l4_sigma0_answer(&sigma0, 2, request, 3), 0x10000, 0x100c7));
    l4_sigma0_free(&sigma0);
}

/* Plans and checks by such pages. */
static void small_plans(void) {
    static uint32_t pages[L4_TOO_MANY];
    l4_region region = {16, 32, 1, 7}, whole = {0, 0, L4_SMALL_SPACE_PAGES, 7}, beyond = {L4_SMALL_SPACE_PAGES, 0, 1, 7};
    l4_region several = {0, 1, 40, 7}, long_region = {1, 0, 1985, 7};
    l4_plan plan = l4_plan_region_sized(&region, L4_SMALL_PAGE_BYTES);
    l4_part part = l4_plan_message_sized(&region, 0, L4_SMALL_PAGE_BYTES);
    EXPECT(plan.refusal == L4_OK && plan.items == 1 && plan.messages == 1);
    EXPECT(part.refusal == L4_OK && part.word_count == 3 && part.words[1] == 0x8008 && part.words[2] == 0x40a7 && part.page_count == 1 && part.pages[0] == 16);
    EXPECT(l4_plan_pages_sized(&region, pages, 1, L4_SMALL_PAGE_BYTES) == 1 && pages[0] == 16);
    EXPECT(l4_check_plan_sized(&region, part.words + 1, 2, part.pages, 1, L4_SMALL_PAGE_BYTES).refusal == L4_OK);
    EXPECT(l4_check_plan_sized(&region, part.words + 1, 2, part.pages, 1, L4_PAGE_BYTES).refusal == L4_C2);
    EXPECT(l4_check_plan_sized(&region, part.words + 1, 2, part.pages, 1, 3).refusal == L4_B4);
    part = l4_plan_message_sized(&region, 1, L4_SMALL_PAGE_BYTES);
    EXPECT(part.refusal == L4_N6 && part.messages == 1 && part.word_count == 0);
    part = l4_plan_message_sized(&whole, 0, L4_SMALL_PAGE_BYTES);
    EXPECT(part.refusal == L4_OK && part.word_count == 3 && part.words[1] == 0x8 && part.words[2] == 0x17 && part.pages[0] == 0);
    EXPECT(l4_plan_region_sized(&whole, L4_PAGE_BYTES).refusal == L4_N2 && l4_plan_region_sized(&beyond, L4_SMALL_PAGE_BYTES).refusal == L4_N2);
    part = l4_plan_message_sized(&several, 1, L4_SMALL_PAGE_BYTES);
    EXPECT(part.messages == 2 && part.words[0] == 0x480 && part.words[1] == 0x8009 && part.words[2] == 0x7ca7 && part.pages[0] == 31 && part.pages[8] == 39);
    part = l4_plan_message_sized(&several, 1, L4_PAGE_BYTES);
    EXPECT(part.messages == 2 && part.words[0] == 0x480 && part.words[1] == 0x20009 && part.words[2] == 0x1f0c7);
    pages[0] = 7;
    EXPECT(l4_plan_region_sized(&region, 0).refusal == L4_B4 && l4_plan_region_sized(&region, 0).messages == 0);
    EXPECT(l4_plan_message_sized(&region, 9, 0).refusal == L4_B4 && l4_plan_pages_sized(&region, pages, 1, 0) == 0 && pages[0] == 7);
    EXPECT(l4_plan_region_sized(&long_region, L4_SMALL_PAGE_BYTES).refusal == L4_N4);
    EXPECT(l4_plan_pages_sized(&long_region, pages, L4_TOO_MANY, L4_SMALL_PAGE_BYTES) == L4_TOO_MANY && pages[L4_TOO_MANY - 1] == 1985);
    EXPECT(l4_check_too_long_sized(&long_region, pages, L4_TOO_MANY, L4_SMALL_PAGE_BYTES).refusal == L4_OK);
    EXPECT(l4_check_too_long_sized(&long_region, pages, L4_TOO_MANY, 2048).refusal == L4_B4);
}

/* Root deletes thread 4 while 3 sends to it. The message is delivered before; or the send ends with ErrorCode 4, where 4 had begun to receive,
 * or had not and is stuck before its line 7. */
static const char plan[] =
    "# a comment\nthread 3 new nil\nthread 4 new nil\nunordered\ndelete 4\nsend 3 4 0x10001 5\nrecv 4 any 0\nfinally\nreply 3\nreply 4\n";

/* The order of the outcome has these lines. */
static int has_order(l4_orders *orders, size_t outcome, size_t count, uint64_t first, uint64_t second, uint64_t third) {
    uint64_t lines[3] = {0, 0, 9};
    l4_count told = l4_orders_lines(orders, outcome, lines, count);
    return told.refusal == L4_OK && told.count == count && lines[0] == first && lines[1] == second && lines[2] == third;
}

/* The outcome has these answers, and its witness begins and ends with the lines that are in no order. */
static int has_outcome(l4_orders *orders, size_t outcome, const char *answers, const char *turns) {
    char text[200], script[200];
    l4_count told = l4_orders_answers(orders, outcome, text, sizeof text), witness = l4_orders_witness(orders, outcome, script, sizeof script);
    size_t first = strlen("thread 3 new nil\nthread 4 new nil\n"), last = strlen("reply 3\nreply 4\n");
    EXPECT(told.refusal == L4_OK && told.count == strlen(answers) && strcmp(text, answers) == 0);
    EXPECT(witness.refusal == L4_OK && witness.count == strlen(script) && witness.count == first + strlen(turns) + last);
    EXPECT(strncmp(script, "thread 3 new nil\nthread 4 new nil\n", first) == 0 && strncmp(script + first, turns, strlen(turns)) == 0);
    return strcmp(script + first + strlen(turns), "reply 3\nreply 4\n") == 0;
}

static void found_orders(l4_orders *orders) {
    l4_found found = l4_orders_found(orders);
    char cut[4] = "xxx";
    EXPECT(found.refusal == L4_OK && found.ended == L4_ALL_ORDERS && found.outcomes == 3 && found.orders == 5 && found.states == 9);
    EXPECT(has_outcome(orders, 0, "3 ipc 00008000 4 nil\nline 6 refused K2\nstuck 4 7\n", "delete 4\nsend 3 4 0x10001 5\n"));
    EXPECT(has_outcome(orders, 1, "3 ipc 00000000 0 nil\nline 7 refused K2\n", "send 3 4 0x10001 5\nrecv 4 any 0\ndelete 4\n"));
    EXPECT(has_outcome(orders, 2, "3 ipc 00008000 4 nil\nline 7 refused K2\n", "recv 4 any 0\ndelete 4\nsend 3 4 0x10001 5\n"));
    EXPECT(has_order(orders, 0, 2, 5, 6, 9) && has_order(orders, 1, 3, 6, 7, 5) && has_order(orders, 2, 3, 7, 5, 6));
    EXPECT(l4_orders_lines(orders, 1, NULL, 0).count == 3 && l4_orders_lines(orders, 3, NULL, 0).count == 0);
    EXPECT(l4_orders_answers(orders, 1, cut, 2).count == 39 && cut[0] == '3' && cut[1] == 0 && cut[2] == 'x');
    EXPECT(l4_orders_answers(orders, 3, cut, 4).count == 0 && cut[0] == 0 && l4_orders_witness(orders, 3, cut, 4).count == 0);
    EXPECT(l4_orders_answers(orders, 0, NULL, 0).count == 49 && l4_orders_witness(orders, 0, NULL, 0).refusal == L4_OK);
}

/* Two threads with 34 lines each have C(68, 34) orders, which is more than 2^64 - 1, and 35 * 35 states. */
static void many_orders(void) {
    static const char number[] = "28453041475240576740";
    char test[1000] = "thread 3 new nil\nthread 4 new nil\nunordered\n", text[32], cut[4] = "xxx";
    l4_orders orders = L4_EMPTY;
    l4_found found;
    for (int line = 0; line < 68; line++) strcat(test, line < 34 ? "unmap 3 0 0\n" : "unmap 4 0 0\n");
    EXPECT(l4_orders_number(&orders, text, sizeof text).refusal == L4_B1);
    EXPECT(l4_orders_search(&orders, 4, test, strlen(test), 2000).refusal == L4_OK);
    found = l4_orders_found(&orders);
    EXPECT(found.ended == L4_ALL_ORDERS && found.outcomes == 1 && found.orders == UINT64_MAX && found.states == 1225);
    EXPECT(l4_orders_number(&orders, text, sizeof text).count == strlen(number) && strcmp(text, number) == 0);
    EXPECT(l4_orders_number(&orders, cut, 3).count == strlen(number) && strcmp(cut, "28") == 0 && l4_orders_number(&orders, NULL, 0).refusal == L4_OK);
    l4_orders_free(&orders);
    EXPECT(l4_orders_search(&orders, 4, test, strlen(test), 7).refusal == L4_OK && l4_orders_found(&orders).ended == L4_MOST_STATES);
    EXPECT(l4_orders_number(&orders, text, sizeof text).count == 0 && text[0] == 0);
    l4_orders_free(&orders);
}

/* One order has the answer that the first rule forbids, and not the one that the second rule demands. The third rule holds. */
static void broken_rules(void) {
    static const char ruled[] = "unordered\nsend 1 2 0x10000\nrecv 2 any 0\nfinally\nreply 2\nnever 2 ipc 00010000 0 1\nalways 2 waits\nalways 2 ipc 00010000 0 1\n";
    static const char broken[] = "never 2 ipc 00010000 0 1\nalways 2 waits\n";
    l4_orders orders = L4_EMPTY;
    char text[100], cut[6] = "xxxxx";
    EXPECT(l4_orders_broken(&orders, 0, text, 8).refusal == L4_B1);
    EXPECT(l4_orders_search(&orders, 1, ruled, strlen(ruled), 100).refusal == L4_OK && l4_orders_found(&orders).outcomes == 1);
    EXPECT(l4_orders_broken(&orders, 0, text, sizeof text).count == strlen(broken) && strcmp(text, broken) == 0);
    EXPECT(l4_orders_broken(&orders, 0, cut, 5).count == strlen(broken) && strcmp(cut, "neve") == 0 && cut[5] == 0);
    EXPECT(l4_orders_broken(&orders, 1, text, sizeof text).count == 0 && text[0] == 0);
    l4_orders_free(&orders);
}

/* The refusal, the line and the thread of a text that is not a plan. */
static int refuses(const char *text, uint32_t refusal, uint64_t line, uint32_t detail) {
    l4_orders orders = L4_EMPTY;
    l4_searched told = l4_orders_search(&orders, 8, text, strlen(text), 100);
    return told.refusal == refusal && told.line == line && told.detail == detail && l4_orders_found(&orders).refusal == L4_B1;
}

static void bad_plans(void) {
    EXPECT(refuses("unordered\nsned 1 2 0\n", L4_S1, 2, 0) && refuses("unordered\nsend 1\n", L4_S2, 2, 0) && refuses("unordered\nrecv 2 any 0", L4_S4, 2, 0));
    EXPECT(refuses("unordered\n\nunordered\n", L4_O1, 3, 0) && refuses("finally\n", L4_O1, 1, 0));
    EXPECT(refuses("show 2 0 1\nunordered\n", L4_O2, 1, 0) && refuses("unordered\nfinally\nrecv 2 any 0\n", L4_O3, 3, 0));
    EXPECT(refuses("unordered\nfinally\nsteps\n", L4_O4, 3, 0) && refuses("unordered\nrecv 9 any 0\n", L4_O5, 2, 9));
    EXPECT(refuses("recv 2 any 0\n", L4_O6, 0, 0) && refuses("", L4_O6, 0, 0));
    EXPECT(refuses("unordered\nfinally\nreply 2\nnever 2 wait\n", L4_O7, 4, 0) && refuses("#= 2 waits\nunordered\n", L4_O8, 1, 0));
}

static void orders_of_plans(void) {
    l4_orders orders = L4_EMPTY;
    l4_searched told;
    char text[8];
    l4_orders_free(&orders);
    EXPECT(l4_orders_found(&orders).refusal == L4_B1 && l4_orders_found(&orders).outcomes == 0);
    EXPECT(l4_orders_lines(&orders, 0, NULL, 0).refusal == L4_B1);
    EXPECT(l4_orders_answers(&orders, 0, text, 8).refusal == L4_B1 && l4_orders_witness(&orders, 0, text, 8).refusal == L4_B1);
    told = l4_orders_search(&orders, 16, plan, strlen(plan), 1000);
    EXPECT(told.refusal == L4_OK && told.line == 0 && told.detail == 0);
    found_orders(&orders);
    EXPECT(l4_orders_search(&orders, 0, plan, strlen(plan), 1000).refusal == L4_B2 && l4_orders_found(&orders).outcomes == 3);
    l4_orders_free(&orders);
    EXPECT(l4_orders_search(&orders, 0, "", 0, 9).refusal == L4_K6 && l4_orders_search(&orders, L4_MAX_FRAMES + 1, NULL, 0, 9).refusal == L4_K6);
    EXPECT(l4_orders_search_sized(&orders, 0, NULL, 0, 9, 2048).refusal == L4_B4);
    EXPECT(l4_orders_search_sized(&orders, 16, plan, strlen(plan), 1000, L4_SMALL_PAGE_BYTES).refusal == L4_OK);
    found_orders(&orders);
    l4_orders_free(&orders);
    EXPECT(l4_orders_search(&orders, 16, plan, strlen(plan), 2).refusal == L4_OK);
    EXPECT(l4_orders_found(&orders).ended == L4_MOST_STATES && l4_orders_found(&orders).orders == 0);
    l4_orders_free(&orders);
    l4_orders_free(&orders);
    EXPECT(l4_orders_found(&orders).refusal == L4_B1);
    bad_plans();
    broken_rules();
    many_orders();
}

/* The bytes are refused with this fault at this position, and the handle stays empty. */
static int is_no_checkpoint(const uint8_t *bytes, size_t length, uint32_t fault, uint64_t position) {
    l4_kernel kernel = L4_EMPTY;
    l4_checkpoint read = l4_checkpoint_read(&kernel, bytes, length);
    return read.refusal == L4_B6 && read.fault == fault && read.position == position && read.frames == 0 && l4_next(&kernel).refusal == L4_B1;
}

/* A checkpoint of a kernel in which root waits for a message and sigma0 sends one: 122 words after the heading, and a checksum. */
static void bad_checkpoints(uint8_t *bytes) {
    EXPECT(is_no_checkpoint(bytes, 551, L4_CHECKPOINT_CUT, 520) && is_no_checkpoint(bytes, 31, L4_CHECKPOINT_CUT, 0) && is_no_checkpoint(NULL, 0, L4_CHECKPOINT_CUT, 0));
    EXPECT(is_no_checkpoint(bytes, 553, L4_CHECKPOINT_EXTRA, 552));
    bytes[551] ^= 1;
    EXPECT(is_no_checkpoint(bytes, 552, L4_CHECKPOINT_CHECKSUM, 520));
    bytes[551] ^= 1;
    bytes[0] ^= 1;
    EXPECT(is_no_checkpoint(bytes, 552, L4_CHECKPOINT_MAGIC, 0));
    bytes[0] ^= 1;
    bytes[4] ^= 3;
    EXPECT(is_no_checkpoint(bytes, 552, L4_CHECKPOINT_VERSION, 4));
    bytes[4] ^= 3;
    bytes[8] = 0;
    EXPECT(is_no_checkpoint(bytes, 552, L4_CHECKPOINT_FRAMES, 8));
    bytes[8] = 16;
    bytes[13] ^= 1;
    EXPECT(is_no_checkpoint(bytes, 552, L4_CHECKPOINT_PAGE_SIZE, 12));
    bytes[13] ^= 1;
    bytes[23] = 0x81;
    EXPECT(is_no_checkpoint(bytes, 552, L4_CHECKPOINT_ENTRIES, 16));
    bytes[23] = 0;
}

static void checkpoints(void) {
    static const uint32_t words[2] = {1, 0x1234};
    static uint8_t bytes[600], again[600];
    l4_kernel kernel = L4_EMPTY, other = L4_EMPTY;
    l4_call call = receive(0);
    l4_checkpoint read;
    EXPECT(l4_checkpoint_write(&kernel, 16, 0, bytes, sizeof bytes).refusal == L4_B1 && bytes[0] == 0);
    EXPECT(l4_boot(&kernel, 16) == L4_OK);
    call.from = L4_SIGMA0_ID;
    EXPECT(l4_start(&kernel, 2, &call, words, 0).refusal == L4_OK);
    call = kind(L4_IPC);
    call.to = L4_ROOT_ID;
    EXPECT(l4_start(&kernel, 1, &call, words, 2).refusal == L4_OK);
    EXPECT(l4_checkpoint_write(&kernel, 16, 2, NULL, 0).count == 552);
    EXPECT(l4_checkpoint_write(&kernel, 16, 2, bytes, 4).count == 552 && memcmp(bytes, "LCP4", 4) == 0 && bytes[12] == 0);
    EXPECT(l4_checkpoint_write(&kernel, 16, 2, bytes, sizeof bytes).refusal == L4_OK && memcmp(bytes, "LCP4", 4) == 0 && bytes[552] == 0);
    read = l4_checkpoint_read(&other, bytes, 552);
    EXPECT(read.refusal == L4_OK && read.frames == 16 && read.entries == 2 && read.fault == 0 && read.position == 0);
    EXPECT(l4_checkpoint_read(&other, bytes, 552).refusal == L4_B2);
    EXPECT(l4_checkpoint_write(&other, 16, 2, again, sizeof again).count == 552 && memcmp(bytes, again, sizeof bytes) == 0);
    EXPECT(l4_next(&other).outcome == L4_DELIVERED && l4_reply_of(&other, 2).words[0] == 0x1234 && l4_reply_of(&kernel, 2).kind == L4_NONE);
    l4_free(&other);
    l4_free(&kernel);
    bad_checkpoints(bytes);
}

/* NULL with a count or room of 0, wherever a pointer and its count are passed. */
static void nulls(void) {
    static const uint32_t fault[3] = {0xffe40002, 0x21123, 0x1000};
    l4_region region = {4, 12, 12, 7};
    l4_pager pager = L4_EMPTY;
    l4_sigma0 sigma0 = L4_EMPTY;
    l4_kernel kernel = L4_EMPTY;
    l4_call call = receive(0);
    EXPECT(l4_refusal_code(L4_K1, NULL, 0) == 2 && l4_refusal_text(L4_K6, NULL, 0) == 44);
    EXPECT(l4_read_fault(NULL, 0).refusal == L4_M7 && l4_read_request(NULL, 0).refusal == L4_M7);
    EXPECT(l4_plan_pages(&region, NULL, 0) == 2 && l4_plan_pages_sized(&region, NULL, 0, L4_PAGE_BYTES) == 2);
    EXPECT(l4_check_plan(&region, NULL, 0, NULL, 0).refusal == L4_C2 && l4_check_plan_sized(&region, NULL, 0, NULL, 0, L4_SMALL_PAGE_BYTES).refusal == L4_C2);
    EXPECT(l4_check_too_long(&region, NULL, 0).refusal == L4_C5 && l4_check_too_long_sized(&region, NULL, 0, L4_PAGE_BYTES).refusal == L4_C5);
    EXPECT(l4_pager_new(&pager) == L4_OK && l4_pager_answer(&pager, NULL, 0).refusal == L4_M7);
    EXPECT(l4_sigma0_new(&sigma0, 8) == L4_OK && l4_sigma0_answer(&sigma0, 1, NULL, 0).refusal == L4_M7);
    EXPECT(l4_boot(&kernel, 8) == L4_OK && l4_start(&kernel, 1, &call, NULL, 0).refusal == L4_OK);
    call = send(1);
    EXPECT(l4_enter(&kernel, 2, &call, NULL, 0, NULL, 0).start.refusal == L4_M7);
    EXPECT(l4_enter(&kernel, 2, &call, fault, 3, NULL, 0).step_count == 1 && l4_reply_of(&kernel, 1).words[0] == 0x21123);
    call = kind(L4_UNMAP);
    EXPECT(l4_start(&kernel, 1, &call, NULL, 0).refusal == L4_U2);
    l4_free(&kernel);
    l4_sigma0_free(&sigma0);
    l4_pager_free(&pager);
}

static void nulls_of_locks(void) {
    l4_lock lock = L4_EMPTY;
    l4_call call = receive(0);
    EXPECT(l4_lock_new(&lock, 8) == L4_OK && l4_lock_close(&lock, NULL, 0).refusal == L4_OK);
    EXPECT(l4_lock_new(&lock, 8) == L4_OK && l4_lock_give(&lock, 2) == L4_OK);
    EXPECT(l4_lock_enter(&lock, 2, &call, NULL, 0).refusal == L4_OK);
    EXPECT(l4_lock_provenance(&lock, 0, 7, NULL, 0).there == 1 && l4_lock_check_provenance(&lock, 0, 7, NULL, 0).refusal == L4_OK);
    EXPECT(l4_lock_check_provenance(&lock, 0, 8, NULL, 0).refusal == L4_L7 && l4_lock_close(&lock, NULL, 0).refusal == L4_X1);
    l4_lock_free(&lock);
}

/* Members for later versions are written as 0. */
static void reserved(void) {
    static const uint32_t words[3] = {0x80, 0x20008, 0x100c7};
    l4_lock lock = L4_EMPTY;
    l4_kernel kernel = L4_EMPTY;
    l4_call call = receive(0x10);
    l4_step steps[1];
    l4_link link;
    l4_answer answer;
    l4_mapping mapping;
    l4_entry entry;
    l4_reply reply;
    memset(steps, 0xff, sizeof steps);
    memset(&link, 0xff, sizeof link);
    EXPECT(l4_boot(&kernel, 64) == L4_OK);
    answer = l4_start(&kernel, 2, &call, NULL, 0);
    EXPECT(answer.refusal == L4_OK && answer.reserved[0] == 0 && answer.reserved[1] == 0);
    answer = l4_start(&kernel, 2, &call, NULL, 0);
    EXPECT(answer.refusal == L4_K3 && answer.reserved[0] == 0 && answer.reserved[1] == 0);
    call = send(2);
    EXPECT(l4_enter(&kernel, 1, &call, words, 3, steps, 1).step_count == 1 && steps[0].reserved[0] == 0 && steps[0].reserved[1] == 0);
    reply = l4_reply_of(&kernel, 2);
    EXPECT(reply.kind == L4_REPLY_IPC && reply.reserved[0] == 0 && reply.reserved[1] == 0);
    mapping = l4_mapping_of(&kernel, 1, 32);
    EXPECT(mapping.there == 1 && mapping.reserved[0] == 0 && mapping.reserved[1] == 0);
    l4_free(&kernel);
    maps(&lock);
    EXPECT(l4_lock_provenance(&lock, 2, 32, &link, 1).count == 1 && link.reserved == 0);
    entry = l4_lock_entry(&lock, 0);
    EXPECT(entry.call.kind == L4_CREATE && entry.call.reserved[0] == 0 && entry.call.reserved[3] == 0);
    l4_lock_free(&lock);
}

/* The reply of this kind is written as this line, of thread 3. */
static int prints(uint32_t which, uint32_t error, const char *line) {
    char text[L4_MAX_WORDS * 9 + 80];
    l4_reply reply;
    memset(&reply, 0, sizeof reply);
    reply.kind = which;
    reply.error = error;
    return l4_reply_text(3, &reply, text, sizeof text) == strlen(line) && strcmp(text, line) == 0;
}

/* The lines of replies and steps, as docs/user-guide.md has them. */
static void lines_of_text(void) {
    static const uint32_t words[3] = {0x80, 0x20008, 0x100c7};
    l4_kernel kernel = L4_EMPTY;
    l4_call call = receive(0x10);
    l4_step steps[1];
    l4_reply reply;
    char text[64], cut[8] = "xxxxxxx";
    EXPECT(l4_boot(&kernel, 256) == L4_OK && plainly(&kernel, 2, call).refusal == L4_OK);
    call = send(2);
    EXPECT(l4_enter(&kernel, 1, &call, words, 3, steps, 1).step_count == 1);
    EXPECT(l4_step_text(steps, text, sizeof text) == 17 && strcmp(text, "transfer 1 2 done") == 0);
    reply = l4_reply_of(&kernel, 2);
    EXPECT(l4_reply_text(2, &reply, text, sizeof text) == 36 && strcmp(text, "2 ipc 00000080 0 1 00020008 000100c7") == 0);
    EXPECT(l4_reply_text(2, &reply, cut, 6) == 36 && strcmp(cut, "2 ipc") == 0 && cut[6] == 'x' && l4_reply_text(2, &reply, NULL, 0) == 36);
    reply = l4_reply_of(&kernel, 1);
    EXPECT(l4_reply_text(1, &reply, text, sizeof text) == 20 && strcmp(text, "1 ipc 00000000 0 nil") == 0);
    call.timeouts = L4_ZERO_TIMEOUT << 16;
    EXPECT(l4_enter(&kernel, 1, &call, words, 3, steps, 1).step_count == 1);
    EXPECT(l4_step_text(steps, text, sizeof text) == 8 && strcmp(text, "expire 1") == 0);
    steps[0].kind = L4_TIMEOUT;
    EXPECT(l4_step_text(steps, text, sizeof text) == 9 && strcmp(text, "timeout 1") == 0);
    steps[0].kind = L4_CANCEL;
    EXPECT(l4_step_text(steps, text, sizeof text) == 8 && strcmp(text, "cancel 1") == 0);
    steps[0] = l4_enabled(&kernel);
    EXPECT(l4_step_text(steps, text, sizeof text) == 0 && text[0] == 0);
    EXPECT(prints(L4_NONE, 0, "") && prints(L4_REPLY_HIT, 0, "3 fault hit") && prints(L4_REPLY_ANSWERED, 0, "3 fault answered"));
    EXPECT(prints(L4_REPLY_FAILED, 9, "3 fault failed 9") && prints(L4_REPLY_UNMAPPED, 0, "3 unmap ok") && prints(L4_REPLY_CONTROLLED, 0, "3 control ok"));
    EXPECT(prints(L4_REPLY_GONE, 0, "3 gone") && prints(8, 0, ""));
    l4_free(&kernel);
}

/* What l4_judge finds about this answer to a step; the line that was expected is written to text. */
static l4_judgement judge(l4_kernel *kernel, const char *step, const char *found, char text[32]) {
    memset(text, 'x', 32);
    return l4_judge(kernel, step, strlen(step), found, strlen(found), text, 32);
}

static int agrees(l4_kernel *kernel, const char *step, const char *found) {
    char text[32];
    l4_judgement seen = judge(kernel, step, found, text);
    return seen.refusal == L4_OK && seen.verdict == L4_AGREES && seen.place == 0 && seen.length == 0 && text[0] == 0;
}

static int differs(l4_kernel *kernel, const char *step, const char *found, uint64_t place, const char *expected) {
    char text[32];
    l4_judgement seen = judge(kernel, step, found, text);
    return seen.refusal == L4_OK && seen.verdict == L4_DIFFERS && seen.place == place && seen.length == strlen(expected) && strcmp(text, expected) == 0;
}

static int is_no_step(l4_kernel *kernel, const char *step) {
    char text[32];
    l4_judgement seen = judge(kernel, step, "started", text);
    return seen.refusal == L4_B5 && seen.verdict == 0 && seen.enabled.kind == L4_NONE && text[0] == 'x';
}

/* Lines of a step list and their answers. */
static void executes(void) {
    l4_kernel kernel = L4_EMPTY;
    char text[64] = "x";
    EXPECT(l4_execute(&kernel, "enabled", 7, text, sizeof text).refusal == L4_B1 && text[0] == 'x');
    EXPECT(l4_boot(&kernel, 256) == L4_OK && l4_execute(&kernel, "start 1 ipc 0x8001 0 0 0 0x70000", 32, NULL, 0).count == 8);
    EXPECT(l4_execute(&kernel, "trnsfer 1 2", 11, text, sizeof text).refusal == L4_B5 && text[0] == 'x');
    EXPECT(l4_execute(&kernel, NULL, 0, text, sizeof text).refusal == L4_B5 && l4_state_of(&kernel, 1).state == L4_STATE_SENDING);
    EXPECT(l4_execute(&kernel, "transfer 1 2", 12, text, sizeof text).count == 11 && strcmp(text, "refused K1\n") == 0);
    EXPECT(l4_execute(&kernel, "start 2 ipc 0 0xffffffff 0 0", 28, text, 4).count == 8 && strcmp(text, "sta") == 0 && text[4] == 's');
    EXPECT(l4_execute(&kernel, "transfer 1 2", 12, text, sizeof text).count == 57);
    EXPECT(strcmp(text, "done\n1 ipc 00000000 0 00000000\n2 ipc 00070000 0 00004001\n") == 0 && l4_enabled(&kernel).kind == L4_NONE);
    EXPECT(l4_execute(&kernel, "reply 2", 7, text, sizeof text).count == 24 && strcmp(text, "ipc 00070000 0 00004001\n") == 0);
    l4_free(&kernel);
}

/* Another kernel's answers are compared as `l4 judge` compares them. */
static void judges(void) {
    l4_kernel kernel = L4_EMPTY;
    l4_judgement seen;
    char text[32];
    EXPECT(judge(&kernel, "enabled", "", text).refusal == L4_B1 && text[0] == 'x');
    EXPECT(l4_boot(&kernel, 256) == L4_OK);
    EXPECT(agrees(&kernel, "start 1 ipc 0x8001 0 0 0 0x70000", "started"));
    EXPECT(agrees(&kernel, "enabled", "enabled none\n"));
    EXPECT(differs(&kernel, "start 2 ipc 0 0xffffffff 0 0", "", 0, "started") && differs(&kernel, "enabled", "", 0, "enabled transfer 1 2"));
    seen = judge(&kernel, "transfer 2 1", "done\n", text);
    EXPECT(seen.refusal == L4_OK && seen.verdict == L4_NOT_ENABLED && seen.place == 0 && seen.length == 10 && strcmp(text, "refused K1") == 0);
    EXPECT(seen.enabled.kind == L4_TRANSFER && seen.enabled.thread == 1 && seen.enabled.receiver == 2 && seen.reserved[0] == 0 && seen.reserved[1] == 0);
    EXPECT(agrees(&kernel, "transfer 2 1", "refused K1"));
    EXPECT(differs(&kernel, "transfer 2 1", "refused K1\ndone", 1, ""));
    EXPECT(is_no_step(&kernel, "trnsfer 1 2") && is_no_step(&kernel, "transfer 1 2\n") && is_no_step(&kernel, "# done") && is_no_step(&kernel, ""));
    EXPECT(l4_judge(&kernel, NULL, 0, NULL, 0, NULL, 0).refusal == L4_B5 && l4_enabled(&kernel).kind == L4_TRANSFER);
    EXPECT(differs(&kernel, "transfer 1 2", "done\n?\n2 ipc 00070000 0 00000000", 2, "2 ipc 00070000 0 00004001"));
    EXPECT(l4_enabled(&kernel).kind == L4_NONE && l4_reply_of(&kernel, 2).from == L4_SIGMA0_ID);
    EXPECT(agrees(&kernel, "reply 2", "?") && differs(&kernel, "reply 2", "\n", 0, "ipc 00070000 0 00004001"));
    EXPECT(differs(&kernel, "reply 2", "ipc 00070000 0 00004001\nmore", 1, ""));
    EXPECT(differs(&kernel, "start 2 create 0xc001 0x8001 0", "started\n", 1, "2 controlled"));
    memset(text, 'x', sizeof text);
    seen = l4_judge(&kernel, "space 3", 7, "none", 4, text, 6);
    EXPECT(seen.verdict == L4_DIFFERS && seen.length == 7 && strcmp(text, "space") == 0 && text[6] == 'x');
    EXPECT(l4_judge(&kernel, "space 3", 7, "none", 4, NULL, 0).length == 7);
    l4_free(&kernel);
}

/* Each code with its line, and how texts are cut. */
static void texts(int shows) {
    char code[160], line[160], cut[3] = {'x', 'x', 'x'};
    uint32_t letter, digit, found = 0;
    for (letter = 'A'; letter <= 'Z'; letter++) {
        for (digit = '0'; digit <= 'z'; digit++) {
            uint32_t refusal = letter << 8 | digit;
            size_t length = l4_refusal_code(refusal, code, sizeof code);
            EXPECT((length == 0) == (l4_refusal_text(refusal, line, sizeof line) == 0));
            if (length > 0) {
                found++;
                EXPECT(strlen(code) == length && (uint32_t)code[0] == letter && (uint32_t)code[1] == digit);
                if (shows) {
                    printf("%s %s\n", code, line);
                }
            }
        }
    }
    EXPECT(found == 66);
    EXPECT(l4_refusal_code(L4_OK, code, sizeof code) == 0 && code[0] == 0);
    EXPECT(l4_refusal_code(0x10000 | L4_K1, code, sizeof code) == 0);
    EXPECT(l4_refusal_code(L4_K1, cut, 2) == 2 && cut[0] == 'K' && cut[1] == 0 && cut[2] == 'x');
    EXPECT(l4_refusal_code(L4_NO_MEMORY, cut, 0) == 8 && cut[0] == 'K');
}

int main(int count, char **words) {
    int shows = count > 1 && strcmp(words[1], "codes") == 0;
    l4_kernel kernel = L4_EMPTY;
    empty_handles();
    boots();
    empty_tables();
    pagers();
    sigma0s();
    EXPECT(l4_boot(&kernel, 256) == L4_OK);
    delivers(&kernel);
    calls(&kernel);
    refusals(&kernel);
    enters(&kernel);
    l4_free(&kernel);
    states();
    copies();
    mappings();
    descendants();
    readers();
    plans();
    small_kernels();
    small_tables();
    small_plans();
    empty_locks();
    empty_lock_queries();
    locked_queries();
    locks();
    ended_waits();
    ended_waits_of_seats();
    provenance();
    segments();
    orders_of_plans();
    checkpoints();
    nulls();
    nulls_of_locks();
    reserved();
    lines_of_text();
    executes();
    judges();
    EXPECT(l4_version() == L4_VERSION && L4_VERSION == 1000);
    texts(shows);
    return failures == 0 ? 0 : 1;
}
