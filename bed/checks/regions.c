/* Compares the plans of include/l4/region.h with those of libl4, which are proved to be the shortest. */
#include <l4.h>
#include <stdio.h>
#include <stdlib.h>
#include <string.h>
#pragma GCC diagnostic ignored "-Wint-to-pointer-cast"
#pragma GCC diagnostic ignored "-Wpointer-to-int-cast"
#include <l4/region.h>

L4_Word_t L4_TheKip;

static int is_same(const l4_region *region) {
    L4_Region_t rest = L4_Region(region->source * 4096, region->target * 4096, region->count * 4096, region->rights);
    uint32_t number = 0;
    while (!L4_IsRegionDone(&rest)) {
        l4_part part = l4_plan_message(region, number++);
        L4_Msg_t message;
        L4_MsgClear(&message);
        L4_MsgAppendRegion(&message, &rest);
        if (part.refusal != L4_OK || memcmp(part.words, message.raw, part.word_count * sizeof *part.words) != 0)
            return 0;
    }
    return number == l4_plan_region(region).messages;
}

int main(void) {
    uint32_t k, plans = 0;
    srand(1);
    for (k = 0; k < 20000; k++) {
        l4_region region;
        uint32_t most = k % 3 == 0 ? 0x40000u : 300u;
        region.source = (uint32_t)rand() % 0xc0000u;
        region.target = k % 2 == 0 ? (region.source & 0xffffu) | ((uint32_t)rand() % 8 << 16) : (uint32_t)rand() % 0xc0000u;
        region.count = 1 + (uint32_t)rand() % most;
        region.rights = 1 + (uint32_t)rand() % 7;
        if (l4_plan_region(&region).refusal != L4_OK)
            continue;
        if (!is_same(&region)) {
            printf("the plan of %u %u %u %u is not that of libl4\n", region.source, region.target, region.count, region.rights);
            return 1;
        }
        plans++;
    }
    printf("%s\n", plans > 10000 ? "plans are the same" : "too few plans were compared");
    return plans > 10000 ? 0 : 1;
}
