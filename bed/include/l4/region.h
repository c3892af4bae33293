/* Delegates a region of pages by its shortest plan, message by message. (This header is not in the manual.)
 *
 *     L4_Region_t rest = L4_Region(source, target, pages * 4096, L4_Readable);
 *     while (!L4_IsRegionDone(&rest)) {
 *         L4_MsgClear(&message);
 *         L4_MsgAppendRegion(&message, &rest);
 *         L4_MsgLoad(&message);
 *         L4_Send(receiver);
 *     }
 *
 * or, if the messages have no other words, L4_SendRegion(receiver, &rest). */
#ifndef L4_REGION_H
#define L4_REGION_H

#include <l4/ipc.h>
#include <l4/message.h>
#include <l4/space.h>

#define L4_REGION_PAGE_LOG 12
#define L4_REGION_LAST_LOG 31

/* The rest of a region: the pages from `source` on of the sender go to the pages from `target` on of the receiver. Addresses and size are in
 * bytes, and multiples of the page size. */
typedef struct {
    L4_Word_t source;
    L4_Word_t target;
    L4_Word_t bytes;
    L4_Word_t rights;
} L4_Region_t;

L4_BEGIN_C

L4_INLINE L4_Region_t L4_Region(L4_Word_t source, L4_Word_t target, L4_Word_t bytes, L4_Word_t rights) {
    L4_Region_t region;
    region.source = source;
    region.target = target;
    region.bytes = bytes;
    region.rights = rights;
    return region;
}

L4_INLINE L4_Bool_t L4_IsRegionDone(const L4_Region_t *rest) {
    return rest->bytes == 0;
}

/* Returns the first map item of the shortest plan: the largest block that begins here, is aligned at both addresses, and fits. */
L4_INLINE L4_MapItem_t L4_RegionItem(const L4_Region_t *rest) {
    int log = L4_REGION_PAGE_LOG;
    while (log < L4_REGION_LAST_LOG && ((rest->source | rest->target) & ((2u << log) - 1)) == 0 && rest->bytes >> log >= 2)
        log++;
    return L4_MapItem(L4_FpageAddRights(L4_FpageLog2(rest->source, log), rest->rights), rest->target);
}

/* Appends as many items as the message has room for, and advances the rest of the region. Returns the number of items. */
L4_INLINE L4_Word_t L4_MsgAppendRegion(L4_Msg_t *msg, L4_Region_t *rest) {
    L4_Word_t items = 0;
    while (rest->bytes != 0 && (msg->raw[0] & 0x3f) + (msg->raw[0] >> 6 & 0x3f) + 2 <= 63) {
        L4_MapItem_t item = L4_RegionItem(rest);
        L4_Word_t bytes = 1u << (item.raw[1] >> 4 & 0x3f);
        L4_MsgAppendMapItem(msg, item);
        rest->source += bytes;
        rest->target += bytes;
        rest->bytes -= bytes;
        items++;
    }
    return items;
}

/* Sends the rest of the region in as few messages as possible. Stops at the first that fails, and returns the last tag. */
L4_INLINE L4_MsgTag_t L4_SendRegion(L4_ThreadId_t to, L4_Region_t *rest) {
    L4_MsgTag_t tag = L4_Niltag;
    while (rest->bytes != 0 && L4_IpcSucceeded(tag)) {
        L4_Msg_t message;
        L4_MsgClear(&message);
        L4_MsgAppendRegion(&message, rest);
        L4_MsgLoad(&message);
        tag = L4_Send(to);
    }
    return tag;
}

L4_END_C

#endif
