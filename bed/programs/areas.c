/* Sets the areas of a space twice, and prints the memory descriptors. */
#include "children.h"

static void set(const char *what, L4_Fpage_t kip, L4_Fpage_t utcbs) {
    L4_Word_t old, result = L4_SpaceControl(child_id(0), 0, kip, utcbs, L4_nilthread, &old);
    print_number(what, result, "");
    print_number(", ErrorCode ", result ? L4_ErrOk : L4_ErrorCode(), "\n");
}

int main(void) {
    L4_Fpage_t kip = L4_FpageLog2(CHILD_KIP, PAGE_LOG), utcbs = L4_FpageLog2(CHILD_UTCBS, PAGE_LOG + 1), other = L4_FpageLog2(0x10000, PAGE_LOG);
    const void *page = L4_GetKernelInterface();
    L4_Word_t k, info = L4_BootInfo(page);
    demand(L4_ThreadControl(child_id(0), child_id(0), L4_Myself(), L4_nilthread, (void *)0xffffffffu), "the thread cannot be created");
    set("areas: the first time ", kip, utcbs);
    set("areas: again ", kip, utcbs);
    set("areas: nil ", L4_Nilpage, L4_Nilpage);
    set("areas: another interface page ", other, utcbs);
    set("areas: other UTCBs ", kip, other);
    set("areas: fewer UTCBs ", kip, L4_FpageLog2(CHILD_UTCBS, PAGE_LOG));
    for (k = 0; k < L4_NumMemoryDescriptors(page); k++) {
        const L4_MemoryDesc_t *memory = L4_MemoryDesc(page, k);
        print_number("areas: memory of type ", L4_MemoryDescType(memory), "");
        print_word(" from ", L4_MemoryDescLow(memory), "");
        if (L4_MemoryDescHigh(memory) == info + PAGE - 1)
            print(" to the end of the boot info\n");
        else
            print_word(" to ", L4_MemoryDescHigh(memory), "\n");
    }
    L4_KDB_Enter("done");
    return 0;
}
