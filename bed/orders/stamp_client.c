/* Reads the time stamp of the processor, which would differ in each replay. */
#include "unordered.h"

int main(void) {
    wait_for_go();
    __asm__ volatile("rdtsc" : : : "eax", "edx");
    return 0;
}
