/* Each of these programs, by its thread number, executes an instruction at which engines differ. docs/run-your-l4-program.md has the table. */
#include "text.h"
#include <l4/thread.h>

static L4_Word_t word;

int main(void) {
    L4_Word_t number = L4_ThreadNo(L4_Myself());
    switch (number) {
    case 3: __asm__ volatile("inb $0x80, %%al" : : : "eax"); break;
    case 4: __asm__ volatile("outb %%al, $0x80" : : "a"(0)); break;
    case 5: __asm__ volatile(".byte 0xf0\n\tcmpl %%eax, %0" : : "m"(word), "a"(0) : "cc"); break; /* lock cmp */
    case 6: __asm__ volatile("popcnt %%eax, %%eax" : : : "eax", "cc"); break;
    case 7: __asm__ volatile("pushf\n\torl $0x40000, (%%esp)\n\tpopf\n\tmovl 1(%%esp), %%eax" : : : "eax", "cc", "memory"); break; /* alignment check */
    case 8: __asm__ volatile("xorl %%eax, %%eax\n\tmovl %%eax, %%gs\n\tmovl %%gs:0, %%eax" : : : "eax", "cc"); break;
    case 9: __asm__ volatile(".byte 0xf1"); break; /* int1 */
    case 10: __asm__ volatile("sysenter" : : : "eax", "ecx", "edx", "memory"); break;
    case 11: __asm__ volatile("syscall" : : : "eax", "ecx", "edx", "memory"); break;
    case 12: __asm__ volatile("pushf\n\torl $0x100, (%%esp)\n\tpopf\n\tnop" : : : "cc", "memory"); break; /* trap flag */
    case 13: __asm__ volatile("xgetbv" : : "c"(0) : "eax", "edx"); break;
    case 14: __asm__ volatile("rdrand %%eax" : : : "eax", "cc"); break;
    case 15: __asm__ volatile("vpxor %%ymm0, %%ymm0, %%ymm0" : : : "memory"); break; /* AVX2 */
    case 16: __asm__ volatile("rdtsc" : : : "eax", "edx"); break;
    case 17: __asm__ volatile("wrpkru\n\tmovl %0, %%eax" : : "m"(word), "a"(0xffffffffu), "c"(0), "d"(0) : "memory"); break; /* forbids all pages */
    case 18: __asm__ volatile("rdpmc" : : "c"(0) : "eax", "edx"); break;
    default: __asm__ volatile("movbe %0, %%eax" : : "m"(word) : "eax"); break;
    }
    print_number("differences: instruction ", number, " is executed\n");
    return 0;
}
