/* Each of these programs, by its thread number, tries to reach what is not its own: other threads by the kernel's calls, and the host or the bed by
 * odd instructions and addresses. The first one waits for a message, and says from whom it came. */
#include "children.h"

#define LAST_PAGE ((char *)0xfffffff0u)

static void end(void) {
    L4_Set_MsgTag(L4_Niltag);
    L4_Send(L4_Pager());
}

static void show_error(const char *what, L4_Word_t result) {
    print_number(what, result, "");
    print_number(", ErrorCode ", L4_ErrorCode(), "\n");
    end();
}

static void witness(void) {
    L4_ThreadId_t from;
    L4_Wait(&from);
    print_number("attacker: a message from thread ", L4_ThreadNo(from), "\n");
    end();
}

static void forge_id(void) {
    L4_Set_Tcr(L4_TCR_MY_GLOBAL_ID, L4_GlobalId(2, 1).raw);
    print_number("attacker: says that it is thread ", L4_ThreadNo(L4_Myself()), "\n");
    L4_Set_MsgTag(L4_Niltag);
    L4_Send(child_id(0));
    end();
}

static void create_thread(void) {
    L4_ThreadId_t id = L4_GlobalId(200, 1);
    show_error("attacker: creates a thread: ", L4_ThreadControl(id, id, L4_Myself(), L4_nilthread, (void *)0xffffffffu));
}

static void delete_root(void) {
    show_error("attacker: deletes root: ", L4_ThreadControl(L4_GlobalId(2, 1), L4_nilthread, L4_nilthread, L4_nilthread, (void *)0xffffffffu));
}

static void take_frames(void) {
    L4_ThreadId_t sigma0 = L4_GlobalId(1, 1);
    print_word("attacker: root's first page is given: ", L4_Sigma0_GetPage(sigma0, L4_FpageLog2(0x20000, PAGE_LOG)).raw, "");
    print_word(", all pages: ", L4_Sigma0_GetPage(sigma0, L4_FpageLog2(0, 22)).raw, "");
    print_word(", a free one: ", L4_Sigma0_GetPage(sigma0, L4_FpageLog2(0x3f0000, PAGE_LOG)).raw, "\n");
    end();
}

static void map_all(void) {
    L4_Msg_t message;
    L4_MsgClear(&message);
    L4_MsgAppendMapItem(&message, L4_MapItem(L4_FpageAddRights(L4_CompleteAddressSpace, L4_FullyAccessible), 0));
    L4_MsgLoad(&message);
    show_error("attacker: maps its space to root: ", L4_IpcSucceeded(L4_Send(L4_Pager())));
}

static void send_too_much(void) {
    L4_Set_MsgTag(L4_MsgTagOfWord(0x3f | 0x3f << 6));
    show_error("attacker: sends 127 words: ", L4_IpcSucceeded(L4_Call(L4_Pager())));
}

/* The program does not continue behind these instructions. */
#define EXECUTE(text) __asm__ volatile(text "\n\tnop\n\tnop\n\tnop")

static void handle_itself(L4_ThreadId_t handler) {
    L4_Set_ExceptionHandler(handler);
    EXECUTE("ud2");
}

int main(void) {
    switch (L4_ThreadNo(L4_Myself())) {
    case 3: witness(); return 0;
    case 4: forge_id(); return 0;
    case 5: create_thread(); return 0;
    case 6: delete_root(); return 0;
    case 7: take_frames(); return 0;
    case 8: map_all(); return 0;
    case 9: send_too_much(); return 0;
    case 10: handle_itself(L4_Myself()); break;
    case 11: handle_itself(L4_GlobalId(999, 7)); break;
    case 12: L4_KDB_PrintString(LAST_PAGE); break;
    case 13: EXECUTE("xorl %eax, %eax\n\tattack_stack: movl %eax, %ss"); break;
    case 14: EXECUTE("movl $0xffffffff, %esp\n\tpushl %eax"); break;
    case 15: EXECUTE("movl $0xfffffffd, %eax\n\tjmp *%eax"); break;
    case 16: EXECUTE("movl $0x3f, %eax\n\tattack_task: ltr %ax"); break;
    case 17: EXECUTE("pushf\n\torl $0x4000, (%esp)\n\tpopf\n\tattack_return: iret"); break; /* the flag NT */
    case 18: EXECUTE("xorl %ecx, %ecx\n\tattack_register: rdmsr"); break;
    case 19: EXECUTE("std\n\txorl %edi, %edi\n\tmovl $0xffffffff, %ecx\n\trep stosb"); break;
    case 20: EXECUTE("xorl %eax, %eax\n\tlock cmpxchg8b (%eax)"); break;
    case 21: EXECUTE("attack_lock: .byte 0xf0, 0x0f, 0xc7, 0xc8"); break; /* lock cmpxchg8b eax */
    case 22: EXECUTE("movl $0xbfff0ff0, %esp\n\tpushl $1"); break;
    case 23: EXECUTE("attack_control: movl %eax, %cr0"); break;
    default: return 0;
    }
    print("attacker: it continues, which is wrong\n");
    return 0;
}
