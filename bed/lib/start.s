# The start of a program: sets its stack, looks up the kernel interface page, and calls main. A thread whose main returns waits for ever.
        .intel_syntax noprefix
        .globl _start, L4_TheKip

        .set STACK_BYTES, 8192

        .text
_start:
        mov     esp, offset stack_end
        .byte   0xf0, 0x90              # lock; nop: the address of the kernel interface page
        mov     L4_TheKip, eax
        call    main
        mov     eax, L4_TheKip
        mov     ebp, [eax + 0xe0]       # the offset of the entry of Ipc
        add     ebp, eax
end:
        xor     eax, eax                # send nothing, and receive from the thread itself
        xor     ecx, ecx
        mov     edi, gs:[0]
        mov     edx, [edi - 4 * 15]     # its own id
        xor     esi, esi
        call    ebp
        jmp     end

        .data
        .align  4
L4_TheKip:
        .long   0

        .bss
        .align  16
        .skip   STACK_BYTES
stack_end:

        .section .note.GNU-stack, "", @progbits
