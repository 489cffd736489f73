# The store-buffer test. Each of two threads stores 1 to a variable of its own and then reads the other's. Main writes the two
# digits that were read, its own first: 00 is an outcome that a machine with store buffers has and an interleaving of the
# four accesses hasn't, since each read then passes the write before it.
        .bss
        .balign 8
x:      .zero   4
y:      .zero   4
thread: .zero   8
seen:   .zero   8

        .data
line:   .ascii  "..\n"

        .text
        .globl  main
        .type   main, @function
main:
        pushq   %rbx
        leaq    thread(%rip), %rdi
        xorl    %esi, %esi
        leaq    other(%rip), %rdx
        xorl    %ecx, %ecx
        call    pthread_create

        movl    $1, x(%rip)
        movl    y(%rip), %ebx

        movq    thread(%rip), %rdi
        leaq    seen(%rip), %rsi
        call    pthread_join
        addl    $'0', %ebx
        movb    %bl, line(%rip)
        movb    seen(%rip), %al
        addb    $'0', %al
        movb    %al, line+1(%rip)
        movl    $1, %edi
        leaq    line(%rip), %rsi
        movl    $3, %edx
        call    write
        xorl    %eax, %eax
        popq    %rbx
        ret

        .type   other, @function
other:
        movl    $1, y(%rip)
        movl    x(%rip), %eax
        ret

        .section .note.GNU-stack, "", @progbits
