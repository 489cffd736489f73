# Where a guest begins: it calls main(argc, argv) and hands the answer to exit. At the entry argc stands at rsp, and argv
# right above it (System V x86-64 psABI, 3.4.1). It takes the place of a C library's start code.
        .text
        .globl  _start
        .type   _start, @function
_start:
        xorl    %ebp, %ebp
        movq    (%rsp), %rdi
        leaq    8(%rsp), %rsi
        andq    $-16, %rsp
        call    main
        movl    %eax, %edi
        call    exit

        .section .note.GNU-stack, "", @progbits
