# mov edi, 7, and a jump to a stub that bears the name of the library's exit.
# The stub's body never runs: the recompiler carries out the call itself.
        .intel_syntax noprefix
        .text
        .globl  _start
_start:
        mov     edi, 7
        {disp32} jmp exit

        .globl  exit
        .type   exit, @function
        .p2align 4
exit:
        ud2
