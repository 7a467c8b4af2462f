# Raises 3 to the power SECRET, of 16 bits, modulo 1,000,003, by squaring, and by multiplying for each bit that is 1: the code that
# multiplies has a page of its own, and when it is fetched tells the bits. The power is put out.
# tools/image links it, by --define SECRET=N with another secret. All numbers are 64 bits (movabs), all displacements 32 ({disp32}).
        .intel_syntax noprefix
        .set    MODULUS, 1000003
        .ifndef SECRET
        .set    SECRET, 0xb00d
        .endif
        .globl  _start
_start: movabs  rsp, offset stack
        movabs  rbx, offset secret
        {disp32} mov rbx, [rbx]         # the bits that are left, the next one on top
        movabs  r8, MODULUS
        movabs  r9, 3
        movabs  r10, 1                  # the power so far
        movabs  r11, 16                 # how many bits are left
        movabs  r12, 1
        movabs  r13, 0x8000
next:   mov     rax, r10
        imul    rax, r10
        movabs  rdx, 0
        div     r8
        mov     r10, rdx
        mov     rcx, rbx
        and     rcx, r13
        {disp32} je skip
        call    multiply
skip:   add     rbx, rbx
        sub     r11, r12
        {disp32} jne next
        mov     rsi, r10
        movabs  rdi, 1
        movabs  rax, 4
        enclu
        movabs  rsi, 0
        movabs  rdi, 0
        movabs  rax, 4
        enclu

        .skip   4096 - (. - _start), 0x90
multiply:
        mov     rax, r10
        imul    rax, r9
        movabs  rdx, 0
        div     r8
        mov     r10, rdx
        ret

        .data
secret: .quad   SECRET

        .bss
        .space  4096
stack:
