# Looks SECRET, 0 or 1, up in a table with a page for each: which page it loads from tells the secret.
# tools/image links it, by --define SECRET=0 with another secret. All numbers are 64 bits (movabs), all displacements 32 ({disp32}).
        .intel_syntax noprefix
        .ifndef SECRET
        .set    SECRET, 1
        .endif
        .globl  _start
_start: movabs  rbx, offset secret
        {disp32} mov rcx, [rbx]
        shl     rcx, 12
        movabs  rbx, offset table
        add     rbx, rcx
        {disp32} mov rdx, [rbx]
        movabs  rsi, 0
        movabs  rdi, 0
        movabs  rax, 4
        enclu

        .section .rodata
table:  .quad   11
        .balign 4096
        .quad   22

        .data
secret: .quad   SECRET
