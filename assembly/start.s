# Where a C program begins: it calls `main` on a stack of four pages, and ends with what `main` gives as its status. `input` and `output`
# call out; the program goes on where the kernel enters again. tools/image links it with C and assembly, as docs/TOOLS.md shows.
        .intel_syntax noprefix
        .globl  _start, input, output
_start: movabs  rsp, offset stack_top
        call    main
        mov     rsi, rax
        movabs  rdi, 0
        movabs  rax, 4
        enclu

input:  movabs  rdi, 2
        movabs  rax, 4
        enclu
        ret

output: mov     rsi, rdi
        movabs  rdi, 1
        movabs  rax, 4
        enclu
        ret

        .bss
        .balign 16
stack:  .space  16384
stack_top:
