# Hashes the eight bytes of SECRET by FNV-1a and puts the hash out. It makes the same accesses whatever they are: a kernel learns the hash
# alone. tools/image links it, by --define SECRET=N with another secret. All numbers are 64 bits (movabs), all displacements 32 ({disp32}), and moves of bytes have {rex}.
        .intel_syntax noprefix
        .ifndef SECRET
        .set    SECRET, 0x216e776164207461      # at dawn!
        .endif
        .globl  _start
_start: movabs  rbx, offset secret
        movabs  r9, offset end
        movabs  rsi, 0xcbf29ce484222325
        movabs  r8, 0x100000001b3
        movabs  r10, 1
next:   movabs  rcx, 0
        {rex} {disp32} mov cl, [rbx]
        xor     rsi, rcx
        imul    rsi, r8
        add     rbx, r10
        cmp     rbx, r9
        {disp32} jb next
        movabs  rdi, 1
        movabs  rax, 4
        enclu
        movabs  rsi, 0
        movabs  rdi, 0
        movabs  rax, 4
        enclu

        .section .rodata
secret: .quad   SECRET
end:
