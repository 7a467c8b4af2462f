# Adds the numbers from 10 down to 1 in memory, puts the sum out, and ends.
# The program may use the encodings of docs/INSTRUCTIONS.md alone: 64-bit numbers by movabs, 32-bit displacements by {disp32}.
        .intel_syntax noprefix
        .set    DATA, 0x10001000
        movabs  rbx, DATA
        movabs  rcx, 10
        movabs  rdx, 1
again:
        {disp32} mov rax, [rbx]
        add     rax, rcx
        {disp32} mov [rbx], rax
        sub     rcx, rdx
        {disp32} jne again
        {disp32} mov rsi, [rbx]
        movabs  rdi, 1
        movabs  rax, 4
        enclu
        movabs  rsi, 0
        movabs  rdi, 0
        movabs  rax, 4
        enclu
