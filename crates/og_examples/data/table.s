# The sum of four numbers that can only be read, and of one that can be written too, is stored over the latter and
# emitted; then the hart exits with 0.

        .globl  _start
        .text
_start:
        la      a2, table
        la      a3, total
        ld      a4, 0(a3)
        li      s0, 4
again:
        ld      t0, 0(a2)
        add     a4, a4, t0
        addi    a2, a2, 8
        addi    s0, s0, -1
        bnez    s0, again
        sd      a4, 0(a3)
        mv      a0, a4
        li      a7, 1
        ecall
        li      a0, 0
        li      a7, 93
        ecall

        .section .rodata
        .balign 8
table:
        .dword  1, 20, 300, 4000

        .data
        .balign 8
total:
        .dword  50000
