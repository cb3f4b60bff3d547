# A word that is no instruction.
    addi a0, zero, 1
    .word 0
