# A word is stored, loaded back, and the program exits with 0.
    lui a1, 0x100           # a1 is 0x100000, the first address of data
    addi a2, zero, 42
    sw a2, 0(a1)            # stores the word 42
    lw a3, 0(a1)            # loads it
    addi a7, zero, 93       # the number of the exit call
    addi a0, zero, 0        # the value to exit with
    ecall
