# A jump to an address that isn't a multiple of 4.
    lui a1, 0x10
    jalr zero, 2(a1)
