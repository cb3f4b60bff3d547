# A load at an address that isn't a multiple of its width.
    lui a1, 0x100
    lw a2, 2(a1)
