# A jump to where no code is.
    lui a1, 0x100           # an address of data, which isn't runnable
    jalr zero, 0(a1)
