# A load at an address with no page.
    lui a1, 0x200           # no page of data or stack
    lw a2, 0(a1)
