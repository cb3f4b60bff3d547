# A breakpoint.
    ebreak
