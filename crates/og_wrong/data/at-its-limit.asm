# A jump to itself: it uses up its events.
    jal zero, 0
