# A reservation that outlives the eviction of its line and a move of its page. Hart 0 reserves a word, throws its line out by
# another block, and waits. Meanwhile hart 1 reads the page until it moves. Nobody stores, so the store-conditional succeeds.
#
#   ./origin assemble examples/reserve-far.asm > examples/reserve-far.raw
#   ./origin simulate examples/reserve-far.raw --raw --nodes 2 --sets 1 --ways 1 --trigger 3
#
# To look for: `lr` of hart 0; `begin` and `move` of the page at 0x100000; then `sc` of hart 0, which answers 0.
        lui   a1, 256               # 0x100000
        addi  t0, zero, 160
        bne   a0, zero, reads
        lr.w  t2, (a1)
        lw    t1, 128(a1)
waits:  addi  t0, t0, -1
        bne   t0, zero, waits
        sc.w  a0, t2, (a1)
        jal   zero, ends
reads:  lw    t1, 0(a1)
        lw    t1, 256(a1)
        addi  t0, t0, -8
        bne   t0, zero, reads
        addi  a0, zero, 0
ends:   addi  a7, zero, 93
        ecall
