# A page that is shared and stays. Harts 1 and 2 add to a word in each of 16 blocks of a page, again and again; hart 0 does
# nothing.
#
#   ./origin assemble examples/page-stays.asm > examples/page-stays.raw
#   ./origin simulate examples/page-stays.raw --raw --nodes 3 --trigger 8 --sharing 4
#
# The page at 0x100000 stands in frame 0.0, so node 0 is its home. Both users are ahead of it soon, by 8 requests. But a move to
# one of them would take the page away from the other: the mover refuses it where a third node has made as many requests as
# `--sharing` says.
# To look for: the lines of `no shared`, with the frame, and the node that would have got the page. With `--sharing 1000` the
# page moves, though nothing is gained by it.
    beq a0, zero, done
    addi s1, zero, 4        # how many rounds
    addi s2, zero, 1
again:
    lui s0, 0x100           # the page
    addi s3, zero, 16       # how many blocks
work:
    amoadd.d zero, s2, (s0)
    addi s0, s0, 128        # the next block
    addi s3, s3, -1
    bne s3, zero, work
    addi s1, s1, -1
    bne s1, zero, again
done:
    addi a7, zero, 93
    addi a0, zero, 0
    ecall
