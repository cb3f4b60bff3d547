# A page that follows its user. First hart 1 adds to a word in each of the page's 32 blocks, three times; and then hart 0.
#
#   ./origin assemble examples/page-follows.asm > examples/page-follows.raw
#   ./origin simulate examples/page-follows.raw --raw --nodes 2 --trigger 8
#
# The page at 0x100000 stands in frame 0.0 at first, so node 0 is its home. Node 0 counts whose requests come for it, and where
# a node is ahead of the home by 8, it tells the mover, which moves the page to that node.
# To look for: `begin` and `move`, with the frame that the page leaves and the one that it gets: first to node 1, and then,
# once hart 0 is the user, back to node 0, in another frame. Before the first move hart 1's requests go to node 0
# (`take 0 1 ..`), after it to node 1 itself (`take 1 1 ..`). The additions go on while the page moves.
    lui s0, 0x100           # the page
    lui s1, 0x70000         # whose turn it is: a word in the stack page of hart 0
    addi s2, zero, 1
    sub s3, s2, a0          # hart 1's turn is 0, hart 0's is 1
    addi s4, zero, 32       # so many blocks
turn:
    lw t0, 0(s1)
    bne t0, s3, turn
block:
    addi s5, zero, 3        # so many additions to each
work:
    amoadd.d a0, s2, (s0)
    addi s5, s5, -1
    bne s5, zero, work
    addi s0, s0, 128        # the next block
    addi s4, s4, -1
    bne s4, zero, block
    addi t0, s3, 1          # the other's turn
    sw t0, 0(s1)
    addi a7, zero, 93       # exits with the word in the last block, before its last addition
    ecall
