# Answers each letter that it is given by the capital one, and rings. At the third one it goes round for ever. It notes the letters
# that it was given, the last one first.
#
# Handle 1 is the channel to the one that asks, handle 2 the doorbell that rings there.

start:  li      20, note
        li      21, 3               # so many letters
serve:  lis     11, 1               # byte channel receive
        ori     11, 11, 2
        li      3, 1
        li      4, 1                # one byte, to r5
        sc      1
        cmpwi   4, 0
        beq     serve
        lwz     22, 0(20)
        srwi    22, 22, 8
        or      22, 22, 5
        stw     22, 0(20)
        addi    21, 21, -1
        cmpwi   21, 0
        beq     hang
        xoris   5, 5, 0x2000        # its capital letter
        lis     11, 1               # byte channel send
        ori     11, 11, 1
        li      3, 1
        li      4, 1
        sc      1
        lis     11, 1               # doorbell send
        ori     11, 11, 14
        li      3, 2
        sc      1
        b       serve

hang:   b       hang

        .org    0x100
note:   .long   0
