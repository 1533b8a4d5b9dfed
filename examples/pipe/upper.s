# Takes bytes from its console, makes small letters capital, and sends them to the next partition.
#
# Handle 1 is the channel to the console, with the interrupts 0 and 1; handle 2 the one to the next partition.

start:  lis     11, 1               # interrupt set mask
        ori     11, 11, 6
        li      3, 0                # received bytes on handle 1
        li      4, 0                # unmasked, so that they end a wait
        sc      1

take:   lis     11, 1               # byte channel receive
        ori     11, 11, 2
        li      3, 1
        li      4, 4                # at most four bytes, the first in the highest byte of r5
        sc      1
        cmplwi  4, 0
        beq     rest

        mr      30, 4               # so many are to be sent
        stw     5, word(0)
        mtctr   4
        li      9, 0
each:   lbz     10, word(9)
        addi    12, 10, -0x61       # a small letter is 0x61 to 0x7A,
        cmplwi  12, 25
        bgt     other
        addi    10, 10, -0x20       # and its capital 0x20 below
        stb     10, word(9)
other:  addi    9, 9, 1
        bdnz    each
        lwz     5, word(0)

send:   lis     11, 1               # byte channel send
        ori     11, 11, 1
        li      3, 2
        mr      4, 30
        sc      1
        subf    30, 4, 30           # r4 went; where the channel was full some are left,
        slwi    9, 4, 3
        slw     5, 5, 9             # which move to the front
        cmplwi  30, 0
        bne     send
        b       take

rest:   lis     11, 1               # idle: MSR[EE] is clear, so the wait just ends
        ori     11, 11, 16
        sc      1
        b       take

word:   .long   0
