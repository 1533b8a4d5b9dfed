# Rings its doorbell three times, each time after some work, and then waits for good.
#
# Handle 1 is the doorbell.

start:  li      20, 3               # so many rings
work:   li      9, 10               # the work: a loop of ten rounds
        mtctr   9
round:  bdnz    round
        lis     11, 1               # doorbell send
        ori     11, 11, 14
        li      3, 1
        sc      1
        addi    20, 20, -1
        cmplwi  20, 0
        bne     work
rest:   lis     11, 1               # idle; every interrupt is masked, so nothing ends it
        ori     11, 11, 16
        sc      1
        b       rest
