# Prints what comes from the partition before it.
#
# Handle 1 is the channel from that partition, with the interrupts 0 and 1; handle 2 the one to the console, which takes all at once.

start:  lis     11, 1               # interrupt set mask
        ori     11, 11, 6
        li      3, 0                # received bytes on handle 1
        li      4, 0                # unmasked, so that they end a wait
        sc      1

take:   lis     11, 1               # byte channel receive
        ori     11, 11, 2
        li      3, 1
        li      4, 16               # at most sixteen bytes, in r5 to r8
        sc      1
        cmplwi  4, 0
        beq     rest
        lis     11, 1               # byte channel send: count and bytes stand where they are wanted
        ori     11, 11, 1
        li      3, 2
        sc      1
        b       take

rest:   lis     11, 1               # idle: MSR[EE] is clear, so the wait just ends
        ori     11, 11, 16
        sc      1
        b       take
