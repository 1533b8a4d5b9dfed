# Sleeps, and at each ring of a doorbell says on its console which ring it is.
#
# Handle 1 is the doorbell that rings, with the interrupt 0; handle 2 the channel to the console.

start:  li      3, 0
        mtspr   63, 3               # IVPR: the handler lies below 0x10000
        li      3, rings
        mtspr   404, 3              # IVOR4: external interrupts
        li      21, 0x30            # the digit of the last ring
        lis     11, 1               # interrupt set mask
        ori     11, 11, 6
        li      3, 0                # the doorbell's
        li      4, 0                # unmasked
        sc      1
        wrteei  1                   # MSR[EE]: from here on it is entered

sleep:  lis     11, 1               # idle
        ori     11, 11, 16
        sc      1
        b       sleep

# The loop above keeps nothing in registers but r21, so the handler saves none. It begins with MSR[EE] clear. A ring may come
# while the loop is at its two first instructions, so r11 is as the loop has it when the handler returns.
        .balign 16
rings:  mr      12, 11
        lis     11, 1               # interrupt acknowledge
        ori     11, 11, 9
        sc      1
        mr      20, 4               # the number of the interrupt
        addi    21, 21, 1
        lis     11, 1               # byte channel send
        ori     11, 11, 1
        li      3, 2
        li      4, 1                # one byte,
        slwi    5, 21, 24           # the highest of r5
        sc      1
        lis     11, 1               # end of interrupt
        ori     11, 11, 10
        mr      3, 20
        sc      1
        mr      11, 12
        rfi
