# Prints 1, 2 and 3, and then reads where it has no memory. It hasn't enabled machine checks, so that is the end of it.
#
# Handle 1 is the channel to the console. The last digit is kept in memory, so a start that loads the memory begins at 1 again.

start:  li      20, digit
print:  lwz     21, 0(20)
        addi    21, 21, 1
        stw     21, 0(20)
        lis     11, 1               # byte channel send
        ori     11, 11, 1
        li      3, 1
        li      4, 1                # one byte,
        slwi    5, 21, 24           # the highest of r5
        sc      1
        cmpwi   21, 0x33
        blt     print
        lis     22, 0x10            # behind its 64 KiB
        lwz     22, 0(22)

digit:  .long   0x30
