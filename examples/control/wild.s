# Stops and copies what it doesn't manage, rings a doorbell that it hasn't, floods its console, and writes where it has no
# memory. It hasn't enabled machine checks, so that is the end of it.
#
# Handle 1 is the channel to the console. There is no other.

start:  lis     11, 2               # stop
        ori     11, 11, 7
        li      3, 1
        sc      1
        lis     11, 2               # memcpy
        ori     11, 11, 8
        li      3, 1
        li      4, -1
        li      5, 0
        li      6, 0
        li      7, 1
        sc      1
        lis     11, 1               # doorbell send
        ori     11, 11, 14
        li      3, 2
        sc      1
        lis     11, 1               # byte channel send
        ori     11, 11, 1
        li      3, 1
        li      4, 16               # sixteen bytes
        lis     5, 0x2121
        ori     5, 5, 0x2121
        mr      6, 5
        mr      7, 5
        mr      8, 5
        sc      1
        lis     9, 0x7f             # behind its 64 KiB
        stw     5, 0(9)
