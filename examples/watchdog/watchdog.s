# Asks again and again whether the partition runs that it manages. Where it doesn't, says so on its console, and starts it with
# its memory loaded anew.
#
# Handle 1 is the channel to the console; handle 2 manages the other partition.

start:  lis     11, 2               # get status
        ori     11, 11, 5
        li      3, 2
        sc      1
        cmpwi   4, 0
        bne     start
        lis     11, 1               # byte channel send
        ori     11, 11, 1
        li      3, 1
        li      4, 5                # five bytes,
        lis     5, 0x646f           # "down" and a line feed
        ori     5, 5, 0x776e
        lis     6, 0x0a00
        sc      1
        lis     11, 2               # start
        ori     11, 11, 6
        li      3, 2
        li      4, 0                # at its entry,
        li      5, 1                # with its memory loaded anew
        sc      1
        b       start
